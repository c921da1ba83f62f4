/* A bookmark is the number of a node. It is followed once after each edit, and is 0 once the node is gone. */
#include "typst.h"

#include <stdio.h>
#include <stdlib.h>
#include <string.h>

/* Ends the program if a call wasn't done. */
static void need(typst_status status)
{
    if (status == TYPST_DONE) return;
    fprintf(stderr, "%s\n", typst_status_text(status));
    exit(1);
}

/* Edits the text, follows the bookmark, and prints where it is. */
static void edit(typst_session *session, uint64_t *bookmark, size_t from, size_t to, const char *with)
{
    size_t path[TYPST_DOCUMENT_DEPTH];
    char text[80];
    typst_edited done;
    typst_place place;
    typst_length length;

    need(typst_try_edit(session, from, to, with, strlen(with), &done));
    if (*bookmark && typst_try_follow(session, *bookmark, bookmark) != TYPST_DONE) *bookmark = 0;
    if (!*bookmark) {
        puts("the heading is gone");
        return;
    }
    need(typst_try_find(session, *bookmark, path, TYPST_DOCUMENT_DEPTH, &place));
    need(typst_try_full_text(session, path, place.depth, text, sizeof text, &length));
    printf("bytes %zu..%zu: %.*s\n", place.offset, place.offset + length.len, (int)length.len, text);
}

int main(void)
{
    static const char text[] = "First words.\n\n= Tree\n\nLast words.\n";
    typst_session *session = typst_session_new();
    typst_node_info heading;
    size_t child;

    need(typst_try_open(session, 1, text, sizeof text - 1));
    need(typst_try_child_of_class(session, NULL, 0, TYPST_KIND_HEADING, 0, TYPST_FROM_FIRST, &child));
    need(typst_try_node(session, &child, 1, &heading));
    uint64_t bookmark = heading.number;
    /* A paragraph comes before the heading. */
    edit(session, &bookmark, 0, 0, "A word before.\n\n");
    /* A letter comes into its title, and the title becomes bold. */
    edit(session, &bookmark, 36, 36, "s");
    edit(session, &bookmark, 32, 37, "*Trees*");
    /* An equal heading is inserted before it, and then another one comes with its own line. */
    edit(session, &bookmark, 30, 30, "= *Trees*\n\n");
    edit(session, &bookmark, 41, 50, "= *Trees*\n\n= *Trees*");
    /* It is deleted, and the deletion is undone. */
    edit(session, &bookmark, 41, 52, "");
    edit(session, &bookmark, 41, 41, "= *Trees*\n\n");
    typst_session_free(session);
    return 0;
}
