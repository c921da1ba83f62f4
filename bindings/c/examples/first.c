/* The first program: it opens a text, edits it, and finds a heading again by its number. */
#include "typst.h"

#include <stdio.h>
#include <stdlib.h>
#include <string.h>

/* Ends the program if a call wasn't done. */
static void need(const char *what, typst_status status)
{
    if (status == TYPST_DONE) return;
    fprintf(stderr, "%s: %s\n", what, typst_status_text(status));
    exit(1);
}

int main(void)
{
    static const char text[] = "First words.\n\n= Trees\n\nLast words.\n", added[] = "A word before.\n\n";
    typst_session session = TYPST_SESSION_INIT;
    size_t child, path[TYPST_DOCUMENT_DEPTH];
    typst_node_info heading;
    typst_edited done;
    typst_place place;
    typst_line_column at;

    need("a session", typst_try_new(&session));
    need("a document", typst_try_open(&session, 1, text, strlen(text)));
    need("a heading", typst_try_child_of_class(&session, NULL, 0, TYPST_KIND_HEADING, 0, TYPST_FROM_FIRST, &child));
    need("the heading", typst_try_node(&session, &child, 1, &heading));

    /* Somebody writes a paragraph before the heading. */
    need("an edit", typst_try_edit(&session, 0, 0, added, strlen(added), &done));
    printf("bytes %zu..%zu were parsed anew\n", done.start, done.end);

    /* The number is followed over the edit, and leads to the heading, wherever it is now. */
    need("the heading", typst_try_follow(&session, heading.number, &heading.number));
    need("the heading", typst_try_find(&session, heading.number, path, TYPST_DOCUMENT_DEPTH, &place));
    need("its line", typst_try_byte_to_line_column(&session, place.offset, TYPST_CHARACTERS, &at));
    printf("the heading is in line %zu, bytes %zu..%zu\n", at.line + 1, place.offset, place.offset + heading.len);
    typst_free(&session);
    return 0;
}
