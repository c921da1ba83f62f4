/* Makes the same call often, so that its instructions can be counted.
 *
 *     growth CALL SIZE TIMES
 *
 * makes it so often. The calls are `edit`, which inserts a letter in the middle of a text of SIZE lines, and removes it
 * in the next turn; `wrap`, which makes a node over a chain of SIZE levels; `node`, which reads the last node of such a
 * chain; and `preorder`, which reads them all. */
#include "typst.h"

#include <stdio.h>
#include <stdlib.h>
#include <string.h>

static typst_session session = TYPST_SESSION_INIT;

/* Ends the program if a call wasn't done. */
static void need(typst_status status)
{
    if (status == TYPST_DONE) return;
    fprintf(stderr, "%s\n", typst_status_text(status));
    exit(1);
}

static void *room(size_t count, size_t size)
{
    void *made = calloc(count, size);
    if (!made) exit(1);
    return made;
}

static void edit(size_t lines, unsigned long times)
{
    static const char line[] = "Some *strong* words.\n\n";
    size_t len = sizeof line - 1, at = lines / 4 * len + 3;
    char *text = room(lines / 2, len);
    typst_edited edited;
    for (size_t i = 0; i < lines / 2; i++) memcpy(text + i * len, line, len);
    need(typst_open(&session, 1, text, lines / 2 * len));
    free(text);
    for (unsigned long i = 0; i < times; i++) {
        if (i % 2 == 0) need(typst_edit(&session, at, at, "x", 1, &edited));
        else need(typst_edit(&session, at, at + 1, "", 0, &edited));
    }
}

/* Pushes a chain of `levels` nodes. */
static void push_chain(size_t levels)
{
    need(typst_push_leaf(&session, TYPST_KIND_TEXT, "a", 1));
    for (size_t i = 1; i < levels; i++) need(typst_wrap(&session, TYPST_KIND_MARKUP, 1));
}

/* Makes a chain of `levels` nodes, and reads the last one or all of them. */
static void chain(size_t levels, unsigned long times, int reads_all)
{
    size_t *path = room(levels, sizeof *path);
    typst_node_info *infos = room(levels, sizeof *infos);
    typst_length length;
    push_chain(levels);
    need(typst_number(&session, 1, TYPST_FIRST_NUMBER, TYPST_END_NUMBER));
    for (unsigned long i = 0; i < times; i++) {
        if (reads_all) need(typst_preorder(&session, path, 0, infos, levels, &length));
        else need(typst_node(&session, path, levels - 1, infos));
    }
    free(path);
    free(infos);
}

int main(int argc, char **argv)
{
    if (argc != 4) return 2;
    size_t size = strtoul(argv[2], NULL, 10);
    unsigned long times = strtoul(argv[3], NULL, 10);
    need(typst_new(&session));
    if (strcmp(argv[1], "edit") == 0) edit(size, times);
    else if (strcmp(argv[1], "wrap") == 0) push_chain(size + times);
    else chain(size, times, strcmp(argv[1], "preorder") == 0);
    typst_free(&session);
    return 0;
}
