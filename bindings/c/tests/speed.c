/* Times calls of the library on trees and texts of the same shapes as in crates/typst_bench.
 *
 *     speed
 *
 * prints a line `ROW: NANOSECONDS` for each row: the processor time of a call, of a node of a walk, or of an edit. */
#include "typst.h"

#include <stdint.h>
#include <stdio.h>
#include <stdlib.h>
#include <string.h>
#include <time.h>

enum { PARAGRAPHS = 8300, IN_A_SECTION = 50, ROUNDS = 20000, LINES = 1000, DEPTH = 8 };

static typst_session session = TYPST_SESSION_INIT;

/* Ends the program if a call wasn't done. */
static void need(typst_status status)
{
    if (status == TYPST_DONE) return;
    fprintf(stderr, "%s\n", typst_status_text(status));
    exit(1);
}

static double now(void)
{
    struct timespec time;
    clock_gettime(CLOCK_PROCESS_CPUTIME_ID, &time);
    return (double)time.tv_sec * 1e9 + (double)time.tv_nsec;
}

static void tell(const char *row, double begun, double steps)
{
    printf("%s: %.1f\n", row, (now() - begun) / steps);
}

/* The place, of so many, that a round goes to. It comes from Fibonacci hashing, as in crates/typst_bench. */
static size_t place(uint64_t round, size_t size)
{
    return (size_t)((round * UINT64_C(0x9E3779B97F4A7C15) >> 32) % size);
}

static void leaf(uint32_t kind, const char *text)
{
    need(typst_push_leaf(&session, kind, text, strlen(text)));
}

/* A tree of paragraphs `some words *bold*.`, with fifty paragraphs in a section. */
static void build(void)
{
    for (size_t section = 0; section < PARAGRAPHS / IN_A_SECTION; section++) {
        for (size_t paragraph = 0; paragraph < IN_A_SECTION; paragraph++) {
            leaf(TYPST_KIND_TEXT, "some");
            leaf(TYPST_KIND_SPACE, " ");
            leaf(TYPST_KIND_TEXT, "words");
            leaf(TYPST_KIND_SPACE, " ");
            leaf(TYPST_KIND_STAR, "*");
            leaf(TYPST_KIND_TEXT, "bold");
            need(typst_wrap(&session, TYPST_KIND_MARKUP, 1));
            leaf(TYPST_KIND_STAR, "*");
            need(typst_wrap(&session, TYPST_KIND_STRONG, 3));
            leaf(TYPST_KIND_TEXT, ".");
            leaf(TYPST_KIND_PARBREAK, "\n\n");
            need(typst_wrap(&session, TYPST_KIND_MARKUP, 7));
        }
        need(typst_wrap(&session, TYPST_KIND_MARKUP, IN_A_SECTION));
    }
    need(typst_wrap(&session, TYPST_KIND_MARKUP, PARAGRAPHS / IN_A_SECTION));
    need(typst_number(&session, 1, TYPST_FIRST_NUMBER, TYPST_END_NUMBER));
}

/* Visits each node below a path by its path, as a cursor does. */
static size_t go(size_t *path, size_t depth)
{
    typst_node_info info;
    size_t nodes = 1;
    need(typst_node(&session, path, depth, &info));
    for (path[depth] = 0; path[depth] < info.children; path[depth]++) nodes += go(path, depth + 1);
    return nodes;
}

static void time_walks(typst_node_info *nodes, size_t count)
{
    typst_length length;
    size_t path[DEPTH] = {0};
    double begun = now();
    for (int round = 0; round < 5; round++) need(typst_preorder(&session, path, 0, nodes, count, &length));
    tell("all nodes by typst_preorder, a node", begun, 5.0 * (double)count);
    begun = now();
    size_t seen = go(path, 0);
    tell("all nodes by typst_node, a path at a time, a node", begun, (double)seen);
}

static void time_reads(const typst_node_info *nodes, size_t count)
{
    size_t path[DEPTH];
    typst_place found;
    typst_node_info info;
    double begun = now();
    for (uint64_t round = 0; round < ROUNDS; round++) need(typst_pop(&session, 0));
    tell("a bare crossing: typst_pop of no node", begun, ROUNDS);
    begun = now();
    for (uint64_t round = 0; round < ROUNDS; round++) {
        path[0] = place(round, PARAGRAPHS / IN_A_SECTION);
        path[1] = round % IN_A_SECTION;
        path[2] = round % 7;
        need(typst_node(&session, path, 3, &info));
    }
    tell("typst_node at a path of three", begun, ROUNDS);
    begun = now();
    for (uint64_t round = 0; round < ROUNDS; round++) need(typst_find(&session, nodes[place(round, count)].number, path, DEPTH, &found));
    tell("a node by its number", begun, ROUNDS);
}

static void time_edits(void)
{
    typst_window window;
    typst_edited edited;
    static const char paragraph[] = "= A heading\nSome *strong* words, _emphasis_ and a line.\n- an item with `raw text`\n\n";
    size_t len = sizeof paragraph - 1, path[2];
    double begun = now();
    for (uint64_t round = 0; round < ROUNDS; round++) {
        path[0] = place(round, PARAGRAPHS / IN_A_SECTION);
        path[1] = round % IN_A_SECTION;
        leaf(TYPST_KIND_TEXT, "cake");
        need(typst_replace(&session, path, 2, 0, 1, 1, &window));
    }
    tell("a leaf by one as long", begun, ROUNDS);
    char *text = malloc(LINES / 4 * len);
    if (!text) abort();
    for (size_t i = 0; i < LINES / 4; i++) memcpy(text + i * len, paragraph, len);
    need(typst_open(&session, 1, text, LINES / 4 * len));
    size_t at = LINES / 8 * len + 40;
    begun = now();
    for (int round = 0; round < 1000; round++) {
        need(typst_edit(&session, at, at, "x", 1, &edited));
        need(typst_edit(&session, at, at + 1, "", 0, &edited));
    }
    tell("a letter in a text of 1,000 lines", begun, 2000);
    free(text);
}

int main(void)
{
    typst_node_info root;
    need(typst_new(&session));
    build();
    size_t path[1] = {0};
    need(typst_node(&session, path, 0, &root));
    typst_node_info *nodes = malloc(root.descendants * sizeof *nodes);
    if (!nodes) abort();
    time_walks(nodes, root.descendants);
    time_reads(nodes, root.descendants);
    time_edits();
    free(nodes);
    typst_free(&session);
    return 0;
}
