/* A plain model of what a session holds: trees as one draws them on paper, with no numbers, and the text of a document. It uses
 * nothing of the library. */
#ifndef MODEL_H
#define MODEL_H

#include <stdbool.h>
#include <stddef.h>
#include <stdint.h>

/* A text. */
struct text {
    char *at;
    size_t len;
};

/* An error or a warning: its message, followed by its hints. */
struct report {
    struct text *texts;
    size_t count;
};

struct node {
    uint32_t kind;
    bool inner;
    /* The error that the node is, if it is one, and then its warnings, from the innermost to the outermost. */
    struct report *reports;
    size_t report_count;
    /* The text of a leaf or an error. */
    char *text;
    size_t len;
    /* The children of an inner node. */
    struct node **children;
    size_t count;
};

struct node *node_leaf(uint32_t kind, const char *text, size_t len);
struct node *node_inner(uint32_t kind, struct node **children, size_t count);
struct node *node_copy(const struct node *node);

/* These add one more report to a node, with a message, and one more text after the texts of its last report. */
void node_report(struct node *node, const char *message, size_t len);
void node_hint(struct node *node, const char *text, size_t len);

void node_free(struct node *node);

/* How long the text of a tree is, how many nodes it has, and whether it holds an error or a warning. */
size_t node_len(const struct node *node);
size_t node_size(const struct node *node);
bool node_errs(const struct node *node);
bool node_warns(const struct node *node);

/* Whether there is a warning around the node itself. */
bool is_warned(const struct node *node);

/* Whether two trees have the same kinds, texts, messages, hints and warnings. */
bool node_same(const struct node *node, const struct node *other);

/* Writes the nodes of a tree in preorder after others, and returns where they end. */
const struct node **node_list(const struct node *node, const struct node **out);

/* How many bytes are before the node that a path leads to. */
size_t node_offset(const struct node *root, const size_t *path, size_t depth);

/* Finds the nearest leaf that isn't trivia, or error with a text, after the node at a path or before it. It skips trivia among the
 * siblings of the node and of the nodes above it, with all that is in them. It writes the path of what it finds, and tells whether
 * there is one. */
bool leaf_near(const struct node *root, const size_t *path, size_t depth, bool behind, size_t *found, size_t *found_depth);

/* Finds the nearest sibling that isn't trivia, after the node at a path or before it: its index, and whether there is one. */
bool sibling_near(const struct node *root, const size_t *path, size_t depth, bool behind, size_t *index);

/* Writes the text of a tree after others, and returns where it ends. */
char *node_write(const struct node *node, char *out);

/* The node that a path leads to, or null. */
struct node *node_at(struct node *root, const size_t *path, size_t depth);

/* Finds the first node without children whose text covers a cursor: its path, where its text begins, and whether there is one. */
bool leaf_at(const struct node *root, size_t cursor, bool before, size_t *path, size_t *depth, size_t *offset);

/* Whether a kind is a shebang, a comment, a space or a paragraph break. */
bool kind_is_trivia(uint32_t kind);

/* Whether these bytes are UTF-8, and whether a place in a text of UTF-8 is between two characters. */
bool is_utf8(const char *text, size_t len);
bool is_boundary(const char *text, size_t len, size_t at);

/* A place in a text: its byte, its line and its column. All count from 0. */
struct spot {
    size_t byte, line, column;
};

/* Walks over the places between the characters of a text, up to the place with the byte of a spot, or with its line and column. It
 * writes the byte, the line and the column of that place into the spot. Columns count bytes (0), characters (1) or units of UTF-16
 * (2). It returns false if there is no such place. */
bool spot_at(const char *text, size_t len, uint32_t ends, uint32_t unit, bool by_byte, struct spot *spot);

#endif
