/** @file typst.h
 * The syntax tree of Typst documents, from C.
 *
 * A session holds a stack of nodes that are being built, and at most one tree. The tree is either a numbered tree that was built on
 * the stack, or the tree of a document. A document is a text of Typst that is edited as a text.
 *
 * Most calls return a status. After any status other than TYPST_DONE the session holds what it held before the call, and the call has
 * written nothing to the memory that it was passed. There are two exceptions. With TYPST_SHORT_BUFFER a call writes the length that it
 * needs, and all that it returns beside the buffer. After `typst_new` without memory the session holds nothing.
 *
 * If several statuses fit, a call returns the first of them in its list. The two statuses of memory and size have no place in that
 * order: TYPST_NO_MEMORY comes as soon as memory is refused, and TYPST_OVERFLOW as soon as a sum doesn't fit.
 *
 * What is proved of each call holds if the caller keeps the following rules. No call can test them:
 *
 * - A session comes from `typst_session_new`. Or it is a struct of the caller's own, which TYPST_SESSION_INIT makes all zero before
 *   the first call. After that only calls change it. It is never copied.
 * - Calls on one session come one at a time. They may come from different threads. Two sessions share nothing, so two threads may use
 *   two sessions at the same time. A call that gets two sessions uses both.
 * - No call comes from a signal handler, or from the forked child of a process with threads.
 * - A text, a path or a buffer is a pointer to as many elements as the number after it says. No pointer is null, even if the number
 *   is 0. The functions `typst_try_` below test for null pointers, and accept a null pointer with the number 0.
 * - The memory that a call writes to overlaps with nothing else that is passed to the call, and is aligned as its type asks.
 * - The stack is large enough: a call on a tree goes as deep as the tree.
 * - `malloc` and `realloc` align a block to each power of two up to 16 that divides its size.
 * - The processor has the instructions of x86-64-v2.
 *
 * Places and lengths of texts are in bytes. A path is the child indices from the root down; the path of the root is empty. A path
 * leads to the same node until the next call that changes the tree. A number identifies a node while the tree is edited, if it is
 * followed after each edit (`typst_follow`).
 */
#ifndef TYPST_H
#define TYPST_H

#include <assert.h>
#include <stddef.h>
#include <stdint.h>
#include <stdlib.h>

#include "typst_accessors.h"
#include "typst_kinds.h"

/** The version of this header, 0.2.0: 10,000 times the first number, 100 times the second number and the third number. */
#define TYPST_TREE_VERSION 200

/** Stands before a function whose result must be read. */
#if defined(__GNUC__) || defined(__clang__)
#define TYPST_NODISCARD __attribute__((warn_unused_result))
#else
#define TYPST_NODISCARD
#endif

#ifdef __cplusplus
extern "C" {
#endif

/** A session, or nothing if it is all zero. */
typedef struct typst_session {
    uint64_t made;
    void *at;
} typst_session;

/** What a session of the caller's own is before the first call: `typst_session session = TYPST_SESSION_INIT;`. */
#define TYPST_SESSION_INIT {0, NULL}

/** The result of a call: one of the constants below. */
typedef uint32_t typst_status;

enum {
    /** The call was done. */
    TYPST_DONE = 0,
    /** The session holds nothing: it needs a call of `typst_new` first. */
    TYPST_NOT_MADE = 1,
    /** Memory was refused. */
    TYPST_NO_MEMORY = 2,
    /** The number is no kind, or TYPST_KIND_ERROR, which no leaf and no inner node has. */
    TYPST_BAD_KIND = 3,
    /** The text isn't UTF-8. */
    TYPST_BAD_TEXT = 4,
    /** The stack has too few nodes. */
    TYPST_SHORT_STACK = 5,
    /** The length of the text or the number of nodes would not fit in a `size_t`. */
    TYPST_OVERFLOW = 6,
    /** The session holds no tree. */
    TYPST_NO_TREE = 7,
    /** The tree is the tree of a document, which is edited as a text. */
    TYPST_IS_DOCUMENT = 8,
    /** The session holds no document. */
    TYPST_NO_DOCUMENT = 9,
    /** The number of the file is 0, which is no file. */
    TYPST_BAD_FILE = 10,
    /** The range of numbers doesn't lie within TYPST_FIRST_NUMBER .. TYPST_END_NUMBER. */
    TYPST_BAD_NUMBERS = 11,
    /** There are fewer numbers than nodes. */
    TYPST_UNNUMBERABLE = 12,
    /** The path leads to no node. */
    TYPST_NO_NODE = 13,
    /** The path leads to a leaf or an error, which has no children. */
    TYPST_IS_LEAF = 14,
    /** The range isn't a range of the node's children, or not a range of the text with both ends between characters. */
    TYPST_BAD_RANGE = 15,
    /** There is no such node. */
    TYPST_NOT_FOUND = 16,
    /** The buffer is too short. The call writes the length that is needed. */
    TYPST_SHORT_BUFFER = 17,
    /** The last node of the stack can have no hints: it isn't an error, and has no warning. */
    TYPST_NO_HINTS = 18,
    /** The number is no set of kinds. */
    TYPST_BAD_SET = 19,
    /** The text has no such place: the byte is past its end or within a character, or no byte has that line and column. */
    TYPST_NO_PLACE = 20,
    /** The number is no accessor of a view. */
    TYPST_BAD_ACCESSOR = 21,
    /** The tree wasn't edited since it was made or numbered, or its last edit was `typst_replace`, which can't be followed. */
    TYPST_NO_EDIT = 22,
    /** A pointer was null. Only functions whose names begin with `typst_try_` return this. */
    TYPST_NULL = 255
};

/** The lowest number of a node. */
#define TYPST_FIRST_NUMBER ((uint64_t)2)
/** The number after the highest number of a node. */
#define TYPST_END_NUMBER ((uint64_t)1 << 47)

/** What one call reads of a node. */
typedef struct typst_node_info {
    /** The number of its span, at least TYPST_FIRST_NUMBER. No two nodes of a tree have the same number. */
    uint64_t number;
    /** Its bound, a number above the numbers of all nodes below it. */
    uint64_t bound;
    /** The length of its text. */
    size_t len;
    /** How many children it has. */
    size_t children;
    /** How many nodes its tree has, itself included. */
    size_t descendants;
    /** Its kind, a TYPST_KIND_ constant. */
    uint32_t kind;
    /** 1 for a leaf and for an error whose text isn't empty, else 0. */
    uint8_t leaf;
    /** 1 for an inner node, else 0. */
    uint8_t inner;
    /** 1 if its tree holds an error, else 0. */
    uint8_t errors;
    /** 1 if its tree holds a warning, else 0. */
    uint8_t warnings;
} typst_node_info;

/** The most child indices in a path of a document. */
#define TYPST_DOCUMENT_DEPTH 255

/** Where a node was found. */
typedef struct typst_place {
    /** The number of child indices in its path. */
    size_t depth;
    /** Where its text begins. */
    size_t offset;
} typst_place;

/** The length of a text, or a number of nodes. */
typedef struct typst_length {
    size_t len;
} typst_length;

/** A range of bytes of a text. */
typedef struct typst_range {
    /** Where the range begins. */
    size_t start;
    /** Where it ends: the byte after its last one. */
    size_t end;
} typst_range;

/** A place in a text, by its line and column. Both count from 0. */
typedef struct typst_line_column {
    size_t line;
    /** How much of the line is before the place. */
    size_t column;
} typst_line_column;

/** What an accessor returns for a node. Fields that its form doesn't use are 0. */
typedef struct typst_answer {
    /** The natural number, 1 for true and 0 for false, the code of a character, or the number of a node. */
    uint64_t number;
    /** The integer with a sign. */
    int64_t integer;
    /** The length of the text. */
    size_t len;
    /** A TYPST_ANSWER_ constant. */
    uint32_t form;
} typst_answer;

/** An error, a warning or a hint. */
typedef struct typst_diagnostic {
    /** The number of the node that it is about. It is 1 if it is about no node, as most hints are. */
    uint64_t number;
    /** Where the bytes that it is about begin in the tree's text, or 0 if it is about none. */
    size_t start;
    /** Where they end, or 0 if it is about none. */
    size_t end;
    /** The length of its text. */
    size_t len;
    /** A TYPST_SEVERITY_ constant. */
    uint32_t severity;
    /** 1 if it is about bytes of the text, else 0. */
    uint32_t placed;
} typst_diagnostic;

/** The sizes of the diagnostics of a tree. */
typedef struct typst_diagnostic_sizes {
    /** The number of errors, warnings and hints. */
    size_t count;
    /** The length of all their texts together. */
    size_t len;
} typst_diagnostic_sizes;

/** The range of children that an edit numbered anew, with all nodes below them. It is empty if no child was. */
typedef struct typst_window {
    /** The index of the first child. */
    size_t start;
    /** The index after the last child. */
    size_t end;
    /** How many windows were tried: 1 if the first one had room for the new numbers. */
    size_t tried;
} typst_window;

/** What an edit changed of the tree: children of one node, or the root itself. */
typedef struct typst_change {
    /** The number of child indices in the path to that node. */
    size_t depth;
    /** Which of its children were numbered anew. If `tried` is 0, the child `start` was a leaf or an error that changed into another
     *  one of its kind. It kept its number, and so did all other nodes. */
    typst_window window;
    /** How many nodes that stay were numbered anew. */
    size_t moved;
    /** 1 if the root itself was changed, else 0. Only `typst_update` changes it. All other fields are then 0. */
    uint32_t root;
} typst_change;

/** What an edit of a document did. */
typedef struct typst_edited {
    /** Where the bytes that were parsed anew begin in the new text. */
    size_t start;
    /** Where they end. */
    size_t end;
    /** What changed of the tree. */
    typst_change change;
} typst_edited;

/** The classes of a kind: 1 if the kind is in the class, else 0. */
typedef struct typst_kind_info {
    /** A bracket, a brace or a parenthesis. */
    uint8_t grouping;
    /** A token that ends an expression. */
    uint8_t terminator;
    /** A block of code or of content. */
    uint8_t block;
    /** A statement. */
    uint8_t stmt;
    /** A keyword. */
    uint8_t keyword;
    /** What a parser skips: spaces, comments and the like. */
    uint8_t trivia;
} typst_kind_info;

/** The sets of kinds. A set holds the kinds that such a thing may begin with, or that it may be. */
enum {
    TYPST_SET_STMT = 0,
    TYPST_SET_MATH_EXPR = 1,
    /** A code expression without an operator. */
    TYPST_SET_ATOMIC_CODE_EXPR = 2,
    TYPST_SET_UNARY_OP = 3,
    TYPST_SET_BINARY_OP = 4,
    TYPST_SET_CODE_EXPR = 5,
    TYPST_SET_ARRAY_OR_DICT_ITEM = 6,
    TYPST_SET_ARG = 7,
    /** A pattern that holds no other. */
    TYPST_SET_PATTERN_LEAF = 8,
    TYPST_SET_PATTERN = 9,
    TYPST_SET_PARAM = 10,
    TYPST_SET_DESTRUCTURING_ITEM = 11
};

/** Classes of children of a node. A class is the number of a kind, or one of these constants. */
enum {
    /** Expressions. */
    TYPST_CLASS_EXPR = 256,
    /** Patterns: expressions, underscores, groups and destructurings. */
    TYPST_CLASS_PATTERN = 257,
    /** Arguments of a call: expressions, named pairs and spreads. */
    TYPST_CLASS_ARG = 258,
    /** All but trivia. */
    TYPST_CLASS_SOLID = 259
};

/** The end from which children are counted. */
enum { TYPST_FROM_FIRST = 0, TYPST_FROM_LAST = 1 };

/** The forms of what an accessor of a view returns. */
enum {
    /** Nothing: the node isn't of the accessor's view, or lacks what is asked for. */
    TYPST_ANSWER_NONE = 0,
    TYPST_ANSWER_FLAG = 1,
    /** A natural number. */
    TYPST_ANSWER_NATURAL = 2,
    /** An integer with a sign. */
    TYPST_ANSWER_INTEGER = 3,
    /** A character, by its code. */
    TYPST_ANSWER_CHARACTER = 4,
    /** A text in UTF-8. */
    TYPST_ANSWER_TEXT = 5,
    /** A node of the tree, by its number. */
    TYPST_ANSWER_NODE = 6
};

/** How severe a diagnostic is. No status has one of these numbers. */
enum {
    /** Something that isn't valid syntax. */
    TYPST_SEVERITY_ERROR = 301,
    /** Something that is valid, but may not be what was meant. */
    TYPST_SEVERITY_WARNING = 302,
    /** How to mend the error or warning before it. */
    TYPST_SEVERITY_HINT = 303
};

/** What columns count. */
enum {
    TYPST_BYTES = 0,
    TYPST_CHARACTERS = 1,
    /** Units of UTF-16, of which a character has one or two. */
    TYPST_UTF16 = 2
};

/** What ends a line of a document's text. A carriage return and a line feed after it end one line together. */
enum {
    /** A line feed, a vertical tab, a form feed, a carriage return, U+0085, U+2028 or U+2029. */
    TYPST_LINE_ENDS_UNICODE = 0,
    /** A line feed or a carriage return, as in the protocol between editors and language servers. */
    TYPST_LINE_ENDS_EDITOR = 1
};

/** Whether the leaf at a cursor holds the byte before the cursor or the byte after it. */
enum { TYPST_BEFORE = 0, TYPST_AFTER = 1 };

/** The nodes next to a node. Each is the nearest one that isn't trivia. Trivia are spaces, comments and the like. */
enum {
    /** A leaf after it, or an error with a text. */
    TYPST_NEXT_LEAF = 0,
    /** A leaf before it, or an error with a text. */
    TYPST_PREV_LEAF = 1,
    /** A sibling after it. */
    TYPST_NEXT_SIBLING = 2,
    /** A sibling before it. */
    TYPST_PREV_SIBLING = 3
};

#if defined(__cplusplus) ? __cplusplus >= 201103L : __STDC_VERSION__ >= 201112L
#ifdef __cplusplus
#define TYPST_ASSERT static_assert
#else
#define TYPST_ASSERT _Static_assert
#endif
TYPST_ASSERT(sizeof(void *) == 8 && sizeof(size_t) == 8, "the library is built for 64 bits");
TYPST_ASSERT(sizeof(typst_session) == 16, "typst_session");
TYPST_ASSERT(sizeof(typst_node_info) == 48, "typst_node_info");
TYPST_ASSERT(sizeof(typst_place) == 16, "typst_place");
TYPST_ASSERT(sizeof(typst_length) == 8, "typst_length");
TYPST_ASSERT(sizeof(typst_range) == 16, "typst_range");
TYPST_ASSERT(sizeof(typst_line_column) == 16, "typst_line_column");
TYPST_ASSERT(sizeof(typst_answer) == 32, "typst_answer");
TYPST_ASSERT(sizeof(typst_diagnostic) == 40, "typst_diagnostic");
TYPST_ASSERT(sizeof(typst_diagnostic_sizes) == 16, "typst_diagnostic_sizes");
TYPST_ASSERT(sizeof(typst_kind_info) == 6, "typst_kind_info");
TYPST_ASSERT(sizeof(typst_window) == 24, "typst_window");
TYPST_ASSERT(sizeof(typst_change) == 48, "typst_change");
TYPST_ASSERT(sizeof(typst_edited) == 64, "typst_edited");
#endif

/** @name Life */
/** @{ */

/**
 * Makes an empty session of a struct that is TYPST_SESSION_INIT, or of one that was made before. In the second case it frees what the
 * session held. Of any other struct it may free what its stale bytes point to.
 * @return TYPST_DONE or TYPST_NO_MEMORY. After TYPST_NO_MEMORY the session holds nothing.
 */
TYPST_NODISCARD typst_status typst_new(typst_session *session);

/** Frees what a session holds. The session is then all zero, and can be made again. */
void typst_free(typst_session *session);

/**
 * Makes a copy of what a session holds: the stack and the tree or document, with all numbers. No number can be followed into the copy
 * (TYPST_NO_EDIT). The call takes time and memory in proportion to what is copied. The two sessions must be different ones: pass no
 * session twice.
 * @param copy a session, or a struct that is TYPST_SESSION_INIT. It receives the copy; what it held before is freed.
 * @return TYPST_DONE, TYPST_NOT_MADE or TYPST_NO_MEMORY.
 */
TYPST_NODISCARD typst_status typst_copy(const typst_session *session, typst_session *copy);

/** The version of the library, which should be TYPST_TREE_VERSION. */
uint32_t typst_version(void);

/** Makes an empty session in memory of its own. Returns a null pointer if memory is refused. */
static inline TYPST_NODISCARD typst_session *typst_session_new(void)
{
    typst_session *session = (typst_session *)calloc(1, sizeof *session);
    if (session && typst_new(session) != TYPST_DONE) {
        free(session);
        session = NULL;
    }
    return session;
}

/** Frees a session that `typst_session_new` made, with all that it holds. A null pointer is left alone. */
static inline void typst_session_free(typst_session *session)
{
    if (!session) return;
    typst_free(session);
    free(session);
}

/** @} */
/** @name The stack */
/** @{ */

/**
 * Puts a leaf on the stack.
 * @param kind a TYPST_KIND_ constant.
 * @return TYPST_DONE, TYPST_NOT_MADE, TYPST_BAD_KIND, TYPST_BAD_TEXT or TYPST_NO_MEMORY.
 */
TYPST_NODISCARD typst_status typst_push_leaf(typst_session *session, uint32_t kind, const char *text, size_t text_len);

/**
 * Puts an error on the stack: a text that isn't valid syntax, and a message that says why.
 * @return TYPST_DONE, TYPST_NOT_MADE, TYPST_BAD_TEXT or TYPST_NO_MEMORY.
 */
TYPST_NODISCARD typst_status typst_push_error(typst_session *session, const char *message, size_t message_len,
                                              const char *text, size_t text_len);

/**
 * Copies the subtree at a path of the tree, with its numbers, and puts the copy on the stack. The copy serves to move a subtree or
 * to use it again. The tree stays as it is. The call takes time in proportion to the nodes of the subtree.
 * @return TYPST_DONE, TYPST_NOT_MADE, TYPST_NO_TREE, TYPST_NO_NODE or TYPST_NO_MEMORY.
 */
TYPST_NODISCARD typst_status typst_push_copy(typst_session *session, const size_t *path, size_t depth);

/**
 * Replaces the last `count` nodes of the stack by an inner node. They become its children, in the same order. The call takes time
 * in proportion to `count`, and copies no node.
 * @return TYPST_DONE, TYPST_NOT_MADE, TYPST_BAD_KIND, TYPST_SHORT_STACK, TYPST_OVERFLOW or TYPST_NO_MEMORY.
 */
TYPST_NODISCARD typst_status typst_wrap(typst_session *session, uint32_t kind, size_t count);

/**
 * Puts one more warning around the last node of the stack, outside the warnings that the node has.
 * @return TYPST_DONE, TYPST_NOT_MADE, TYPST_BAD_TEXT, TYPST_SHORT_STACK or TYPST_NO_MEMORY.
 */
TYPST_NODISCARD typst_status typst_warn(typst_session *session, const char *message, size_t message_len);

/**
 * Adds a hint to the last node of the stack. The hint goes to the node's outermost warning. If the node has no warning but is an
 * error, the hint goes to the error.
 * @return TYPST_DONE, TYPST_NOT_MADE, TYPST_BAD_TEXT, TYPST_SHORT_STACK, TYPST_NO_HINTS or TYPST_NO_MEMORY.
 */
TYPST_NODISCARD typst_status typst_hint(typst_session *session, const char *text, size_t text_len);

/**
 * Moves the last node of the stack to the stack of another session. The two sessions must be different ones: pass no session twice.
 * @return TYPST_DONE, TYPST_NOT_MADE, also for the other session, TYPST_SHORT_STACK or TYPST_NO_MEMORY.
 */
TYPST_NODISCARD typst_status typst_send(typst_session *session, typst_session *other);

/**
 * Drops the last `count` nodes of the stack.
 * @return TYPST_DONE, TYPST_NOT_MADE or TYPST_SHORT_STACK.
 */
TYPST_NODISCARD typst_status typst_pop(typst_session *session, size_t count);

/** @} */
/** @name The tree */
/** @{ */

/**
 * Removes the last node of the stack, numbers the nodes of its tree for a file within `from .. to`, and holds it as the tree. The
 * call frees the tree or document that was held before.
 * @param file the number of a file, not 0.
 * @param from the lowest number, at least TYPST_FIRST_NUMBER.
 * @param to the number after the highest number, at most TYPST_END_NUMBER.
 * @return TYPST_DONE, TYPST_NOT_MADE, TYPST_BAD_FILE, TYPST_BAD_NUMBERS, TYPST_SHORT_STACK or TYPST_UNNUMBERABLE.
 */
TYPST_NODISCARD typst_status typst_number(typst_session *session, uint16_t file, uint64_t from, uint64_t to);

/**
 * Numbers the tree anew, for a file within `from .. to`, as typst_number numbers a node.
 * @return TYPST_DONE, TYPST_NOT_MADE, TYPST_NO_TREE, TYPST_IS_DOCUMENT, TYPST_BAD_FILE, TYPST_BAD_NUMBERS or TYPST_UNNUMBERABLE.
 */
TYPST_NODISCARD typst_status typst_renumber(typst_session *session, uint16_t file, uint64_t from, uint64_t to);

/**
 * Puts the tree back on the stack, with its numbers, so that it can be wrapped or numbered again. The session then holds no tree.
 * @return TYPST_DONE, TYPST_NOT_MADE, TYPST_NO_TREE, TYPST_IS_DOCUMENT or TYPST_NO_MEMORY.
 */
TYPST_NODISCARD typst_status typst_take_tree(typst_session *session);

/**
 * Replaces the children `from .. to` of the inner node at a path by the last `count` nodes of the stack. Nodes at the front and at the
 * back that equal the old children there count as the old ones. The others are numbered anew, with the first of 0, 1, 2, 4, .. of
 * their neighbors on either side for which there is room between the numbers around them. All other nodes keep their numbers. If
 * `count` is 0, the call removes children. If `from` equals `to`, it inserts nodes. No number can be followed over this edit; after
 * `typst_reconcile`, which makes the same edit, it can.
 * @param window receives the range of children that were numbered anew.
 * @return TYPST_DONE, TYPST_NOT_MADE, TYPST_NO_TREE, TYPST_IS_DOCUMENT, TYPST_SHORT_STACK, TYPST_NO_NODE, TYPST_IS_LEAF,
 *     TYPST_BAD_RANGE, TYPST_OVERFLOW, TYPST_UNNUMBERABLE or TYPST_NO_MEMORY.
 */
TYPST_NODISCARD typst_status typst_replace(typst_session *session, const size_t *path, size_t depth, size_t from, size_t to,
                                           size_t count, typst_window *window);

/**
 * Makes the same edit as `typst_replace`, as far down in the tree as it can, so that the nodes that go on can be followed. While all
 * that changes is below one child, and that child and its new node are inner nodes of one kind with the same warnings, the child stays,
 * and its children are replaced instead. If a single leaf or error then changes into another one of its kind, it keeps its number.
 * `typst_follow` then says what became of each number.
 * @param change receives where children were replaced, and which were numbered anew.
 * @return TYPST_DONE, TYPST_NOT_MADE, TYPST_NO_TREE, TYPST_IS_DOCUMENT, TYPST_SHORT_STACK, TYPST_NO_NODE, TYPST_IS_LEAF,
 *     TYPST_BAD_RANGE, TYPST_OVERFLOW, TYPST_UNNUMBERABLE or TYPST_NO_MEMORY.
 */
TYPST_NODISCARD typst_status typst_reconcile(typst_session *session, const size_t *path, size_t depth, size_t from,
                                             size_t to, size_t count, typst_change *change);

/**
 * Removes the last node of the stack, and puts it in place of the whole tree. The nodes that go on can be followed, as after
 * `typst_reconcile` of all children of the root. So a parser that makes the whole tree anew after each edit of its text gets numbers
 * that can be followed. What stands between two changed siblings is gone, so update once for each place that changed. If the two roots differ in their kinds or warnings, or the old root has too few numbers for all nodes, then no
 * node goes on, and the new tree is numbered in TYPST_FIRST_NUMBER .. TYPST_END_NUMBER.
 * @param change receives where children were replaced, and which were numbered anew, or that the root itself was changed.
 * @return TYPST_DONE, TYPST_NOT_MADE, TYPST_NO_TREE, TYPST_IS_DOCUMENT, TYPST_SHORT_STACK, TYPST_UNNUMBERABLE or TYPST_NO_MEMORY.
 */
TYPST_NODISCARD typst_status typst_update(typst_session *session, typst_change *change);

/**
 * Writes the number that a node has after the last edit by `typst_edit`, `typst_reconcile` or `typst_update`, by its number before that
 * edit. Ask this once for each number that is kept, after each edit that was done. A number that isn't followed may belong to another
 * node after the edit. The call needs no memory, and hardly any time.
 * @param number the number of a node of the tree as it was before the edit. Any other number is followed as if a node had it.
 * @param now receives the number that the node has now.
 * @return TYPST_DONE, TYPST_NOT_MADE, TYPST_NO_EDIT, or TYPST_NOT_FOUND if the node is gone.
 */
TYPST_NODISCARD typst_status typst_follow(const typst_session *session, uint64_t number, uint64_t *now);

/**
 * Writes the path to the node whose children the last edit by `typst_edit`, `typst_reconcile` or `typst_update` changed, as it is in the
 * tree after the edit. The path is empty if the root's children were changed, or the root itself.
 * @param out receives the path, if it has room. A path of a document has at most TYPST_DOCUMENT_DEPTH indices.
 * @param length receives the length of the path, even if the buffer is too short.
 * @return TYPST_DONE, TYPST_NOT_MADE, TYPST_NO_EDIT or TYPST_SHORT_BUFFER.
 */
TYPST_NODISCARD typst_status typst_edited_path(const typst_session *session, size_t *out, size_t room,
                                               typst_length *length);

/** @} */
/** @name Reading */
/** @{ */

/**
 * Reads the node at a path.
 * @return TYPST_DONE, TYPST_NOT_MADE, TYPST_NO_TREE or TYPST_NO_NODE.
 */
TYPST_NODISCARD typst_status typst_node(const typst_session *session, const size_t *path, size_t depth,
                                        typst_node_info *info);

/**
 * Reads all children of the node at a path, in order.
 * @param out receives what is read of each node.
 * @param room the number of elements that `out` has room for.
 * @param length receives the number of children, even if the buffer is too short.
 * @return TYPST_DONE, TYPST_NOT_MADE, TYPST_NO_TREE, TYPST_NO_NODE or TYPST_SHORT_BUFFER.
 */
TYPST_NODISCARD typst_status typst_children(const typst_session *session, const size_t *path, size_t depth,
                                            typst_node_info *out, size_t room, typst_length *length);

/**
 * Reads all nodes of the subtree at a path in preorder: each node before its children, and the children in order. After a node come
 * the `descendants - 1` other nodes of its subtree, so a caller can skip a subtree. The call takes time in proportion to the nodes,
 * however deep they are, while a call for each path also goes down that path. The path of a node isn't read; typst_find gives
 * it for the node's number.
 * @param out receives what is read of each node.
 * @param room the number of elements that `out` has room for.
 * @param length receives the number of nodes, even if the buffer is too short.
 * @return TYPST_DONE, TYPST_NOT_MADE, TYPST_NO_TREE, TYPST_NO_NODE or TYPST_SHORT_BUFFER.
 */
TYPST_NODISCARD typst_status typst_preorder(const typst_session *session, const size_t *path, size_t depth,
                                            typst_node_info *out, size_t room, typst_length *length);

/**
 * Writes the text of the leaf or error at a path. For an inner node the text is empty. No zero byte follows the text.
 * @param length receives the length of the text, even if the buffer is too short.
 * @return TYPST_DONE, TYPST_NOT_MADE, TYPST_NO_TREE, TYPST_NO_NODE or TYPST_SHORT_BUFFER.
 */
TYPST_NODISCARD typst_status typst_leaf_text(const typst_session *session, const size_t *path, size_t depth, char *out,
                                             size_t room, typst_length *length);

/**
 * Writes the text of all leaves and errors of the subtree at a path. No zero byte follows the text. The empty path gives the whole
 * text.
 * @param length receives the length of the text, even if the buffer is too short.
 * @return TYPST_DONE, TYPST_NOT_MADE, TYPST_NO_TREE, TYPST_NO_NODE, TYPST_SHORT_BUFFER or TYPST_NO_MEMORY.
 */
TYPST_NODISCARD typst_status typst_full_text(const typst_session *session, const size_t *path, size_t depth, char *out,
                                             size_t room, typst_length *length);

/**
 * Finds a child of a class among the children of the node at a path. It is the child of the class that has `index` others of the
 * class before it or, counted from the end, after it. For example, the body of a heading is its first child of the kind
 * TYPST_KIND_MARKUP, and the right side of a binary operation is its last child of the class TYPST_CLASS_EXPR. The call takes time
 * in proportion to the children.
 * @param node_class a TYPST_KIND_ or TYPST_CLASS_ constant.
 * @param from_end TYPST_FROM_FIRST; any other number is TYPST_FROM_LAST.
 * @param child receives the child's index.
 * @return TYPST_DONE, TYPST_NOT_MADE, TYPST_BAD_KIND, TYPST_NO_TREE, TYPST_NO_NODE or TYPST_NOT_FOUND.
 */
TYPST_NODISCARD typst_status typst_child_of_class(const typst_session *session, const size_t *path, size_t depth,
                                                  uint32_t node_class, size_t index, uint32_t from_end, size_t *child);

/**
 * Reads the node at a path by an accessor of a typed view: the depth of a heading, for example, the value of a string or the body of a
 * loop. If the node isn't of the accessor's view, or the tree lacks what is asked for, the form is TYPST_ANSWER_NONE. A node is given
 * by its number, and typst_find finds it. Only the value of a string needs memory, in proportion to its text. The call takes time at
 * most in proportion to the children and to that text.
 * @param accessor a TYPST_VIEW_ constant.
 * @param index which of its results, counted from 0. An accessor of several nodes has as many results, and any other has one. After
 *     the last one the form is TYPST_ANSWER_NONE.
 * @param out receives the text, if the result is one.
 * @param room the number of bytes that `out` has room for.
 * @param answer receives the result, even if the buffer is too short for its text.
 * @return TYPST_DONE, TYPST_NOT_MADE, TYPST_BAD_ACCESSOR, TYPST_NO_TREE, TYPST_NO_NODE, TYPST_NO_MEMORY or TYPST_SHORT_BUFFER.
 */
TYPST_NODISCARD typst_status typst_view(const typst_session *session, const size_t *path, size_t depth, uint32_t accessor,
                                        size_t index, char *out, size_t room, typst_answer *answer);

/**
 * Lists the errors of the tree in preorder, and then the warnings in preorder. The warnings of one node go from the outermost to
 * the innermost. The hints of an error or a warning follow it. The call takes time in proportion to what it writes, and to the
 * nodes at or below which something is reported.
 * @param out receives each error, warning and hint.
 * @param room the number of elements that `out` has room for.
 * @param texts receives their texts, one after the other, in the same order. No zero byte is between them or after them.
 * @param texts_room the number of bytes that `texts` has room for.
 * @param sizes receives how many there are and how long their texts are, even if a buffer is too short. Both buffers then stay as
 *     they were.
 * @return TYPST_DONE, TYPST_NOT_MADE, TYPST_NO_TREE, TYPST_SHORT_BUFFER or TYPST_NO_MEMORY.
 */
TYPST_NODISCARD typst_status typst_diagnostics(const typst_session *session, typst_diagnostic *out, size_t room,
                                               char *texts, size_t texts_room, typst_diagnostic_sizes *sizes);

/**
 * Compares the subtrees at two paths of the tree. They are equal if they have the same kinds, texts, messages, hints and warnings,
 * whatever their numbers are. The first path is read before the second one.
 * @param equal receives 1 if they are equal, else 0.
 * @return TYPST_DONE, TYPST_NOT_MADE, TYPST_NO_TREE or TYPST_NO_NODE.
 */
TYPST_NODISCARD typst_status typst_spanless_eq_within(const typst_session *session, const size_t *path, size_t depth,
                                                      const size_t *other_path, size_t other_depth, uint32_t *equal);

/**
 * Compares the subtree at a path with a subtree of another session, in the same way. The two sessions must be different ones: pass no
 * session twice. The first session is read before the second one, after both are found to be made.
 * @return TYPST_DONE, TYPST_NOT_MADE, TYPST_NO_TREE or TYPST_NO_NODE, each also for the other session.
 */
TYPST_NODISCARD typst_status typst_spanless_eq(const typst_session *session, const size_t *path, size_t depth,
                                               const typst_session *other, const size_t *other_path, size_t other_depth,
                                               uint32_t *equal);

/** @} */
/** @name Finding */
/** @{ */

/**
 * Finds the node with a number. It reads few other nodes. After an edit, `typst_follow` says which number a node has now.
 * @param path receives the path, if it has room. A path of a document has at most TYPST_DOCUMENT_DEPTH indices.
 * @param place receives the length of the path and where the node's text begins, even if the buffer is too short.
 * @return TYPST_DONE, TYPST_NOT_MADE, TYPST_NO_TREE, TYPST_NOT_FOUND, TYPST_SHORT_BUFFER or TYPST_NO_MEMORY.
 */
TYPST_NODISCARD typst_status typst_find(const typst_session *session, uint64_t number, size_t *path, size_t room,
                                        typst_place *place);

/**
 * Finds the node whose text is exactly the bytes `from .. to` of the tree's text. If several nodes have these bytes, it is the outermost
 * of them. The search goes down from the root, at each node to the first child whose text covers the range. So it misses a node
 * without text that comes after a node with text.
 * @param path receives the path, if it has room.
 * @param place receives the length of the path and where the node's text begins, even if the buffer is too short.
 * @return TYPST_DONE, TYPST_NOT_MADE, TYPST_NO_TREE, TYPST_NOT_FOUND, TYPST_SHORT_BUFFER or TYPST_NO_MEMORY.
 */
TYPST_NODISCARD typst_status typst_find_range(const typst_session *session, size_t from, size_t to, size_t *path,
                                              size_t room, typst_place *place);

/**
 * Finds the smallest node whose text covers the bytes `from .. to` of the tree's text: no child of it covers them. The search goes down
 * from the root, at each node to the first child whose text covers the range, as far as there is one.
 * @param path receives the path, if it has room.
 * @param place receives the length of the path and where the node's text begins, even if the buffer is too short.
 * @return TYPST_DONE, TYPST_NOT_MADE, TYPST_NO_TREE, TYPST_NOT_FOUND if the whole text doesn't cover these bytes, TYPST_SHORT_BUFFER or
 *     TYPST_NO_MEMORY.
 */
TYPST_NODISCARD typst_status typst_find_cover(const typst_session *session, size_t from, size_t to, size_t *path,
                                              size_t room, typst_place *place);

/**
 * Finds the node without children that holds the byte before a cursor (TYPST_BEFORE) or the byte after it (TYPST_AFTER). There is one
 * exception: for TYPST_BEFORE, if there is no such byte, it finds the last node without children if the text of that node begins at
 * the cursor.
 * @param path receives the path, if it has room.
 * @param place receives the length of the path and where the node's text begins, even if the buffer is too short.
 * @return TYPST_DONE, TYPST_NOT_MADE, TYPST_NO_TREE, TYPST_NOT_FOUND, TYPST_SHORT_BUFFER or TYPST_NO_MEMORY.
 */
TYPST_NODISCARD typst_status typst_leaf_at(const typst_session *session, size_t cursor, uint32_t side, size_t *path,
                                           size_t room, typst_place *place);

/**
 * Writes which bytes of the text belong to the node at a path. The call needs memory for the node's parents.
 * @return TYPST_DONE, TYPST_NOT_MADE, TYPST_NO_TREE, TYPST_NO_NODE or TYPST_NO_MEMORY.
 */
TYPST_NODISCARD typst_status typst_range_of(const typst_session *session, const size_t *path, size_t depth,
                                            typst_range *range);

/**
 * Finds the node next to the one at a path. A sibling of a trivial kind is passed over with all that is below it, also among the
 * siblings of the nodes above. Below a sibling that isn't trivial, a leaf is passed over only if its own kind is trivial.
 * @param which TYPST_NEXT_LEAF, TYPST_PREV_LEAF or TYPST_NEXT_SIBLING; any other number is TYPST_PREV_SIBLING.
 * @param found receives the path of the node that is found, if it has room.
 * @param place receives the length of that path and where the node's text begins, even if the buffer is too short.
 * @return TYPST_DONE, TYPST_NOT_MADE, TYPST_NO_TREE, TYPST_NO_NODE, TYPST_NOT_FOUND, TYPST_SHORT_BUFFER or TYPST_NO_MEMORY.
 */
TYPST_NODISCARD typst_status typst_neighbor(const typst_session *session, const size_t *path, size_t depth, uint32_t which,
                                            size_t *found, size_t room, typst_place *place);

/** @} */
/** @name Documents */
/** @{ */

/**
 * Parses a text of Typst, numbers its tree for a file, and holds both. It frees the tree or document that was held before. The
 * stack stays as it is.
 * @param file the number of a file: any but 0. No call returns it.
 * @return TYPST_DONE, TYPST_NOT_MADE, TYPST_BAD_FILE, TYPST_BAD_TEXT, TYPST_OVERFLOW, TYPST_UNNUMBERABLE or TYPST_NO_MEMORY.
 */
TYPST_NODISCARD typst_status typst_open(typst_session *session, uint16_t file, const char *text, size_t text_len);

/**
 * Replaces the bytes `from .. to` of the document's text by a text, and parses anew only the blocks that this can touch. The block before
 * them is one of these if the parser had read the bytes that go, or at the place where others come.
 * The nodes that go on can be followed, as after `typst_reconcile`: `typst_follow` says what became of each number.
 * @param edited receives which bytes were parsed, and which nodes were numbered anew.
 * @return TYPST_DONE, TYPST_NOT_MADE, TYPST_NO_DOCUMENT, TYPST_BAD_TEXT, TYPST_BAD_RANGE, TYPST_OVERFLOW, TYPST_UNNUMBERABLE or
 *     TYPST_NO_MEMORY.
 */
TYPST_NODISCARD typst_status typst_edit(typst_session *session, size_t from, size_t to, const char *with, size_t with_len,
                                        typst_edited *edited);

/**
 * Sets the line ends of the document's text, which the calls below then go by. A document that was just opened has
 * TYPST_LINE_ENDS_UNICODE. Edits keep the line ends. The call takes time in proportion to the text.
 * @param ends TYPST_LINE_ENDS_UNICODE; any other number is TYPST_LINE_ENDS_EDITOR.
 * @return TYPST_DONE, TYPST_NOT_MADE, TYPST_NO_DOCUMENT or TYPST_NO_MEMORY.
 */
TYPST_NODISCARD typst_status typst_set_line_ends(typst_session *session, uint32_t ends);

/**
 * Counts the lines of the document's text. There is one more line than there are line ends.
 * @return TYPST_DONE, TYPST_NOT_MADE or TYPST_NO_DOCUMENT.
 */
TYPST_NODISCARD typst_status typst_len_lines(const typst_session *session, size_t *count);

/**
 * Writes which bytes of the document's text a line has, with its line end. Lines count from 0. The last line has no line end.
 * @return TYPST_DONE, TYPST_NOT_MADE, TYPST_NO_DOCUMENT, or TYPST_NO_PLACE if there is no such line.
 */
TYPST_NODISCARD typst_status typst_line_to_range(const typst_session *session, size_t line, typst_range *range);

/**
 * Writes the bytes `from .. to` of the document's text. Both ends must lie between characters. No zero byte follows the text. The call
 * needs no memory, and time in proportion to these bytes.
 * @param length receives the length of the text, even if the buffer is too short.
 * @return TYPST_DONE, TYPST_NOT_MADE, TYPST_NO_DOCUMENT, TYPST_BAD_RANGE or TYPST_SHORT_BUFFER.
 */
TYPST_NODISCARD typst_status typst_text(const typst_session *session, size_t from, size_t to, char *out, size_t room,
                                        typst_length *length);

/**
 * Writes the line and the column of a byte of the document's text. The call takes time in proportion to the line up to the byte.
 * @param byte a place between two characters, or either end of the text.
 * @param unit what columns count: TYPST_BYTES or TYPST_CHARACTERS; any other number is TYPST_UTF16.
 * @return TYPST_DONE, TYPST_NOT_MADE, TYPST_NO_DOCUMENT or TYPST_NO_PLACE.
 */
TYPST_NODISCARD typst_status typst_byte_to_line_column(const typst_session *session, size_t byte, uint32_t unit,
                                                       typst_line_column *place);

/**
 * Writes which byte of the document's text is at a line and a column, which both count from 0. The call takes time in proportion to
 * the line.
 * @param unit what columns count: TYPST_BYTES or TYPST_CHARACTERS; any other number is TYPST_UTF16.
 * @return TYPST_DONE, TYPST_NOT_MADE, TYPST_NO_DOCUMENT or TYPST_NO_PLACE.
 */
TYPST_NODISCARD typst_status typst_line_column_to_byte(const typst_session *session, size_t line, size_t column,
                                                       uint32_t unit, size_t *byte);

/**
 * The same, but a column past the line's text means its end, which is before the line end. Editors ask for places in this way.
 * @param unit what columns count: TYPST_BYTES or TYPST_CHARACTERS; any other number is TYPST_UTF16.
 * @return TYPST_DONE, TYPST_NOT_MADE, TYPST_NO_DOCUMENT, or TYPST_NO_PLACE if there is no such line or the column is within a character.
 */
TYPST_NODISCARD typst_status typst_line_column_to_byte_clamped(const typst_session *session, size_t line, size_t column,
                                                               uint32_t unit, size_t *byte);

/**
 * Writes how much of the document's text is before a byte. The call takes time in proportion to the text up to the byte.
 * @param byte a place between two characters, or either end of the text.
 * @param unit what is counted: TYPST_BYTES or TYPST_CHARACTERS; any other number is TYPST_UTF16.
 * @return TYPST_DONE, TYPST_NOT_MADE, TYPST_NO_DOCUMENT or TYPST_NO_PLACE.
 */
TYPST_NODISCARD typst_status typst_byte_to_offset(const typst_session *session, size_t byte, uint32_t unit, size_t *offset);

/**
 * Writes which byte of the document's text has so much of the text before it. The call takes time in proportion to the text up to the
 * byte.
 * @param unit what is counted: TYPST_BYTES or TYPST_CHARACTERS; any other number is TYPST_UTF16.
 * @return TYPST_DONE, TYPST_NOT_MADE, TYPST_NO_DOCUMENT, or TYPST_NO_PLACE if the text has less or the offset is within a character.
 */
TYPST_NODISCARD typst_status typst_offset_to_byte(const typst_session *session, size_t offset, uint32_t unit, size_t *byte);

/** @} */

/** @name Kinds
 * These calls need no session.
 */
/** @{ */

/**
 * Writes the name of a kind, as messages to a user write it: `heading`, or `syntax error` for TYPST_KIND_ERROR. It isn't the name of the
 * constant. No zero byte follows it.
 * @param length receives the length of the name, even if the buffer is too short.
 * @return TYPST_DONE, TYPST_BAD_KIND or TYPST_SHORT_BUFFER.
 */
TYPST_NODISCARD typst_status typst_kind_name(uint32_t kind, char *out, size_t room, typst_length *length);

/**
 * Writes which kind has a name. No two kinds have the same name.
 * @return TYPST_DONE or TYPST_NOT_FOUND.
 */
TYPST_NODISCARD typst_status typst_kind_of_name(const char *name, size_t name_len, uint32_t *kind);

/**
 * Writes the classes of a kind.
 * @return TYPST_DONE or TYPST_BAD_KIND.
 */
TYPST_NODISCARD typst_status typst_kind_classes(uint32_t kind, typst_kind_info *classes);

/**
 * Writes whether a set holds a kind.
 * @param set a TYPST_SET_ constant.
 * @param held receives 1 if it does, else 0.
 * @return TYPST_DONE, TYPST_BAD_SET or TYPST_BAD_KIND.
 */
TYPST_NODISCARD typst_status typst_kind_in_set(uint32_t kind, uint32_t set, uint32_t *held);

/** @} */

/** What a status means, as a text that ends with a zero byte. */
static inline const char *typst_status_text(typst_status status)
{
    switch (status) {
    case TYPST_DONE: return "done";
    case TYPST_NOT_MADE: return "the session holds nothing";
    case TYPST_NO_MEMORY: return "out of memory";
    case TYPST_BAD_KIND: return "no leaf or inner node can have this kind";
    case TYPST_BAD_TEXT: return "the text isn't UTF-8";
    case TYPST_SHORT_STACK: return "the stack has too few nodes";
    case TYPST_OVERFLOW: return "the tree is too large";
    case TYPST_NO_TREE: return "there is no tree";
    case TYPST_IS_DOCUMENT: return "the tree belongs to a document, which is edited as a text";
    case TYPST_NO_DOCUMENT: return "there is no document";
    case TYPST_BAD_FILE: return "the number of the file is 0";
    case TYPST_BAD_NUMBERS: return "the numbers must lie in 2..2^47";
    case TYPST_UNNUMBERABLE: return "there are fewer numbers than nodes";
    case TYPST_NO_NODE: return "the path leads to no node";
    case TYPST_IS_LEAF: return "the path leads to a leaf";
    case TYPST_BAD_RANGE: return "the range doesn't fit the children or the text";
    case TYPST_NOT_FOUND: return "there is no such node";
    case TYPST_SHORT_BUFFER: return "the buffer is too short";
    case TYPST_NO_HINTS: return "the node takes no hints";
    case TYPST_BAD_SET: return "no set of kinds has this number";
    case TYPST_NO_PLACE: return "the text has no such place";
    case TYPST_BAD_ACCESSOR: return "the number is no accessor";
    case TYPST_NO_EDIT: return "there is no edit to follow";
    case TYPST_NULL: return "a pointer is null";
    default: return "no status of this library";
    }
}

/**
 * @name Nulls
 * Each of these functions calls the function of the same name without `try_`, after a test for null pointers. It returns
 * TYPST_NULL if the session is null, if what it writes to is null, or if a text, a path or a buffer that isn't empty is null. An
 * empty text, path or buffer may be null.
 */
/** @{ */

/** A pointer that no call reads. It replaces a null pointer with the number 0. */
static inline size_t *typst_nowhere(void)
{
    static size_t nowhere;
    return &nowhere;
}

#define TYPST_OR_NOWHERE(pointer, type) ((pointer) ? (pointer) : (type)typst_nowhere())

static inline TYPST_NODISCARD typst_status typst_try_new(typst_session *session)
{
    if (!session) return TYPST_NULL;
    return typst_new(session);
}

static inline TYPST_NODISCARD typst_status typst_try_copy(const typst_session *session, typst_session *copy)
{
    if (!session || !copy) return TYPST_NULL;
    return typst_copy(session, copy);
}

static inline void typst_try_free(typst_session *session)
{
    if (session) typst_free(session);
}

static inline TYPST_NODISCARD typst_status typst_try_push_leaf(typst_session *session, uint32_t kind, const char *text,
        size_t text_len)
{
    if (!session || (!text && text_len)) return TYPST_NULL;
    return typst_push_leaf(session, kind, TYPST_OR_NOWHERE(text, const char *), text_len);
}

static inline TYPST_NODISCARD typst_status typst_try_push_error(typst_session *session, const char *message,
        size_t message_len, const char *text, size_t text_len)
{
    if (!session || (!message && message_len) || (!text && text_len)) return TYPST_NULL;
    return typst_push_error(session, TYPST_OR_NOWHERE(message, const char *), message_len,
                            TYPST_OR_NOWHERE(text, const char *), text_len);
}

static inline TYPST_NODISCARD typst_status typst_try_push_copy(typst_session *session, const size_t *path, size_t depth)
{
    if (!session || (!path && depth)) return TYPST_NULL;
    return typst_push_copy(session, TYPST_OR_NOWHERE(path, const size_t *), depth);
}

static inline TYPST_NODISCARD typst_status typst_try_wrap(typst_session *session, uint32_t kind, size_t count)
{
    if (!session) return TYPST_NULL;
    return typst_wrap(session, kind, count);
}

static inline TYPST_NODISCARD typst_status typst_try_warn(typst_session *session, const char *message, size_t message_len)
{
    if (!session || (!message && message_len)) return TYPST_NULL;
    return typst_warn(session, TYPST_OR_NOWHERE(message, const char *), message_len);
}

static inline TYPST_NODISCARD typst_status typst_try_hint(typst_session *session, const char *text, size_t text_len)
{
    if (!session || (!text && text_len)) return TYPST_NULL;
    return typst_hint(session, TYPST_OR_NOWHERE(text, const char *), text_len);
}

static inline TYPST_NODISCARD typst_status typst_try_pop(typst_session *session, size_t count)
{
    if (!session) return TYPST_NULL;
    return typst_pop(session, count);
}

static inline TYPST_NODISCARD typst_status typst_try_number(typst_session *session, uint16_t file, uint64_t from,
                                                            uint64_t to)
{
    if (!session) return TYPST_NULL;
    return typst_number(session, file, from, to);
}

static inline TYPST_NODISCARD typst_status typst_try_renumber(typst_session *session, uint16_t file, uint64_t from,
        uint64_t to)
{
    if (!session) return TYPST_NULL;
    return typst_renumber(session, file, from, to);
}

static inline TYPST_NODISCARD typst_status typst_try_take_tree(typst_session *session)
{
    if (!session) return TYPST_NULL;
    return typst_take_tree(session);
}

static inline TYPST_NODISCARD typst_status typst_try_replace(typst_session *session, const size_t *path, size_t depth,
        size_t from, size_t to, size_t count, typst_window *window)
{
    if (!session || (!path && depth) || !window) return TYPST_NULL;
    return typst_replace(session, TYPST_OR_NOWHERE(path, const size_t *), depth, from, to, count, window);
}

static inline TYPST_NODISCARD typst_status typst_try_reconcile(typst_session *session, const size_t *path, size_t depth,
        size_t from, size_t to, size_t count, typst_change *change)
{
    if (!session || (!path && depth) || !change) return TYPST_NULL;
    return typst_reconcile(session, TYPST_OR_NOWHERE(path, const size_t *), depth, from, to, count, change);
}

static inline TYPST_NODISCARD typst_status typst_try_update(typst_session *session, typst_change *change)
{
    if (!session || !change) return TYPST_NULL;
    return typst_update(session, change);
}

static inline TYPST_NODISCARD typst_status typst_try_follow(const typst_session *session, uint64_t number, uint64_t *now)
{
    if (!session || !now) return TYPST_NULL;
    return typst_follow(session, number, now);
}

static inline TYPST_NODISCARD typst_status typst_try_edited_path(const typst_session *session, size_t *out, size_t room,
        typst_length *length)
{
    if (!session || (!out && room) || !length) return TYPST_NULL;
    return typst_edited_path(session, TYPST_OR_NOWHERE(out, size_t *), room, length);
}

static inline TYPST_NODISCARD typst_status typst_try_send(typst_session *session, typst_session *other)
{
    if (!session || !other) return TYPST_NULL;
    return typst_send(session, other);
}

static inline TYPST_NODISCARD typst_status typst_try_node(const typst_session *session, const size_t *path, size_t depth,
                                                          typst_node_info *info)
{
    if (!session || (!path && depth) || !info) return TYPST_NULL;
    return typst_node(session, TYPST_OR_NOWHERE(path, const size_t *), depth, info);
}

static inline TYPST_NODISCARD typst_status typst_try_children(const typst_session *session, const size_t *path,
        size_t depth, typst_node_info *out, size_t room, typst_length *length)
{
    if (!session || (!path && depth) || (!out && room) || !length) return TYPST_NULL;
    return typst_children(session, TYPST_OR_NOWHERE(path, const size_t *), depth, TYPST_OR_NOWHERE(out, typst_node_info *), room,
                          length);
}

static inline TYPST_NODISCARD typst_status typst_try_preorder(const typst_session *session, const size_t *path,
        size_t depth, typst_node_info *out, size_t room, typst_length *length)
{
    if (!session || (!path && depth) || (!out && room) || !length) return TYPST_NULL;
    return typst_preorder(session, TYPST_OR_NOWHERE(path, const size_t *), depth, TYPST_OR_NOWHERE(out, typst_node_info *), room,
                          length);
}

static inline TYPST_NODISCARD typst_status typst_try_leaf_text(const typst_session *session, const size_t *path,
        size_t depth, char *out, size_t room, typst_length *length)
{
    if (!session || (!path && depth) || (!out && room) || !length) return TYPST_NULL;
    return typst_leaf_text(session, TYPST_OR_NOWHERE(path, const size_t *), depth, TYPST_OR_NOWHERE(out, char *), room, length);
}

static inline TYPST_NODISCARD typst_status typst_try_full_text(const typst_session *session, const size_t *path,
        size_t depth, char *out, size_t room, typst_length *length)
{
    if (!session || (!path && depth) || (!out && room) || !length) return TYPST_NULL;
    return typst_full_text(session, TYPST_OR_NOWHERE(path, const size_t *), depth, TYPST_OR_NOWHERE(out, char *), room, length);
}

static inline TYPST_NODISCARD typst_status typst_try_child_of_class(const typst_session *session, const size_t *path,
        size_t depth, uint32_t node_class, size_t index, uint32_t from_end, size_t *child)
{
    if (!session || (!path && depth) || !child) return TYPST_NULL;
    return typst_child_of_class(session, TYPST_OR_NOWHERE(path, const size_t *), depth, node_class, index, from_end, child);
}

static inline TYPST_NODISCARD typst_status typst_try_view(const typst_session *session, const size_t *path, size_t depth,
                                                          uint32_t accessor, size_t index, char *out, size_t room,
                                                          typst_answer *answer)
{
    if (!session || (!path && depth) || (!out && room) || !answer) return TYPST_NULL;
    return typst_view(session, TYPST_OR_NOWHERE(path, const size_t *), depth, accessor, index, TYPST_OR_NOWHERE(out, char *), room,
                      answer);
}

static inline TYPST_NODISCARD typst_status typst_try_diagnostics(const typst_session *session, typst_diagnostic *out,
        size_t room, char *texts, size_t texts_room, typst_diagnostic_sizes *sizes)
{
    if (!session || (!out && room) || (!texts && texts_room) || !sizes) return TYPST_NULL;
    return typst_diagnostics(session, TYPST_OR_NOWHERE(out, typst_diagnostic *), room, TYPST_OR_NOWHERE(texts, char *), texts_room,
                             sizes);
}

static inline TYPST_NODISCARD typst_status typst_try_spanless_eq_within(const typst_session *session, const size_t *path,
        size_t depth, const size_t *other_path, size_t other_depth, uint32_t *equal)
{
    if (!session || (!path && depth) || (!other_path && other_depth) || !equal) return TYPST_NULL;
    return typst_spanless_eq_within(session, TYPST_OR_NOWHERE(path, const size_t *), depth,
                                    TYPST_OR_NOWHERE(other_path, const size_t *), other_depth, equal);
}

static inline TYPST_NODISCARD typst_status typst_try_spanless_eq(const typst_session *session, const size_t *path,
        size_t depth, const typst_session *other, const size_t *other_path, size_t other_depth, uint32_t *equal)
{
    if (!session || (!path && depth) || !other || (!other_path && other_depth) || !equal) return TYPST_NULL;
    return typst_spanless_eq(session, TYPST_OR_NOWHERE(path, const size_t *), depth, other,
                             TYPST_OR_NOWHERE(other_path, const size_t *), other_depth, equal);
}

static inline TYPST_NODISCARD typst_status typst_try_find(const typst_session *session, uint64_t number, size_t *path,
                                                          size_t room, typst_place *place)
{
    if (!session || (!path && room) || !place) return TYPST_NULL;
    return typst_find(session, number, TYPST_OR_NOWHERE(path, size_t *), room, place);
}

static inline TYPST_NODISCARD typst_status typst_try_find_range(const typst_session *session, size_t from, size_t to,
        size_t *path, size_t room, typst_place *place)
{
    if (!session || (!path && room) || !place) return TYPST_NULL;
    return typst_find_range(session, from, to, TYPST_OR_NOWHERE(path, size_t *), room, place);
}

static inline TYPST_NODISCARD typst_status typst_try_find_cover(const typst_session *session, size_t from, size_t to,
        size_t *path, size_t room, typst_place *place)
{
    if (!session || (!path && room) || !place) return TYPST_NULL;
    return typst_find_cover(session, from, to, TYPST_OR_NOWHERE(path, size_t *), room, place);
}

static inline TYPST_NODISCARD typst_status typst_try_leaf_at(const typst_session *session, size_t cursor, uint32_t side,
        size_t *path, size_t room, typst_place *place)
{
    if (!session || (!path && room) || !place) return TYPST_NULL;
    return typst_leaf_at(session, cursor, side, TYPST_OR_NOWHERE(path, size_t *), room, place);
}

static inline TYPST_NODISCARD typst_status typst_try_range_of(const typst_session *session, const size_t *path,
        size_t depth, typst_range *range)
{
    if (!session || (!path && depth) || !range) return TYPST_NULL;
    return typst_range_of(session, TYPST_OR_NOWHERE(path, const size_t *), depth, range);
}

static inline TYPST_NODISCARD typst_status typst_try_neighbor(const typst_session *session, const size_t *path,
        size_t depth, uint32_t which, size_t *found, size_t room, typst_place *place)
{
    if (!session || (!path && depth) || (!found && room) || !place) return TYPST_NULL;
    return typst_neighbor(session, TYPST_OR_NOWHERE(path, const size_t *), depth, which, TYPST_OR_NOWHERE(found, size_t *), room,
                          place);
}

static inline TYPST_NODISCARD typst_status typst_try_open(typst_session *session, uint16_t file, const char *text,
                                                          size_t text_len)
{
    if (!session || (!text && text_len)) return TYPST_NULL;
    return typst_open(session, file, TYPST_OR_NOWHERE(text, const char *), text_len);
}

static inline TYPST_NODISCARD typst_status typst_try_edit(typst_session *session, size_t from, size_t to, const char *with,
                                                          size_t with_len, typst_edited *edited)
{
    if (!session || (!with && with_len) || !edited) return TYPST_NULL;
    return typst_edit(session, from, to, TYPST_OR_NOWHERE(with, const char *), with_len, edited);
}

static inline TYPST_NODISCARD typst_status typst_try_set_line_ends(typst_session *session, uint32_t ends)
{
    if (!session) return TYPST_NULL;
    return typst_set_line_ends(session, ends);
}

static inline TYPST_NODISCARD typst_status typst_try_len_lines(const typst_session *session, size_t *count)
{
    if (!session || !count) return TYPST_NULL;
    return typst_len_lines(session, count);
}

static inline TYPST_NODISCARD typst_status typst_try_line_to_range(const typst_session *session, size_t line,
        typst_range *range)
{
    if (!session || !range) return TYPST_NULL;
    return typst_line_to_range(session, line, range);
}

static inline TYPST_NODISCARD typst_status typst_try_text(const typst_session *session, size_t from, size_t to, char *out,
                                                          size_t room, typst_length *length)
{
    if (!session || (!out && room) || !length) return TYPST_NULL;
    return typst_text(session, from, to, TYPST_OR_NOWHERE(out, char *), room, length);
}

static inline TYPST_NODISCARD typst_status typst_try_byte_to_line_column(const typst_session *session, size_t byte,
        uint32_t unit, typst_line_column *place)
{
    if (!session || !place) return TYPST_NULL;
    return typst_byte_to_line_column(session, byte, unit, place);
}

static inline TYPST_NODISCARD typst_status typst_try_line_column_to_byte(const typst_session *session, size_t line,
        size_t column, uint32_t unit, size_t *byte)
{
    if (!session || !byte) return TYPST_NULL;
    return typst_line_column_to_byte(session, line, column, unit, byte);
}

static inline TYPST_NODISCARD typst_status typst_try_line_column_to_byte_clamped(const typst_session *session, size_t line,
        size_t column, uint32_t unit, size_t *byte)
{
    if (!session || !byte) return TYPST_NULL;
    return typst_line_column_to_byte_clamped(session, line, column, unit, byte);
}

static inline TYPST_NODISCARD typst_status typst_try_byte_to_offset(const typst_session *session, size_t byte,
        uint32_t unit, size_t *offset)
{
    if (!session || !offset) return TYPST_NULL;
    return typst_byte_to_offset(session, byte, unit, offset);
}

static inline TYPST_NODISCARD typst_status typst_try_offset_to_byte(const typst_session *session, size_t offset,
        uint32_t unit, size_t *byte)
{
    if (!session || !byte) return TYPST_NULL;
    return typst_offset_to_byte(session, offset, unit, byte);
}

static inline TYPST_NODISCARD typst_status typst_try_kind_name(uint32_t kind, char *out, size_t room, typst_length *length)
{
    if ((!out && room) || !length) return TYPST_NULL;
    return typst_kind_name(kind, TYPST_OR_NOWHERE(out, char *), room, length);
}

static inline TYPST_NODISCARD typst_status typst_try_kind_of_name(const char *name, size_t name_len, uint32_t *kind)
{
    if ((!name && name_len) || !kind) return TYPST_NULL;
    return typst_kind_of_name(TYPST_OR_NOWHERE(name, const char *), name_len, kind);
}

static inline TYPST_NODISCARD typst_status typst_try_kind_classes(uint32_t kind, typst_kind_info *classes)
{
    if (!classes) return TYPST_NULL;
    return typst_kind_classes(kind, classes);
}

static inline TYPST_NODISCARD typst_status typst_try_kind_in_set(uint32_t kind, uint32_t set, uint32_t *held)
{
    if (!held) return TYPST_NULL;
    return typst_kind_in_set(kind, set, held);
}

/** @} */

#ifdef __cplusplus
}
#endif

#endif
