/* Refuses each request for memory of a run of calls in turn.
 *
 * The call that is refused memory must return TYPST_NO_MEMORY and change nothing. The same call is then made once more,
 * with memory, and must be done. Only the value of a string may also be done with less memory. The run must end with the
 * same text and the same nodes as a run without refusals. At the end no block may be left.
 */
#include "typst.h"

#include <stdbool.h>
#include <stdio.h>
#include <stdlib.h>
#include <string.h>

struct typst_block {
    bool there;
    void *at;
};

struct typst_block rattle_alloc(size_t size, size_t align);
struct typst_block rattle_realloc(void *at, size_t kept, size_t size, size_t align);
void rattle_dealloc(void *at);

/* How many requests are granted before one is refused, and how many blocks are in use. */
static long granted, blocks;

struct typst_block rattle_alloc(size_t size, size_t align)
{
    (void)align;
    if (granted-- == 0) return (struct typst_block){false, (void *)16};
    blocks++;
    return (struct typst_block){true, malloc(size ? size : 1)};
}

struct typst_block rattle_realloc(void *at, size_t kept, size_t size, size_t align)
{
    (void)kept;
    (void)align;
    if (granted-- == 0) return (struct typst_block){false, at};
    return (struct typst_block){true, realloc(at, size ? size : 1)};
}

void rattle_dealloc(void *at)
{
    blocks--;
    free(at);
}

static long refused_calls;

static void fail(const char *call, typst_status status, long refused)
{
    printf("request %ld refused: %s answers %s\n", refused, call, typst_status_text(status));
    exit(1);
}

/* Makes a call, and makes it once more if it was refused memory. */
#define DO(call)                                             \
    do {                                                     \
        typst_status status_ = call;                         \
        if (status_ == TYPST_NO_MEMORY) {                    \
            refused_calls++;                                 \
            status_ = call;                                  \
        }                                                    \
        if (status_ != TYPST_DONE) fail(#call, status_, refused); \
    } while (0)

static void check(bool holds, const char *what, long refused)
{
    if (holds) return;
    printf("request %ld refused: %s\n", refused, what);
    exit(1);
}

static const char long_text[] = "a text that is longer than those that take no memory";

/* Edits the tree of `tree`, whose children are a copied leaf and a tree of 14 nodes, so that numbers can be followed. */
static void follow(typst_session *session, long refused)
{
    size_t path[2] = {1, 0};
    uint64_t now = 0;
    typst_node_info last, info;
    typst_change change;
    typst_place place;

    DO(typst_node(session, path, 1, &last));
    /* A long text comes before the first leaf below child 1, and leaves that node and the node's last child. */
    DO(typst_push_leaf(session, TYPST_KIND_TEXT, long_text, sizeof long_text - 1));
    DO(typst_reconcile(session, path, 1, 0, 0, 1, &change));
    check(change.depth == 1 && change.root == 0, "another node was edited", refused);
    DO(typst_follow(session, last.number, &now));
    check(now == last.number, "a node above the edit has another number", refused);
    /* A copy of the whole tree comes in its place, so that all nodes go on. */
    DO(typst_push_copy(session, path, 0));
    DO(typst_update(session, &change));
    DO(typst_follow(session, last.number, &now));
    DO(typst_node(session, path, 1, &info));
    check(now == info.number && now == last.number, "a node of the same tree has another number", refused);
    DO(typst_find_range(session, 0, 5, path, 2, &place));
    check(place.depth == 1 && path[0] == 0 && place.offset == 0, "the first leaf has other bytes", refused);
    DO(typst_find_cover(session, 1, 4, path, 2, &place));
    check(place.depth == 1 && path[0] == 0 && place.offset == 0, "another node covers the bytes", refused);
}

/* Copies a session. If memory is refused, the other session holds what it held. */
static void copy(typst_session *session, typst_session *other, long refused)
{
    size_t path[1] = {0};
    typst_node_info info, copied;

    DO(typst_copy(session, other));
    DO(typst_node(session, path, 0, &info));
    DO(typst_node(other, path, 0, &copied));
    check(memcmp(&info, &copied, sizeof info) == 0, "the copy has another root", refused);
}

/* Builds a tree, edits it and reads it. */
static void tree(typst_session *session, long refused)
{
    size_t path[4] = {0}, found[4];
    typst_window window;
    typst_node_info info;
    typst_place place;
    typst_length length;
    typst_range range;
    typst_diagnostic told[4];
    typst_diagnostic_sizes sizes;
    char text[4096];

    for (int i = 0; i < 12; i++) DO(typst_push_leaf(session, TYPST_KIND_TEXT, long_text, sizeof long_text - 1));
    DO(typst_wrap(session, TYPST_KIND_MARKUP, 12));
    DO(typst_number(session, 1, TYPST_FIRST_NUMBER, TYPST_END_NUMBER));
    DO(typst_push_leaf(session, TYPST_KIND_SPACE, " ", 1));
    DO(typst_push_error(session, "a message", 9, "wrong", 5));
    DO(typst_warn(session, long_text, sizeof long_text - 1));
    DO(typst_hint(session, long_text, sizeof long_text - 1));
    DO(typst_replace(session, path, 0, 1, 2, 2, &window));
    DO(typst_node(session, path, 0, &info));
    check(info.children == 13 && info.descendants == 14 && info.errors == 1, "the tree has other nodes", refused);
    check(info.len == 11 * (sizeof long_text - 1) + 6, "the tree has another length", refused);
    DO(typst_full_text(session, path, 0, text, sizeof text, &length));
    check(length.len == info.len && memcmp(text + sizeof long_text - 1, " wrong", 6) == 0, "the tree has another text", refused);
    DO(typst_diagnostics(session, told, 4, text, sizeof text, &sizes));
    check(sizes.count == 3 && sizes.len == 9 + 2 * (sizeof long_text - 1), "other errors and warnings are told", refused);
    check(told[1].severity == TYPST_SEVERITY_WARNING && told[2].severity == TYPST_SEVERITY_HINT, "the warning is another one", refused);
    path[0] = 12;
    DO(typst_node(session, path, 1, &info));
    DO(typst_find(session, info.number, path, 4, &place));
    check(place.depth == 1 && path[0] == 12, "the last node is found elsewhere", refused);
    DO(typst_leaf_at(session, 3, TYPST_AFTER, path, 4, &place));
    check(place.depth == 1 && path[0] == 0 && place.offset == 0, "the leaf at the cursor is another one", refused);
    DO(typst_neighbor(session, path, 1, TYPST_NEXT_LEAF, found, 4, &place));
    check(place.depth == 1 && found[0] == 2 && place.offset == sizeof long_text, "the next leaf is another one", refused);
    DO(typst_range_of(session, found, 1, &range));
    check(range.start == sizeof long_text && range.end == range.start + 5, "the leaf has other bytes", refused);
    DO(typst_push_copy(session, found, 1));
    DO(typst_take_tree(session));
    DO(typst_wrap(session, TYPST_KIND_STRONG, 2));
    DO(typst_number(session, 1, TYPST_FIRST_NUMBER, TYPST_END_NUMBER));
    DO(typst_node(session, path, 0, &info));
    check(info.children == 2 && info.descendants == 16 && info.warnings == 1, "the copy has other nodes", refused);
    follow(session, refused);
}

/* Sends a node from one session to another. */
static void send(typst_session *session, typst_session *receiver, long refused)
{
    DO(typst_push_leaf(session, TYPST_KIND_TEXT, long_text, sizeof long_text - 1));
    DO(typst_send(session, receiver));
    check(typst_pop(session, 1) == TYPST_SHORT_STACK, "the node that was sent is still there", refused);
    DO(typst_pop(receiver, 1));
}

/* Reads the value of a string, which is made for the call. */
static void view(typst_session *session, long refused)
{
    static const char string[] = "\"a \\\"text\\\" that is longer than those that take no memory\"";
    static const char value[] = "a \"text\" that is longer than those that take no memory";
    size_t path[1] = {0};
    typst_answer answer = {0, 0, 0, 0};
    char text[80];
    long before;
    bool is_open;

    DO(typst_push_leaf(session, TYPST_KIND_STR, string, sizeof string - 1));
    DO(typst_number(session, 1, TYPST_FIRST_NUMBER, TYPST_END_NUMBER));
    before = refused_calls;
    is_open = granted >= 0;
    DO(typst_view(session, path, 0, TYPST_VIEW_STR_GET, 0, text, sizeof text, &answer));
    /* A list that grows asks for more than it needs at once. If that is refused, it asks for less, and the call is done. */
    if (is_open && granted < 0 && refused_calls == before) refused_calls++;
    check(answer.form == TYPST_ANSWER_TEXT && answer.len == sizeof value - 1, "the string has another length", refused);
    check(memcmp(text, value, sizeof value - 1) == 0, "the string has another value", refused);
}

/* Opens a document, edits and reads it. */
static void document(typst_session *session, long refused)
{
    static const char more[] = "1\n2\n3\n4\n5\n6\n7\n8\n";
    static const char source[] = "= Heading\n\nSome *strong* and _emphasized_ text.\n\n- An item\n\n#let f(x, ..y) = (a: [b], x)\n\n"
                                 "$ (a + b) / c^2 $\n\nThe last paragraph.";
    size_t path[1] = {0}, count = 0, byte = 0;
    typst_edited edited;
    typst_length length;
    char text[4096];

    DO(typst_open(session, 1, source, sizeof source - 1));
    DO(typst_edit(session, 16, 16, "very ", 5, &edited));
    DO(typst_edit(session, 0, 2, "", 0, &edited));
    DO(typst_full_text(session, path, 0, text, sizeof text, &length));
    check(length.len == sizeof source - 1 + 3 && memcmp(text, "Heading\n\nSome very *strong*", 27) == 0, "the document has another text", refused);
    DO(typst_edit(session, 8, 8, more, sizeof more - 1, &edited));
    DO(typst_len_lines(session, &count));
    check(count == 19, "the document has another number of lines", refused);
    DO(typst_set_line_ends(session, TYPST_LINE_ENDS_EDITOR));
    DO(typst_len_lines(session, &count));
    check(count == 19, "the document has another number of lines of an editor", refused);
    DO(typst_line_column_to_byte(session, 10, 5, TYPST_UTF16, &byte));
    check(byte == 8 + (sizeof more - 1) + 6, "a place is at another byte", refused);
}

int main(void)
{
    long refused = 0;
    for (bool any = true; any; refused++) {
        typst_session session = TYPST_SESSION_INIT, receiver = TYPST_SESSION_INIT, *pointer;
        long before = refused_calls;
        granted = refused;
        DO(typst_new(&session));
        DO(typst_new(&receiver));
        send(&session, &receiver, refused);
        pointer = typst_session_new();
        if (!pointer) {
            refused_calls++;
            pointer = typst_session_new();
        }
        check(pointer != NULL, "no session is made", refused);
        typst_session_free(pointer);
        tree(&session, refused);
        copy(&session, &receiver, refused);
        view(&session, refused);
        document(&session, refused);
        copy(&session, &receiver, refused);
        any = granted < 0;
        check(!any || refused_calls == before + 1, "no call says that memory was refused", refused);
        typst_free(&session);
        typst_free(&receiver);
        check(session.made == 0 && session.at == NULL, "a session that was freed isn't all zero", refused);
        check(blocks == 0, "a block is left", refused);
    }
    printf("%ld requests for memory refused in turn\n", refused - 1);
    return 0;
}
