/* Makes random calls, with right and wrong arguments, and compares each with a plain model of what the session holds.
 *
 *     random [CALLS [SEED]]
 *
 * makes a million calls, or CALLS, and prints how often each function returned each status. It ends with status 1 at
 * the first answer that differs from the model's. */
#include "model.h"
#include "typst.h"

#include <inttypes.h>
#include <stdio.h>
#include <stdlib.h>
#include <string.h>

enum { STACK = 12, LARGEST = 120, DEPTH = TYPST_DOCUMENT_DEPTH + 1, TEXT = 4096, REMARKS = 2000, NODES = 4000, CALLS = 38, STATUSES = 23 };

static uint64_t seed = 88172645463325252u;

/* A number below `below`. */
static size_t draw(size_t below)
{
    seed ^= seed << 13;
    seed ^= seed >> 7;
    seed ^= seed << 17;
    return (size_t)((seed >> 11) % below);
}

/* True once in `many` times on average. */
static bool once_in(size_t many)
{
    return draw(many) == 0;
}

/* What the session should hold. */
static struct {
    bool made;
    struct node *stack[STACK + 1];
    size_t depth;
    struct node *tree;
    bool is_document;
    /* Whether numbers can be followed over the last edit. */
    bool is_followed;
    /* What ends the lines of the document's text. */
    uint32_t ends;
    char text[TEXT];
    size_t len;
} model;

static typst_session session = TYPST_SESSION_INIT;
/* A second session, in which texts are parsed as a whole. */
static typst_session other = TYPST_SESSION_INIT;
static const char *made = "";
static unsigned long call_count;

#define WANT(told, wanted) want(__LINE__, #told, (uint64_t)(told), (uint64_t)(wanted))

static void want(int line, const char *what, uint64_t told, uint64_t wanted)
{
    if (told == wanted) return;
    printf("call %lu, %s, line %d: %s is %" PRIu64 ", and should be %" PRIu64 "\n", call_count, made, line, what, told, wanted);
    exit(1);
}

static void drop_stack(size_t count)
{
    while (count--) node_free(model.stack[--model.depth]);
}

static void drop_tree(void)
{
    node_free(model.tree);
    model.tree = NULL;
    model.is_document = false;
    model.is_followed = false;
}

/* The nodes of the tree before an edit. */
static struct {
    typst_node_info all[NODES];
    size_t count;
} before;

static void read_before(void)
{
    size_t path[1] = {0};
    typst_length length = {0};
    before.count = typst_preorder(&session, path, 0, before.all, NODES, &length) == TYPST_DONE ? length.len : 0;
}

/* Follows the number of each node over an edit that was done. The nodes that go on have their kinds and their order. An edit that
 * changes nothing also leaves each number. */
static void follow_all(const typst_change *change, bool changes)
{
    static typst_node_info after[NODES];
    size_t path[DEPTH] = {0}, at = 0;
    typst_length length = {0};
    typst_node_info edited;
    WANT(typst_edited_path(&session, path, DEPTH, &length), TYPST_DONE);
    WANT(length.len, change->depth);
    WANT(typst_node(&session, path, length.len, &edited), TYPST_DONE);
    WANT(change->window.end <= edited.children || change->root, true);
    WANT(change->moved < edited.descendants, true);
    WANT(typst_preorder(&session, path, 0, after, NODES, &length), TYPST_DONE);
    for (size_t i = 0; i < before.count; i++) {
        uint64_t now = 77;
        typst_status status = typst_follow(&session, before.all[i].number, &now);
        if (!changes) WANT(now, before.all[i].number);
        if (status == TYPST_NOT_FOUND) {
            WANT(now, 77);
            continue;
        }
        WANT(status, TYPST_DONE);
        while (at < length.len && after[at].number != now) at++;
        WANT(at < length.len, true);
        WANT(after[at++].kind, before.all[i].kind);
    }
    model.is_followed = true;
}

/* Draws a path, mostly of a node of the tree. */
static size_t draw_path(size_t *path)
{
    size_t depth = 0;
    const struct node *node = model.is_document ? NULL : model.tree;
    while (depth < 8 && node && node->count && !once_in(4)) {
        path[depth] = draw(node->count);
        node = node->children[path[depth++]];
    }
    if (depth < 8 && once_in(node ? 10 : 3)) path[depth++] = once_in(3) ? SIZE_MAX - draw(2) : draw(6);
    return depth;
}

/* Draws a text of markup, code and equations, mostly with errors. */
static size_t draw_text(char *text)
{
    static const char *const parts[] = {"a", "word", "*", "_", "`", "```", "= ", "- ", "\n", "\n\n", "@ref", "\\", "#", " ", "//x", "/*",
                                        "*/", "\xc3\xa9", "\xe2\x82\xac", "\xf0\x9f\x97\xba", "\r", "\r\n", "\f", "\xc2\x85",
                                        "\xe2\x80\xa8", "#let x = ", "#if a ", "else ", "#f(", "(", ")", "[", "]", "{", "}", "$", "^",
                                        ", ", ": ", "..", "1", "\""};
    size_t len = 0;
    for (size_t many = draw(7); many; many--) {
        const char *part = parts[draw(sizeof parts / sizeof *parts)];
        memcpy(text + len, part, strlen(part));
        len += strlen(part);
    }
    if (once_in(60)) text[len++] = (char)draw(256);
    return len;
}

/* Accessors whose answers the model works out, with the kinds of their nodes. If an accessor answers children, these are of a kind:
 * the first one, the last one, or each one by its index. */
enum { VALUE, FIRST, LAST, EACH };
static const struct {
    uint32_t accessor, kind, which, child;
} known[] = {{TYPST_VIEW_TEXT_GET, TYPST_KIND_TEXT, VALUE, 0},
             {TYPST_VIEW_LINK_GET, TYPST_KIND_LINK, VALUE, 0},
             {TYPST_VIEW_IDENT_GET, TYPST_KIND_IDENT, VALUE, 0},
             {TYPST_VIEW_FLOAT_GET, TYPST_KIND_FLOAT, VALUE, 0},
             {TYPST_VIEW_MATH_PRIMES_COUNT, TYPST_KIND_MATH_PRIMES, VALUE, 0},
             {TYPST_VIEW_BOOL_GET, TYPST_KIND_BOOL, VALUE, 0},
             {TYPST_VIEW_HEADING_DEPTH, TYPST_KIND_HEADING, VALUE, 0},
             {TYPST_VIEW_REF_TARGET, TYPST_KIND_REF, VALUE, 0},
             {TYPST_VIEW_STRONG_BODY, TYPST_KIND_STRONG, FIRST, TYPST_KIND_MARKUP},
             {TYPST_VIEW_EQUATION_BODY, TYPST_KIND_EQUATION, FIRST, TYPST_KIND_MATH},
             {TYPST_VIEW_CLOSURE_PARAMS, TYPST_KIND_CLOSURE, FIRST, TYPST_KIND_PARAMS},
             {TYPST_VIEW_TERM_ITEM_DESCRIPTION, TYPST_KIND_TERM_ITEM, LAST, TYPST_KIND_MARKUP},
             {TYPST_VIEW_FUNC_CALL_ARGS, TYPST_KIND_FUNC_CALL, LAST, TYPST_KIND_ARGS},
             {TYPST_VIEW_FIELD_ACCESS_FIELD, TYPST_KIND_FIELD_ACCESS, LAST, TYPST_KIND_IDENT},
             {TYPST_VIEW_RAW_LINES, TYPST_KIND_RAW, EACH, TYPST_KIND_TEXT},
             {TYPST_VIEW_IMPORT_ITEM_PATH_ITER, TYPST_KIND_IMPORT_ITEM_PATH, EACH, TYPST_KIND_IDENT}};

/* Draws a kind, or a number that is none. A third of the kinds are those of nodes that `known` reads, and of their children. */
static uint32_t draw_kind(void)
{
    size_t at = draw(sizeof known / sizeof *known);
    if (once_in(20)) return (uint32_t)draw(400);
    return once_in(3) ? once_in(2) ? known[at].kind : known[at].child : (uint32_t)draw(TYPST_KINDS);
}

/* Draws a kind for a node with these children, often one of which `known` reads a child of their kinds. */
static uint32_t draw_kind_over(struct node *const *children, size_t count)
{
    for (size_t at = 0; at < sizeof known / sizeof *known; at++)
        for (size_t i = 0; i < count; i++)
            if (known[at].which != VALUE && known[at].child == children[i]->kind && once_in(2)) return known[at].kind;
    return draw_kind();
}

/* What a call should read of the node at a path, in a tree that isn't a document's. */
static void compare_info(const struct node *node, const typst_node_info *info)
{
    WANT(info->len, node_len(node));
    WANT(info->children, node->count);
    WANT(info->descendants, node_size(node));
    WANT(info->kind, node->kind);
    WANT(info->leaf, !node->inner && (node->kind != TYPST_KIND_ERROR || node->len));
    WANT(info->inner, node->inner);
    WANT(info->errors, node_errs(node));
    WANT(info->warnings, node_warns(node));
}

static typst_status push_leaf(void)
{
    char text[64];
    size_t len = draw_text(text);
    uint32_t kind = once_in(20) ? UINT32_MAX - (uint32_t)draw(9) : draw_kind();
    typst_status status = typst_push_leaf(&session, kind, text, len);
    typst_status wanted = !model.made                                        ? TYPST_NOT_MADE
                          : kind == TYPST_KIND_ERROR || TYPST_KINDS <= kind ? TYPST_BAD_KIND
                          : !is_utf8(text, len)                              ? TYPST_BAD_TEXT
                                                                             : TYPST_DONE;
    WANT(status, wanted);
    if (status == TYPST_DONE) model.stack[model.depth++] = node_leaf(kind, text, len);
    return status;
}

static typst_status push_error(void)
{
    char text[64], message[64];
    size_t len = draw_text(text), message_len = draw_text(message);
    typst_status status = typst_push_error(&session, message, message_len, text, len);
    bool is_text = is_utf8(text, len) && is_utf8(message, message_len);
    WANT(status, !model.made ? TYPST_NOT_MADE : is_text ? TYPST_DONE : TYPST_BAD_TEXT);
    if (status == TYPST_DONE) {
        model.stack[model.depth] = node_leaf(TYPST_KIND_ERROR, text, len);
        node_report(model.stack[model.depth++], message, message_len);
    }
    return status;
}

static typst_status wrap(void)
{
    size_t count = once_in(30) ? SIZE_MAX - draw(3) : draw(5), there = count < model.depth ? count : model.depth;
    uint32_t kind = draw_kind_over(model.stack + model.depth - there, there);
    typst_status status = typst_wrap(&session, kind, count);
    typst_status wanted = !model.made                                        ? TYPST_NOT_MADE
                          : kind == TYPST_KIND_ERROR || TYPST_KINDS <= kind ? TYPST_BAD_KIND
                          : model.depth < count                              ? TYPST_SHORT_STACK
                                                                             : TYPST_DONE;
    WANT(status, wanted);
    if (status == TYPST_DONE) {
        model.depth -= count;
        model.stack[model.depth] = node_inner(kind, model.stack + model.depth, count);
        model.depth++;
    }
    return status;
}

static typst_status warn(void)
{
    char text[64];
    size_t len = draw_text(text);
    typst_status status = typst_warn(&session, text, len);
    WANT(status, !model.made            ? TYPST_NOT_MADE
                 : !is_utf8(text, len)  ? TYPST_BAD_TEXT
                 : model.depth == 0     ? TYPST_SHORT_STACK
                                        : TYPST_DONE);
    if (status == TYPST_DONE) node_report(model.stack[model.depth - 1], text, len);
    return status;
}

static typst_status hint(void)
{
    char text[64];
    size_t len = draw_text(text);
    struct node *top = model.depth ? model.stack[model.depth - 1] : NULL;
    typst_status status = typst_hint(&session, text, len);
    WANT(status, !model.made                                       ? TYPST_NOT_MADE
                 : !is_utf8(text, len)                             ? TYPST_BAD_TEXT
                 : !top                                            ? TYPST_SHORT_STACK
                 : !is_warned(top) && top->kind != TYPST_KIND_ERROR ? TYPST_NO_HINTS
                                                                   : TYPST_DONE);
    if (status == TYPST_DONE) node_hint(top, text, len);
    return status;
}

/* The node of the model at a path, if a tree is held that isn't a document's. */
static struct node *model_at(const size_t *path, size_t depth)
{
    return model.tree && !model.is_document ? node_at(model.tree, path, depth) : NULL;
}

/* The status that a call should return that reads the node at a path, if nothing else is wrong. */
static typst_status reads(const struct node *node)
{
    return !model.made ? TYPST_NOT_MADE : !model.tree ? TYPST_NO_TREE : !node ? TYPST_NO_NODE : TYPST_DONE;
}

static typst_status push_copy(void)
{
    size_t path[8];
    size_t depth = draw_path(path);
    typst_status status = typst_push_copy(&session, path, depth);
    if (model.is_document) {
        /* The model doesn't know the nodes of documents. */
        if (status == TYPST_DONE) WANT(typst_pop(&session, 1), TYPST_DONE);
        return status;
    }
    const struct node *node = model_at(path, depth);
    WANT(status, reads(node));
    if (status == TYPST_DONE) model.stack[model.depth++] = node_copy(node);
    return status;
}

static typst_status pop(void)
{
    size_t count = once_in(30) ? SIZE_MAX - draw(3) : draw(4);
    typst_status status = typst_pop(&session, count);
    WANT(status, !model.made ? TYPST_NOT_MADE : model.depth < count ? TYPST_SHORT_STACK : TYPST_DONE);
    if (status == TYPST_DONE) drop_stack(count);
    return status;
}

static typst_status number(void)
{
    uint16_t file = (uint16_t)(once_in(20) ? 0 : once_in(3) ? UINT16_MAX : 1 + draw(5));
    uint64_t from = once_in(30) ? draw(3) : once_in(10) ? TYPST_END_NUMBER : 2 + draw(50);
    uint64_t to = once_in(30) ? UINT64_MAX : once_in(3) ? draw(200) : TYPST_END_NUMBER;
    typst_status status = typst_number(&session, file, from, to);
    size_t size = model.depth ? node_size(model.stack[model.depth - 1]) : 0;
    typst_status wanted = !model.made                              ? TYPST_NOT_MADE
                          : file == 0                              ? TYPST_BAD_FILE
                          : from < 2 || TYPST_END_NUMBER < to      ? TYPST_BAD_NUMBERS
                          : model.depth == 0                       ? TYPST_SHORT_STACK
                          : to <= from || to - from < size         ? TYPST_UNNUMBERABLE
                                                                   : TYPST_DONE;
    WANT(status, wanted);
    if (status == TYPST_DONE) {
        drop_tree();
        model.tree = model.stack[--model.depth];
        model.is_followed = false;
    }
    return status;
}

static typst_status renumber(void)
{
    uint16_t file = (uint16_t)(once_in(20) ? 0 : 1 + draw(5));
    uint64_t from = once_in(30) ? draw(3) : 2 + draw(50), to = once_in(30) ? UINT64_MAX : once_in(3) ? draw(200) : TYPST_END_NUMBER;
    typst_status status = typst_renumber(&session, file, from, to);
    size_t size = model.tree ? node_size(model.tree) : 0;
    WANT(status, !model.made                                     ? TYPST_NOT_MADE
                 : model.is_document                             ? TYPST_IS_DOCUMENT
                 : !model.tree                                   ? TYPST_NO_TREE
                 : file == 0                                     ? TYPST_BAD_FILE
                 : from < 2 || TYPST_END_NUMBER < to             ? TYPST_BAD_NUMBERS
                 : to <= from || to - from < size                ? TYPST_UNNUMBERABLE
                                                                 : TYPST_DONE);
    if (status == TYPST_DONE) model.is_followed = false;
    return status;
}

static typst_status take_tree(void)
{
    typst_status status = typst_take_tree(&session);
    WANT(status, !model.made            ? TYPST_NOT_MADE
                 : model.is_document    ? TYPST_IS_DOCUMENT
                 : !model.tree          ? TYPST_NO_TREE
                                        : TYPST_DONE);
    if (status == TYPST_DONE) {
        model.stack[model.depth++] = model.tree;
        model.tree = NULL;
        model.is_followed = false;
    }
    return status;
}

/* Whether a change is as it was before the call. */
static bool is_untouched(const typst_change *change)
{
    return change->depth == 77 && change->window.start == 77 && change->window.end == 77 && change->window.tried == 77 && change->moved == 77
           && change->root == 77;
}

static typst_status replace_by(bool reconciles)
{
    size_t path[8];
    size_t depth = draw_path(path), from = draw(4), to = once_in(20) ? SIZE_MAX - draw(2) : from + draw(3);
    size_t count = once_in(30) ? SIZE_MAX - draw(3) : draw(4);
    if (once_in(20)) to = draw(from + 1);
    typst_window window = {77, 77, 77};
    typst_change change = {77, {77, 77, 77}, 77, 77};
    read_before();
    typst_status status = reconciles ? typst_reconcile(&session, path, depth, from, to, count, &change)
                                     : typst_replace(&session, path, depth, from, to, count, &window);
    struct node *node = model.tree && !model.is_document ? node_at(model.tree, path, depth) : NULL;
    typst_status wanted = !model.made                            ? TYPST_NOT_MADE
                          : !model.tree && !model.is_document    ? TYPST_NO_TREE
                          : model.is_document                    ? TYPST_IS_DOCUMENT
                          : model.depth < count                  ? TYPST_SHORT_STACK
                          : !node                                ? TYPST_NO_NODE
                          : !node->inner                         ? TYPST_IS_LEAF
                          : to < from || node->count < to        ? TYPST_BAD_RANGE
                                                                 : TYPST_DONE;
    /* A tree that was numbered in a narrow range can run out of numbers. */
    if (status == TYPST_UNNUMBERABLE) WANT(wanted, TYPST_DONE);
    else WANT(status, wanted);
    if (status != TYPST_DONE || reconciles) WANT(window.start == 77 && window.end == 77 && window.tried == 77, true);
    if (status != TYPST_DONE || !reconciles) WANT(is_untouched(&change), true);
    if (status != TYPST_DONE) return status;
    size_t left = node->count - (to - from);
    struct node **children = malloc((left + count + 1) * sizeof *children);
    if (!children) abort();
    memcpy(children, node->children, from * sizeof *children);
    model.depth -= count;
    memcpy(children + from, model.stack + model.depth, count * sizeof *children);
    memcpy(children + from + count, node->children + to, (node->count - to) * sizeof *children);
    for (size_t i = from; i < to; i++) node_free(node->children[i]);
    free(node->children);
    node->children = children;
    node->count = left + count;
    if (reconciles) {
        WANT(change.root, 0);
        WANT(depth <= change.depth, true);
        follow_all(&change, count > 0 || from < to);
    } else {
        WANT(window.start <= window.end && window.end <= node->count, true);
        model.is_followed = false;
    }
    return status;
}

static typst_status replace(void)
{
    return replace_by(false);
}

static typst_status reconcile(void)
{
    return replace_by(true);
}

/* Puts the last node of the stack in place of the tree. */
static typst_status update(void)
{
    typst_change change = {77, {77, 77, 77}, 77, 77};
    read_before();
    typst_status status = typst_update(&session, &change);
    WANT(status, !model.made             ? TYPST_NOT_MADE
                 : model.is_document     ? TYPST_IS_DOCUMENT
                 : !model.tree           ? TYPST_NO_TREE
                 : model.depth == 0      ? TYPST_SHORT_STACK
                                         : TYPST_DONE);
    if (status != TYPST_DONE) {
        WANT(is_untouched(&change), true);
        return status;
    }
    struct node *node = model.stack[--model.depth];
    bool changes = !node_same(node, model.tree);
    drop_tree();
    model.tree = node;
    WANT(change.root <= 1, true);
    if (change.root) WANT(change.depth == 0 && change.window.start == 0 && change.window.end == 0 && change.window.tried == 0 && change.moved == 0, true);
    /* A root whose numbers just suffice for its nodes doesn't go on, even if the same tree comes. */
    follow_all(&change, changes || change.root);
    return status;
}

/* Follows a number, which mostly no node had. */
static typst_status follow(void)
{
    uint64_t now = 77;
    typst_status status = typst_follow(&session, once_in(3) ? UINT64_MAX - draw(3) : draw(300), &now);
    if (!model.made) WANT(status, TYPST_NOT_MADE);
    else if (!model.is_followed) WANT(status, TYPST_NO_EDIT);
    else WANT(status == TYPST_DONE || status == TYPST_NOT_FOUND, true);
    if (status != TYPST_DONE) WANT(now, 77);
    return status;
}

/* Sends the last node of the stack to the other session, and takes it back. */
static typst_status send(void)
{
    typst_status status = typst_send(&session, &other);
    WANT(status, !model.made ? TYPST_NOT_MADE : model.depth == 0 ? TYPST_SHORT_STACK : TYPST_DONE);
    if (status != TYPST_DONE) return status;
    WANT(typst_pop(&session, model.depth), TYPST_SHORT_STACK);
    WANT(typst_send(&other, &session), TYPST_DONE);
    WANT(typst_send(&other, &session), TYPST_SHORT_STACK);
    return status;
}


/* Reads a node, and finds it by its number. */
static typst_status read_node(void)
{
    size_t path[8], found[DEPTH];
    size_t depth = draw_path(path);
    typst_node_info info;
    typst_place place;
    typst_status status = typst_node(&session, path, depth, &info);
    if (model.is_document) {
        if (status == TYPST_DONE && depth == 0) WANT(info.len, model.len);
    } else {
        const struct node *node = model.tree ? node_at(model.tree, path, depth) : NULL;
        WANT(status, !model.made ? TYPST_NOT_MADE : !model.tree ? TYPST_NO_TREE : !node ? TYPST_NO_NODE : TYPST_DONE);
        if (status == TYPST_DONE) compare_info(node, &info);
    }
    if (status == TYPST_DONE) {
        WANT(typst_find(&session, info.number, found, DEPTH, &place), TYPST_DONE);
        WANT(place.depth, depth);
        WANT(memcmp(found, path, depth * sizeof *path), 0);
        if (depth) WANT(typst_find(&session, info.number, found, depth - 1, &place), TYPST_SHORT_BUFFER);
        WANT(place.depth, depth);
    }
    return status;
}

/* Reads the children of a node, or its subtree. */
static typst_status list(bool below)
{
    typst_node_info out[48];
    const struct node *wanted[LARGEST * 16];
    size_t path[8], room = draw(40), count = 0;
    size_t depth = draw_path(path);
    typst_length length = {77};
    memset(out, '#', sizeof out);
    typst_status status = below ? typst_preorder(&session, path, depth, out, room, &length)
                                : typst_children(&session, path, depth, out, room, &length);
    if (model.is_document) return status;
    const struct node *node = model_at(path, depth);
    if (node && below) count = (size_t)(node_list(node, wanted) - wanted);
    else if (node) {
        count = node->count;
        for (size_t i = 0; i < count; i++) wanted[i] = node->children[i];
    }
    WANT(status, node && room < count ? TYPST_SHORT_BUFFER : reads(node));
    WANT(length.len, node ? count : 77);
    if (status != TYPST_DONE) count = 0;
    for (size_t i = 0; i < count; i++) compare_info(wanted[i], out + i);
    for (const char *byte = (const char *)(out + count); byte < (const char *)(out + 48); byte++) WANT(*byte, '#');
    return status;
}

static typst_status children(void)
{
    return list(false);
}

static typst_status preorder(void)
{
    return list(true);
}

static typst_status range_of(void)
{
    size_t path[8];
    size_t depth = draw_path(path);
    typst_range range = {77, 77};
    typst_status status = typst_range_of(&session, path, depth, &range);
    if (model.is_document) {
        if (status == TYPST_DONE) WANT(range.start <= range.end && range.end <= model.len, true);
        return status;
    }
    const struct node *node = model_at(path, depth);
    WANT(status, reads(node));
    WANT(range.start, node ? node_offset(model.tree, path, depth) : 77);
    WANT(range.end, node ? range.start + node_len(node) : 77);
    return status;
}

static typst_status neighbor(void)
{
    size_t path[8], found[DEPTH], wanted[DEPTH], wanted_depth = 0;
    size_t depth = draw_path(path);
    uint32_t which = once_in(30) ? UINT32_MAX - (uint32_t)draw(3) : (uint32_t)draw(4);
    typst_place place;
    typst_status status = typst_neighbor(&session, path, depth, which, found, DEPTH, &place);
    if (model.is_document) {
        if (status == TYPST_DONE) WANT(place.offset <= model.len, true);
        return status;
    }
    const struct node *node = model_at(path, depth);
    bool is_leaf = which < 2, behind = which == TYPST_NEXT_LEAF || which == TYPST_NEXT_SIBLING, there = false;
    if (node && is_leaf) there = leaf_near(model.tree, path, depth, behind, wanted, &wanted_depth);
    else if (node && depth) {
        memcpy(wanted, path, depth * sizeof *path);
        there = sibling_near(model.tree, path, depth, behind, wanted + depth - 1);
        wanted_depth = depth;
    }
    WANT(status, node && !there ? TYPST_NOT_FOUND : reads(node));
    if (status != TYPST_DONE) return status;
    WANT(place.depth, wanted_depth);
    WANT(memcmp(found, wanted, wanted_depth * sizeof *wanted), 0);
    WANT(place.offset, node_offset(model.tree, wanted, wanted_depth));
    return status;
}

/* Looks for a random number. A node that is found must have that number. */
static typst_status find(void)
{
    size_t path[DEPTH];
    typst_place place;
    typst_node_info info;
    uint64_t number = once_in(20) ? UINT64_MAX - draw(3) : once_in(2) ? draw(300) : (uint64_t)draw((size_t)1 << 47);
    typst_status status = typst_find(&session, number, path, DEPTH, &place);
    if (!model.made) WANT(status, TYPST_NOT_MADE);
    else if (!model.tree && !model.is_document) WANT(status, TYPST_NO_TREE);
    else if (status == TYPST_DONE) {
        WANT(typst_node(&session, path, place.depth, &info), TYPST_DONE);
        WANT(info.number, number);
    } else WANT(status, TYPST_NOT_FOUND);
    return status;
}

static typst_status text_of(bool whole)
{
    size_t path[8], room = draw(40);
    size_t depth = draw_path(path);
    char out[40], wanted_text[LARGEST * 64];
    memset(out, '#', sizeof out);
    typst_length length = {77};
    typst_status status = whole ? typst_full_text(&session, path, depth, out, room, &length)
                                : typst_leaf_text(&session, path, depth, out, room, &length);
    if (model.is_document) return status;
    const struct node *node = model.tree ? node_at(model.tree, path, depth) : NULL;
    size_t len = !node ? 0 : whole || !node->inner ? node_len(node) : 0;
    WANT(status, !model.made      ? TYPST_NOT_MADE
                 : !model.tree    ? TYPST_NO_TREE
                 : !node          ? TYPST_NO_NODE
                 : room < len     ? TYPST_SHORT_BUFFER
                                  : TYPST_DONE);
    WANT(length.len, node ? len : 77);
    if (status == TYPST_DONE) {
        if (len) node_write(node, wanted_text);
        WANT(memcmp(out, wanted_text, len), 0);
        for (size_t i = len; i < sizeof out; i++) WANT(out[i], '#');
    } else {
        for (size_t i = 0; i < sizeof out; i++) WANT(out[i], '#');
    }
    return status;
}

static typst_status leaf_at_cursor(void)
{
    size_t path[DEPTH], wanted_path[DEPTH], depth = 0, offset = 0;
    typst_place place;
    bool before = once_in(2);
    size_t cursor = once_in(30) ? SIZE_MAX - draw(2) : draw(model.is_document ? model.len + 2 : model.tree ? node_len(model.tree) + 2 : 5);
    typst_status status = typst_leaf_at(&session, cursor, before ? TYPST_BEFORE : TYPST_AFTER, path, DEPTH, &place);
    if (model.is_document) {
        if (before && 0 < cursor && cursor <= model.len) WANT(status, TYPST_DONE);
        if (status == TYPST_DONE) WANT(place.offset <= cursor, true);
        return status;
    }
    bool there = model.tree && leaf_at(model.tree, cursor, before, wanted_path, &depth, &offset);
    WANT(status, !model.made ? TYPST_NOT_MADE : !model.tree ? TYPST_NO_TREE : there ? TYPST_DONE : TYPST_NOT_FOUND);
    if (status == TYPST_DONE) {
        WANT(place.depth, depth);
        WANT(place.offset, offset);
        WANT(memcmp(path, wanted_path, depth * sizeof *path), 0);
    }
    return status;
}

/* What the library should report of the errors or the warnings of a tree. */
static struct {
    struct remark {
        uint32_t severity;
        const struct text *text;
        size_t start, end;
        size_t path[DEPTH], depth;
    } all[REMARKS];
    size_t count, len;
} remarks;

static void remark(uint32_t severity, const struct text *text, size_t start, size_t end, const size_t *path, size_t depth)
{
    struct remark *next = remarks.all + remarks.count++;
    *next = (struct remark){.severity = severity, .text = text, .start = start, .end = end, .depth = depth};
    if (depth) memcpy(next->path, path, depth * sizeof *path);
    remarks.len += text->len;
}

static void remark_report(const struct report *report, uint32_t severity, size_t start, size_t end, const size_t *path, size_t depth)
{
    remark(severity, report->texts, start, end, path, depth);
    for (size_t i = 1; i < report->count; i++) remark(TYPST_SEVERITY_HINT, report->texts + i, 0, 0, NULL, 0);
}

/* The same for the subtree at a path, whose text begins at a place. */
static void remark_all(const struct node *node, uint32_t severity, size_t start, size_t *path, size_t depth)
{
    size_t own = node->kind == TYPST_KIND_ERROR, end = start + node_len(node);
    if (severity == TYPST_SEVERITY_ERROR && own) remark_report(node->reports, severity, start, end, path, depth);
    for (size_t i = node->report_count; severity == TYPST_SEVERITY_WARNING && own < i; i--)
        remark_report(node->reports + i - 1, severity, start, end, path, depth);
    for (path[depth] = 0; path[depth] < node->count; path[depth]++) {
        remark_all(node->children[path[depth]], severity, start, path, depth + 1);
        start += node_len(node->children[path[depth]]);
    }
}

/* Checks that the node that a diagnostic is about has the diagnostic's bytes, and is an error if it should be. */
static void compare_node(const typst_diagnostic *told, size_t *path, size_t *depth)
{
    typst_place place;
    typst_node_info info;
    WANT(typst_find(&session, told->number, path, DEPTH, &place), TYPST_DONE);
    WANT(typst_node(&session, path, place.depth, &info), TYPST_DONE);
    WANT(told->placed, 1);
    WANT(told->start, place.offset);
    WANT(told->end, place.offset + info.len);
    if (told->severity == TYPST_SEVERITY_ERROR) WANT(info.kind, TYPST_KIND_ERROR);
    *depth = place.depth;
}

/* Whether a node of a kind is in a class. The model knows the class of each kind, and the class of all but trivia. */
static bool is_of(uint32_t node_class, uint32_t kind)
{
    return node_class == TYPST_CLASS_SOLID ? !kind_is_trivia(kind) : node_class == kind;
}

/* Finds a child by its class. */
static typst_status pick(void)
{
    size_t path[8], child = 77, index = once_in(20) ? SIZE_MAX - draw(2) : draw(3), left = index;
    size_t depth = draw_path(path), wanted = SIZE_MAX;
    const struct node *node = model_at(path, depth);
    uint32_t from_end = once_in(20) ? UINT32_MAX : (uint32_t)draw(2);
    uint32_t node_class = once_in(20)                  ? (uint32_t)draw(300)
                          : once_in(2)                 ? TYPST_CLASS_SOLID
                          : node && node->count        ? node->children[draw(node->count)]->kind
                                                       : 6;
    bool is_known = node_class < TYPST_KINDS || node_class == TYPST_CLASS_SOLID;
    typst_status status = typst_child_of_class(&session, path, depth, node_class, index, from_end, &child);
    if (status != TYPST_DONE) WANT(child, 77);
    if (model.is_document || (TYPST_CLASS_EXPR <= node_class && node_class < TYPST_CLASS_SOLID)) return status;
    for (size_t i = 0; node && wanted == SIZE_MAX && i < node->count; i++) {
        size_t at = from_end ? node->count - 1 - i : i;
        if (is_of(node_class, node->children[at]->kind) && left-- == 0) wanted = at;
    }
    WANT(status, !model.made ? TYPST_NOT_MADE : !is_known ? TYPST_BAD_KIND : reads(node) ? reads(node) : wanted == SIZE_MAX ? TYPST_NOT_FOUND : TYPST_DONE);
    if (status == TYPST_DONE) WANT(child, wanted);
    return status;
}

/* The first child of a kind, or null. */
static const struct node *first_of(const struct node *node, uint32_t kind)
{
    for (size_t i = 0; i < node->count; i++)
        if (node->children[i]->kind == kind) return node->children[i];
    return NULL;
}

/* What an accessor that is known should answer of a node of its kind. It writes the text into `out`. */
static typst_answer answer_of(uint32_t accessor, const struct node *node, char *out)
{
    typst_answer answer = {0, 0, 0, TYPST_ANSWER_TEXT};
    const struct node *marker = first_of(node, accessor == TYPST_VIEW_REF_TARGET ? TYPST_KIND_REF_MARKER : TYPST_KIND_HEADING_MARKER);
    const struct node *of = accessor == TYPST_VIEW_REF_TARGET ? marker : node;
    size_t len = !of || of->inner ? 0 : of->len, from = 0;
    if (accessor == TYPST_VIEW_REF_TARGET)
        while (from < len && of->text[from] == '@') from++;
    if (accessor == TYPST_VIEW_MATH_PRIMES_COUNT || accessor == TYPST_VIEW_HEADING_DEPTH) {
        size_t depth = marker && node_len(marker) ? node_len(marker) : 1;
        answer.form = TYPST_ANSWER_NATURAL;
        answer.number = accessor == TYPST_VIEW_HEADING_DEPTH ? depth : len;
    } else if (accessor == TYPST_VIEW_BOOL_GET) {
        answer.form = TYPST_ANSWER_FLAG;
        answer.number = len == 4 && memcmp(of->text, "true", 4) == 0;
    } else if ((answer.len = len - from)) {
        memcpy(out, of->text + from, len - from);
    }
    return answer;
}

/* The child that an accessor should answer with an index, or null. */
static const struct node *child_of(size_t at, const struct node *node, size_t index)
{
    const struct node *last = NULL;
    size_t before = 0;
    for (size_t i = 0; i < node->count; i++) {
        if (node->children[i]->kind != known[at].child) continue;
        if (known[at].which != LAST && before++ == index) return node->children[i];
        last = node->children[i];
    }
    return known[at].which == LAST ? last : NULL;
}

/* Compares a node that an accessor answers with the child at a path that it should be. */
static void compare_child(const typst_answer *answer, const size_t *path, size_t depth, const struct node *node, const struct node *child)
{
    size_t below[9];
    typst_node_info info;
    memcpy(below, path, depth * sizeof *path);
    for (below[depth] = 0; node->children[below[depth]] != child;) below[depth]++;
    WANT(typst_node(&session, below, depth + 1, &info), TYPST_DONE);
    WANT(answer->form, TYPST_ANSWER_NODE);
    WANT(answer->number, info.number);
    WANT(answer->integer, 0);
    WANT(answer->len, 0);
}

/* Whether `known` reads a node, and by which of its rows. */
static bool is_read(const struct node *node, size_t *at)
{
    for (size_t i = 0; node && i < sizeof known / sizeof *known; i++)
        if (known[i].kind == node->kind) return *at = i, true;
    return false;
}

/* Reads a node by an accessor, mostly one that `known` reads. */
static typst_status view(void)
{
    char out[80], text[80] = {0};
    size_t path[8], depth = draw_path(path), index = once_in(8) ? once_in(2) ? 1 : SIZE_MAX : 0;
    size_t at = draw(sizeof known / sizeof *known), room = once_in(4) ? draw(8) : sizeof out;
    const struct node *node = model_at(path, depth);
    for (size_t tries = draw(9); tries && !is_read(node, &at); tries--) {
        depth = draw_path(path);
        node = model_at(path, depth);
    }
    bool is_known = !once_in(8);
    uint32_t accessor = is_known ? known[at].accessor : once_in(3) ? UINT32_MAX - (uint32_t)draw(2) : (uint32_t)draw(TYPST_ACCESSORS + 9);
    typst_answer answer = {77, 77, 77, 77}, wanted = {0, 0, 0, TYPST_ANSWER_NONE};
    memset(out, '#', sizeof out);
    typst_status status = typst_view(&session, path, depth, accessor, index, out, room, &answer);
    if (status != TYPST_DONE && status != TYPST_SHORT_BUFFER) WANT(answer.number == 77 && answer.integer == 77 && answer.len == 77 && answer.form == 77, 1);
    for (size_t i = status == TYPST_DONE ? answer.len : 0; i < sizeof out; i++) WANT(out[i], '#');
    if (model.is_document) return status;
    if (!is_known) {
        typst_status refused = !model.made ? TYPST_NOT_MADE : TYPST_ACCESSORS <= accessor ? TYPST_BAD_ACCESSOR : reads(node);
        if (refused != TYPST_DONE) WANT(status, refused);
        return status;
    }
    bool is_viewed = node && node->kind == known[at].kind && (index == 0 || known[at].which == EACH);
    if (is_viewed && known[at].which == VALUE) wanted = answer_of(accessor, node, text);
    const struct node *child = is_viewed && known[at].which != VALUE ? child_of(at, node, index) : NULL;
    WANT(status, !model.made ? TYPST_NOT_MADE : reads(node) ? reads(node) : room < wanted.len ? TYPST_SHORT_BUFFER : TYPST_DONE);
    if (status != TYPST_DONE && status != TYPST_SHORT_BUFFER) return status;
    if (child) {
        compare_child(&answer, path, depth, node, child);
        return status;
    }
    WANT(answer.form, wanted.form);
    WANT(answer.number, wanted.number);
    WANT(answer.integer, 0);
    WANT(answer.len, wanted.len);
    if (status == TYPST_DONE) WANT(memcmp(out, text, wanted.len), 0);
    return status;
}

/* Reads what is wrong. */
static typst_status diagnostics(void)
{
    static typst_diagnostic out[REMARKS];
    static char texts[REMARKS * 64];
    size_t path[DEPTH], depth = 0, room = once_in(4) ? draw(8) : REMARKS, texts_room = once_in(4) ? draw(60) : sizeof texts;
    typst_diagnostic_sizes sizes = {77, 77};
    remarks.count = remarks.len = 0;
    for (uint32_t severity = TYPST_SEVERITY_ERROR; severity <= TYPST_SEVERITY_WARNING && model.tree; severity++)
        remark_all(model.tree, severity, 0, path, 0);
    memset(out, '#', sizeof out);
    memset(texts, '#', sizeof texts);
    typst_status status = typst_diagnostics(&session, out, room, texts, texts_room, &sizes);
    if (!model.is_document) {
        bool fits = remarks.count <= room && remarks.len <= texts_room;
        WANT(status, !model.made ? TYPST_NOT_MADE : !model.tree ? TYPST_NO_TREE : fits ? TYPST_DONE : TYPST_SHORT_BUFFER);
        WANT(sizes.count, model.tree ? remarks.count : 77);
        WANT(sizes.len, model.tree ? remarks.len : 77);
    }
    const char *text = texts;
    size_t count = status == TYPST_DONE ? sizes.count : 0;
    for (size_t i = 0; i < count; text += out[i++].len) {
        const struct remark *wanted = remarks.all + i;
        if (out[i].severity != TYPST_SEVERITY_HINT) compare_node(out + i, path, &depth);
        if (model.is_document) continue;
        WANT(out[i].severity, wanted->severity);
        WANT(out[i].len, wanted->text->len);
        WANT(memcmp(text, wanted->text->at, wanted->text->len), 0);
        WANT(out[i].start, wanted->start);
        WANT(out[i].end, wanted->end);
        WANT(out[i].placed, wanted->severity != TYPST_SEVERITY_HINT);
        if (wanted->severity == TYPST_SEVERITY_HINT) WANT(out[i].number, 1);
        else WANT(depth == wanted->depth && memcmp(path, wanted->path, depth * sizeof *path) == 0, true);
    }
    for (; text < texts + sizeof texts; text++) WANT(*text, '#');
    for (const char *byte = (const char *)(out + count); byte < (const char *)(out + REMARKS); byte++) WANT(*byte, '#');
    return status;
}

/* Checks that both sessions hold the same document, node by node, from this path down. */
static void compare_documents(size_t *path, size_t depth)
{
    typst_node_info info, anew;
    WANT(typst_node(&session, path, depth, &info), TYPST_DONE);
    WANT(typst_node(&other, path, depth, &anew), TYPST_DONE);
    WANT(info.len, anew.len);
    WANT(info.kind, anew.kind);
    WANT(info.children, anew.children);
    WANT(info.errors, anew.errors);
    for (path[depth] = 0; path[depth] < info.children; path[depth]++) compare_documents(path, depth + 1);
}

/* Checks that the document is what parsing the model's whole text anew gives. */
static void compare_document(void)
{
    char out[TEXT];
    size_t path[DEPTH] = {0};
    typst_length length;
    WANT(typst_full_text(&session, path, 0, out, sizeof out, &length), TYPST_DONE);
    WANT(length.len, model.len);
    WANT(memcmp(out, model.text, model.len), 0);
    WANT(typst_open(&other, 7, model.text, model.len), TYPST_DONE);
    compare_documents(path, 0);
    uint32_t equal = 77;
    WANT(typst_spanless_eq(&session, path, 0, &other, path, 0, &equal), TYPST_DONE);
    WANT(equal, 1);
}

/* Compares two nodes of the tree, and one of them with one of the other session, which holds a document or nothing. */
static typst_status compare(void)
{
    size_t path[8], beside[8];
    size_t depth = draw_path(path), beside_depth = draw_path(beside);
    uint32_t equal = 77, apart = 77;
    typst_status status = typst_spanless_eq_within(&session, path, depth, beside, beside_depth, &equal);
    typst_node_info info;
    typst_status there = typst_node(&session, path, depth, &info);
    typst_status beside_there = typst_node(&other, path, 0, &info);
    WANT(typst_spanless_eq(&other, path, 0, &session, path, depth, &apart), model.made && beside_there ? beside_there : there);
    if (model.is_document) return status;
    const struct node *node = model_at(path, depth), *other_node = model_at(beside, beside_depth);
    WANT(status, node ? reads(other_node) : reads(node));
    WANT(equal, status == TYPST_DONE ? node_same(node, other_node) : 77);
    return status;
}

static typst_status open(void)
{
    char text[64];
    size_t len = draw_text(text);
    uint16_t file = (uint16_t)(once_in(20) ? 0 : 1 + draw(9));
    typst_status status = typst_open(&session, file, text, len);
    WANT(status, !model.made              ? TYPST_NOT_MADE
                 : file == 0              ? TYPST_BAD_FILE
                 : !is_utf8(text, len)    ? TYPST_BAD_TEXT
                                          : TYPST_DONE);
    if (status == TYPST_DONE) {
        drop_tree();
        model.is_document = true;
        model.ends = TYPST_LINE_ENDS_UNICODE;
        memcpy(model.text, text, len);
        model.len = len;
        compare_document();
    }
    return status;
}

static typst_status edit(void)
{
    char with[64];
    size_t len = draw_text(with), from = draw(model.len + 2), to = from + draw(9);
    if (once_in(30)) to = SIZE_MAX - draw(2);
    if (once_in(30)) to = draw(from + 1);
    if (TEXT / 2 < model.len) to = model.len;
    typst_edited edited = {77, 77, {77, {77, 77, 77}, 77, 77}};
    read_before();
    typst_status status = typst_edit(&session, from, to, with, len, &edited);
    bool fits = from <= to && is_boundary(model.text, model.len, from) && is_boundary(model.text, model.len, to);
    WANT(status, !model.made           ? TYPST_NOT_MADE
                 : !model.is_document  ? TYPST_NO_DOCUMENT
                 : !is_utf8(with, len) ? TYPST_BAD_TEXT
                 : !fits               ? TYPST_BAD_RANGE
                                       : TYPST_DONE);
    if (status == TYPST_DONE) {
        memmove(model.text + from + len, model.text + to, model.len - to);
        memcpy(model.text + from, with, len);
        model.len += len - (to - from);
        WANT(edited.start <= from && from + len <= edited.end && edited.end <= model.len, true);
        WANT(edited.change.root, 0);
        follow_all(&edited.change, from < to || len > 0);
        compare_document();
    } else {
        WANT(edited.start == 77 && edited.end == 77 && is_untouched(&edited.change), true);
    }
    return status;
}

/* Finds the node whose text is exactly these bytes, from the node at a path down, whose text begins at `*offset`. */
static bool range_at(const struct node *node, size_t from, size_t to, size_t *path, size_t *depth, size_t *offset)
{
    if (*offset == from && *offset + node_len(node) == to) return true;
    for (size_t i = 0, begin = *offset; i < node->count; begin += node_len(node->children[i++])) {
        if (from < begin || begin + node_len(node->children[i]) < to) continue;
        path[(*depth)++] = i;
        *offset = begin;
        return range_at(node->children[i], from, to, path, depth, offset);
    }
    return false;
}

/* Finds a node by its bytes. */
static typst_status find_range(void)
{
    size_t path[DEPTH], wanted[DEPTH], depth = 0, offset = 0, held[8], held_depth = draw_path(held);
    typst_place place = {77, 77};
    typst_range range = {draw(20), draw(20)};
    if (typst_range_of(&session, held, held_depth, &range) == TYPST_DONE && once_in(8)) range.end += draw(3);
    typst_status status = typst_find_range(&session, range.start, range.end, path, DEPTH, &place);
    if (model.is_document) {
        typst_range found = {77, 77};
        if (status == TYPST_DONE) WANT(typst_range_of(&session, path, place.depth, &found), TYPST_DONE);
        if (status == TYPST_DONE) WANT(found.start == range.start && found.end == range.end, true);
        return status;
    }
    bool there = model.tree && range_at(model.tree, range.start, range.end, wanted, &depth, &offset);
    WANT(status, !model.made ? TYPST_NOT_MADE : !model.tree ? TYPST_NO_TREE : there ? TYPST_DONE : TYPST_NOT_FOUND);
    WANT(place.depth, there ? depth : 77);
    WANT(place.offset, there ? offset : 77);
    if (there) WANT(memcmp(path, wanted, depth * sizeof *path), 0);
    return status;
}

/* The node at a path from `node` down whose text covers these bytes, and of whose children none covers them. */
static void cover_at(const struct node *node, size_t from, size_t to, size_t *path, size_t *depth, size_t *offset)
{
    for (size_t i = 0, begin = *offset; i < node->count; begin += node_len(node->children[i++])) {
        if (from < begin || begin + node_len(node->children[i]) < to) continue;
        path[(*depth)++] = i;
        *offset = begin;
        cover_at(node->children[i], from, to, path, depth, offset);
        return;
    }
}

/* Finds the smallest node that covers some bytes. */
static typst_status find_cover(void)
{
    size_t path[DEPTH], wanted[DEPTH], depth = 0, offset = 0, from = draw(20), to = from + draw(6);
    typst_place place = {77, 77};
    typst_range range;
    typst_status status = typst_find_cover(&session, from, to, path, DEPTH, &place);
    if (model.is_document) {
        WANT(status, to <= model.len ? TYPST_DONE : TYPST_NOT_FOUND);
        if (status == TYPST_DONE) WANT(typst_range_of(&session, path, place.depth, &range), TYPST_DONE);
        if (status == TYPST_DONE) WANT(range.start <= from && to <= range.end, true);
        return status;
    }
    bool there = model.tree && to <= node_len(model.tree);
    if (there) cover_at(model.tree, from, to, wanted, &depth, &offset);
    WANT(status, !model.made ? TYPST_NOT_MADE : !model.tree ? TYPST_NO_TREE : there ? TYPST_DONE : TYPST_NOT_FOUND);
    WANT(place.depth, there ? depth : 77);
    WANT(place.offset, there ? offset : 77);
    if (there) WANT(memcmp(path, wanted, depth * sizeof *path), 0);
    return status;
}

/* Copies the session, compares the nodes, and goes on with the copy. */
static typst_status copy(void)
{
    static typst_node_info nodes[NODES], copied[NODES];
    size_t path[1] = {0};
    typst_length length = {0}, same = {0};
    uint64_t now;
    typst_status status = typst_copy(&session, &other);
    WANT(status, model.made ? TYPST_DONE : TYPST_NOT_MADE);
    if (status != TYPST_DONE) return status;
    typst_status held = typst_preorder(&session, path, 0, nodes, NODES, &length);
    WANT(typst_preorder(&other, path, 0, copied, NODES, &same), held);
    WANT(same.len, length.len);
    WANT(memcmp(nodes, copied, length.len * sizeof *nodes), 0);
    WANT(typst_pop(&other, model.depth + 1), TYPST_SHORT_STACK);
    WANT(typst_pop(&other, model.depth), TYPST_DONE);
    WANT(typst_follow(&other, 2, &now), TYPST_NO_EDIT);
    WANT(typst_edited_path(&other, path, 1, &same), TYPST_NO_EDIT);
    WANT(typst_copy(&session, &other), TYPST_DONE);
    WANT(typst_new(&session), TYPST_DONE);
    typst_session made = session;
    session = other;
    other = made;
    model.is_followed = false;
    return status;
}

/* Takes other line ends for the document. */
static typst_status set_line_ends(void)
{
    uint32_t ends = once_in(9) ? UINT32_MAX : (uint32_t)draw(2);
    typst_status status = typst_set_line_ends(&session, ends);
    WANT(status, !model.made ? TYPST_NOT_MADE : !model.is_document ? TYPST_NO_DOCUMENT : TYPST_DONE);
    if (status == TYPST_DONE) model.ends = ends;
    return status;
}

/* Counts units before a byte, and goes back. */
static void offsets(typst_status held, uint32_t unit, size_t at)
{
    size_t offset = 77, byte = 77, wanted = 0;
    bool is_held = held == TYPST_DONE, there = is_held && is_boundary(model.text, model.len, at);
    WANT(typst_byte_to_offset(&session, at, unit, &offset), there ? TYPST_DONE : is_held ? TYPST_NO_PLACE : held);
    for (size_t i = 0; there && i < at; i++) {
        bool goes_on = ((unsigned char)model.text[i] & 0xc0) == 0x80;
        wanted += unit == TYPST_BYTES || !goes_on;
        wanted += unit > TYPST_CHARACTERS && 0xf0 <= (unsigned char)model.text[i];
    }
    WANT(offset, there ? wanted : 77);
    WANT(typst_offset_to_byte(&session, there ? wanted : SIZE_MAX, unit, &byte), there ? TYPST_DONE : is_held ? TYPST_NO_PLACE : held);
    WANT(byte, there ? at : 77);
}

/* The byte of a line and a column, or the end of the line's text if the column is there or past it. */
static bool clamped_at(uint32_t unit, struct spot *spot)
{
    struct spot end = {0, spot->line, 0}, next = {0, spot->line + 1, 0};
    if (!spot_at(model.text, model.len, model.ends, TYPST_BYTES, false, &end)) return false;
    size_t begin = end.byte;
    end.byte = spot_at(model.text, model.len, model.ends, TYPST_BYTES, false, &next) ? next.byte : model.len;
    struct spot after = {end.byte, 0, 0};
    spot_at(model.text, model.len, model.ends, TYPST_BYTES, true, &after);
    if (after.line != spot->line) {
        do end.byte--;
        while (!is_boundary(model.text, model.len, end.byte));
        if (begin < end.byte && model.text[end.byte] == '\n' && model.text[end.byte - 1] == '\r') end.byte--;
    }
    struct spot text_end = {end.byte, 0, 0};
    spot_at(model.text, model.len, model.ends, unit, true, &text_end);
    if (text_end.column <= spot->column) {
        spot->byte = end.byte;
        return true;
    }
    return spot_at(model.text, model.len, model.ends, unit, false, spot);
}

/* Reads a part of the document's text, and the bytes of a line. */
static void parts(typst_status held)
{
    char out[24];
    size_t from = draw(model.len + 2), to = once_in(9) ? draw(from + 1) : from + draw(9), room = draw(sizeof out + 1), line = draw(6);
    typst_length length = {77};
    typst_range range = {77, 77};
    memset(out, '#', sizeof out);
    bool is_held = held == TYPST_DONE;
    bool fits = from <= to && is_boundary(model.text, model.len, from) && is_boundary(model.text, model.len, to);
    bool is_written = is_held && fits && to - from <= room;
    WANT(typst_text(&session, from, to, out, room, &length), !is_held     ? held
                                                             : !fits      ? TYPST_BAD_RANGE
                                                             : is_written ? TYPST_DONE
                                                                          : TYPST_SHORT_BUFFER);
    WANT(length.len, is_held && fits ? to - from : 77);
    if (is_written) WANT(memcmp(out, model.text + from, to - from), 0);
    for (size_t i = is_written ? to - from : 0; i < sizeof out; i++) WANT(out[i], '#');
    struct spot begin = {0, line, 0}, next = {0, line + 1, 0};
    bool there = is_held && spot_at(model.text, model.len, model.ends, TYPST_BYTES, false, &begin);
    bool is_last = there && !spot_at(model.text, model.len, model.ends, TYPST_BYTES, false, &next);
    WANT(typst_line_to_range(&session, line, &range), !is_held ? held : there ? TYPST_DONE : TYPST_NO_PLACE);
    WANT(range.start, there ? begin.byte : 77);
    WANT(range.end, !there ? 77 : is_last ? model.len : next.byte);
}

/* Reads how many lines the document has, and looks up places in it by their bytes and by their lines and columns. */
static typst_status places(void)
{
    uint32_t unit = once_in(30) ? UINT32_MAX - (uint32_t)draw(3) : (uint32_t)draw(3);
    size_t count = 77, byte = 77;
    typst_line_column place = {77, 77};
    struct spot end = {model.len, 0, 0}, spot = {once_in(30) ? SIZE_MAX - draw(2) : draw(model.len + 3), 0, 0};
    typst_status held = !model.made ? TYPST_NOT_MADE : !model.is_document ? TYPST_NO_DOCUMENT : TYPST_DONE;
    bool is_held = held == TYPST_DONE;
    if (is_held) spot_at(model.text, model.len, model.ends, unit, true, &end);
    WANT(typst_len_lines(&session, &count), held);
    parts(held);
    WANT(count, is_held ? end.line + 1 : 77);
    bool there = is_held && spot_at(model.text, model.len, model.ends, unit, true, &spot);
    WANT(typst_byte_to_line_column(&session, spot.byte, unit, &place), there ? TYPST_DONE : is_held ? TYPST_NO_PLACE : held);
    WANT(place.line, there ? spot.line : 77);
    WANT(place.column, there ? spot.column : 77);
    /* Asks for the place itself, or for one next to it, which may not exist. */
    struct spot near = {0, spot.line + draw(2), once_in(30) ? SIZE_MAX : spot.column + draw(3)};
    there = is_held && spot_at(model.text, model.len, model.ends, unit, false, &near);
    typst_status status = typst_line_column_to_byte(&session, near.line, near.column, unit, &byte);
    WANT(status, there ? TYPST_DONE : is_held ? TYPST_NO_PLACE : held);
    WANT(byte, there ? near.byte : 77);
    near = (struct spot){0, near.line, near.column};
    byte = 77;
    there = is_held && clamped_at(unit, &near);
    WANT(typst_line_column_to_byte_clamped(&session, near.line, near.column, unit, &byte), there ? TYPST_DONE : is_held ? TYPST_NO_PLACE : held);
    WANT(byte, there ? near.byte : 77);
    offsets(held, unit, spot.byte);
    return status;
}

/* Reads a kind. Its name leads back to it, and it is trivia if it is in the model. */
static typst_status kind(void)
{
    char name[48];
    typst_length length = {77};
    typst_kind_info classes = {77, 77, 77, 77, 77, 77};
    uint32_t number = once_in(20) ? UINT32_MAX - (uint32_t)draw(9) : (uint32_t)draw(TYPST_KINDS + 9), found = 77, held = 77;
    uint32_t set = once_in(20) ? UINT32_MAX : (uint32_t)draw(14);
    size_t room = draw(sizeof name + 1);
    bool there = number < TYPST_KINDS;
    memset(name, '#', sizeof name);
    typst_status status = typst_kind_name(number, name, room, &length);
    WANT(status, !there ? TYPST_BAD_KIND : room < length.len ? TYPST_SHORT_BUFFER : TYPST_DONE);
    WANT(typst_kind_classes(number, &classes), there ? TYPST_DONE : TYPST_BAD_KIND);
    WANT(typst_kind_in_set(number, set, &held), TYPST_SET_DESTRUCTURING_ITEM < set ? TYPST_BAD_SET : there ? TYPST_DONE : TYPST_BAD_KIND);
    WANT(classes.trivia, there ? kind_is_trivia(number) : 77);
    WANT(held <= 1, there && set <= TYPST_SET_DESTRUCTURING_ITEM);
    for (size_t i = status == TYPST_DONE ? length.len : 0; i < sizeof name; i++) WANT(name[i], '#');
    if (status == TYPST_DONE) {
        WANT(typst_kind_of_name(name, length.len, &found), TYPST_DONE);
        WANT(found, number);
        if (length.len < sizeof name) WANT(typst_kind_of_name(name, length.len + 1, &found), TYPST_NOT_FOUND);
    }
    return status;
}

static typst_status make(void)
{
    typst_status status = typst_new(&session);
    WANT(status, TYPST_DONE);
    drop_stack(model.depth);
    drop_tree();
    model.made = true;
    return status;
}

static typst_status let_go(void)
{
    typst_free(&session);
    drop_stack(model.depth);
    drop_tree();
    model.made = false;
    return TYPST_DONE;
}

static typst_status leaf_text(void)
{
    return text_of(false);
}

static typst_status full_text(void)
{
    return text_of(true);
}

/* Keeps what is held small. */
static void trim(void)
{
    if (model.depth < STACK && (!model.tree || node_size(model.tree) < LARGEST)) return;
    while (model.depth) {
        WANT(typst_pop(&session, 1), TYPST_DONE);
        drop_stack(1);
    }
    if (model.tree && LARGEST <= node_size(model.tree)) make();
}

int main(int argc, char **argv)
{
    static const struct {
        const char *name;
        typst_status (*call)(void);
        /* How often it is drawn. */
        size_t weight;
    } calls[CALLS] = {{"push_leaf", push_leaf, 200}, {"push_error", push_error, 40}, {"wrap", wrap, 120},
                      {"pop", pop, 20},              {"number", number, 60},         {"replace", replace, 200},
                      {"node", read_node, 100},      {"find", find, 60},             {"leaf_text", leaf_text, 60},
                      {"full_text", full_text, 60},  {"leaf_at", leaf_at_cursor, 80}, {"open", open, 15},
                      {"edit", edit, 200},           {"new", make, 1},               {"free", let_go, 1},
                      {"warn", warn, 40},            {"hint", hint, 40},             {"push_copy", push_copy, 40},
                      {"renumber", renumber, 30},    {"take_tree", take_tree, 15},   {"children", children, 60},
                      {"preorder", preorder, 60},    {"range_of", range_of, 60},     {"neighbor", neighbor, 120},
                      {"kind", kind, 20},            {"places", places, 100},
                      {"diagnostics", diagnostics, 15}, {"compare", compare, 60},
                      {"pick", pick, 60},            {"view", view, 100},
                      {"reconcile", reconcile, 200}, {"update", update, 60},
                      {"follow", follow, 30},        {"send", send, 30},
                      {"find_range", find_range, 60}, {"find_cover", find_cover, 60},
                      {"copy", copy, 10},            {"set_line_ends", set_line_ends, 20}};
    static unsigned long seen[CALLS][STATUSES];
    unsigned long many = argc > 1 ? strtoul(argv[1], NULL, 10) : 1000000;
    size_t weights = 0;
    if (argc > 2) seed = strtoul(argv[2], NULL, 10) * 2 + 1;
    for (size_t i = 0; i < CALLS; i++) weights += calls[i].weight;
    WANT(typst_new(&other), TYPST_DONE);
    for (call_count = 0; call_count < many; call_count++) {
        size_t drawn = draw(weights), i = 0;
        while (calls[i].weight <= drawn) drawn -= calls[i++].weight;
        /* A handle stays free for a few calls only. */
        if (!model.made && once_in(5)) i = 13;
        made = calls[i].name;
        seen[i][calls[i].call()]++;
        trim();
    }
    let_go();
    typst_free(&other);
    for (size_t i = 0; i < CALLS; i++) {
        printf("%s:", calls[i].name);
        for (size_t status = 0; status < STATUSES; status++)
            if (seen[i][status]) printf(" %zu x%lu", status, seen[i][status]);
        printf("\n");
    }
    return 0;
}
