#include "model.h"

#include <stdlib.h>
#include <string.h>

static void *need(void *block)
{
    if (!block) abort();
    return block;
}

struct node *node_leaf(uint32_t kind, const char *text, size_t len)
{
    struct node *node = need(calloc(1, sizeof *node));
    node->kind = kind;
    node->text = need(malloc(len + 1));
    memcpy(node->text, text, len);
    node->len = len;
    return node;
}

struct node *node_inner(uint32_t kind, struct node **children, size_t count)
{
    struct node *node = need(calloc(1, sizeof *node));
    node->kind = kind;
    node->inner = true;
    node->children = need(malloc((count + 1) * sizeof *children));
    memcpy(node->children, children, count * sizeof *children);
    node->count = count;
    return node;
}

struct node *node_copy(const struct node *node)
{
    struct node *copy = node->inner ? node_inner(node->kind, node->children, node->count)
                                    : node_leaf(node->kind, node->text, node->len);
    for (size_t i = 0; i < node->report_count; i++) {
        const struct report *report = node->reports + i;
        node_report(copy, report->texts[0].at, report->texts[0].len);
        for (size_t k = 1; k < report->count; k++) node_hint(copy, report->texts[k].at, report->texts[k].len);
    }
    for (size_t i = 0; i < copy->count; i++) copy->children[i] = node_copy(node->children[i]);
    return copy;
}

static void add_text(struct report *report, const char *text, size_t len)
{
    report->texts = need(realloc(report->texts, (report->count + 1) * sizeof *report->texts));
    struct text *last = report->texts + report->count++;
    last->at = need(malloc(len + 1));
    last->len = len;
    memcpy(last->at, text, len);
}

void node_report(struct node *node, const char *message, size_t len)
{
    node->reports = need(realloc(node->reports, (node->report_count + 1) * sizeof *node->reports));
    struct report *last = node->reports + node->report_count++;
    *last = (struct report){NULL, 0};
    add_text(last, message, len);
}

void node_hint(struct node *node, const char *text, size_t len)
{
    add_text(node->reports + node->report_count - 1, text, len);
}

void node_free(struct node *node)
{
    if (!node) return;
    for (size_t i = 0; i < node->count; i++) node_free(node->children[i]);
    for (size_t i = 0; i < node->report_count; i++) {
        for (size_t k = 0; k < node->reports[i].count; k++) free(node->reports[i].texts[k].at);
        free(node->reports[i].texts);
    }
    free(node->reports);
    free(node->children);
    free(node->text);
    free(node);
}

size_t node_len(const struct node *node)
{
    size_t len = node->len;
    for (size_t i = 0; i < node->count; i++) len += node_len(node->children[i]);
    return len;
}

size_t node_size(const struct node *node)
{
    size_t size = 1;
    for (size_t i = 0; i < node->count; i++) size += node_size(node->children[i]);
    return size;
}

bool node_errs(const struct node *node)
{
    bool errs = node->kind == 1;
    for (size_t i = 0; i < node->count; i++) errs = errs || node_errs(node->children[i]);
    return errs;
}

bool is_warned(const struct node *node)
{
    return node->report_count > (node->kind == 1);
}

bool node_warns(const struct node *node)
{
    bool warns = is_warned(node);
    for (size_t i = 0; i < node->count; i++) warns = warns || node_warns(node->children[i]);
    return warns;
}

static bool report_same(const struct report *report, const struct report *other)
{
    bool same = report->count == other->count;
    for (size_t i = 0; same && i < report->count; i++) {
        const struct text *text = report->texts + i, *beside = other->texts + i;
        same = text->len == beside->len && memcmp(text->at, beside->at, text->len) == 0;
    }
    return same;
}

bool node_same(const struct node *node, const struct node *other)
{
    bool same = node->kind == other->kind && node->inner == other->inner && node->len == other->len && node->count == other->count
                && node->report_count == other->report_count && (node->len == 0 || memcmp(node->text, other->text, node->len) == 0);
    for (size_t i = 0; same && i < node->report_count; i++) same = report_same(node->reports + i, other->reports + i);
    for (size_t i = 0; same && i < node->count; i++) same = node_same(node->children[i], other->children[i]);
    return same;
}

const struct node **node_list(const struct node *node, const struct node **out)
{
    *out++ = node;
    for (size_t i = 0; i < node->count; i++) out = node_list(node->children[i], out);
    return out;
}

size_t node_offset(const struct node *root, const size_t *path, size_t depth)
{
    size_t offset = 0;
    for (size_t i = 0; i < depth; i++) {
        for (size_t k = 0; k < path[i]; k++) offset += node_len(root->children[k]);
        root = root->children[path[i]];
    }
    return offset;
}

bool kind_is_trivia(uint32_t kind)
{
    return (2 <= kind && kind <= 4) || kind == 7 || kind == 9;
}

static bool is_trivia(const struct node *node)
{
    return kind_is_trivia(node->kind);
}

/* The first good leaf of a tree, or the last one. Its path continues at `depth`. */
static bool leaf_in(const struct node *node, bool first, size_t *found, size_t depth, size_t *found_depth)
{
    *found_depth = depth;
    if (!node->inner) return node->kind == 1 ? node->len > 0 : !is_trivia(node);
    for (size_t i = 0; i < node->count; i++) {
        found[depth] = first ? i : node->count - 1 - i;
        if (leaf_in(node->children[found[depth]], first, found, depth + 1, found_depth)) return true;
    }
    return false;
}

bool leaf_near(const struct node *root, const size_t *path, size_t depth, bool behind, size_t *found, size_t *found_depth)
{
    /* From the siblings of the node itself up to the siblings of the topmost node above it. */
    for (size_t level = depth; level-- > 0;) {
        const struct node *parent = root;
        for (size_t i = 0; i < level; i++) parent = parent->children[path[i]];
        memcpy(found, path, level * sizeof *path);
        for (size_t i = path[level] + (behind ? 1 : -1); i < parent->count; i += behind ? 1 : -1) {
            found[level] = i;
            if (!is_trivia(parent->children[i]) && leaf_in(parent->children[i], behind, found, level + 1, found_depth)) return true;
        }
    }
    return false;
}

bool sibling_near(const struct node *root, const size_t *path, size_t depth, bool behind, size_t *index)
{
    if (depth == 0) return false;
    for (size_t i = 0; i < depth - 1; i++) root = root->children[path[i]];
    for (*index = path[depth - 1] + (behind ? 1 : -1); *index < root->count; *index += behind ? 1 : -1)
        if (!is_trivia(root->children[*index])) return true;
    return false;
}

char *node_write(const struct node *node, char *out)
{
    if (node->len) memcpy(out, node->text, node->len);
    out += node->len;
    for (size_t i = 0; i < node->count; i++) out = node_write(node->children[i], out);
    return out;
}

struct node *node_at(struct node *root, const size_t *path, size_t depth)
{
    for (size_t i = 0; i < depth; i++) {
        if (root->count <= path[i]) return NULL;
        root = root->children[path[i]];
    }
    return root;
}

/* The leaf at a cursor below a node whose text begins at `*offset`. Afterwards `*offset` is where the text after the
 * node begins. `last` keeps the last node without children, and `last_offset` keeps where it begins. */
struct search {
    size_t cursor;
    bool before;
    size_t at;
    size_t *path, *depth, *offset;
    size_t last[64], last_depth, last_offset;
    bool any;
};

static bool search(const struct node *node, size_t depth, struct search *it)
{
    if (node->count == 0) {
        size_t begin = it->at, end = it->at + node->len;
        it->at = end;
        *it->depth = depth;
        *it->offset = begin;
        it->any = true;
        it->last_offset = begin;
        it->last_depth = depth;
        memcpy(it->last, it->path, depth * sizeof *it->path);
        return it->before ? begin < it->cursor && it->cursor <= end : begin <= it->cursor && it->cursor < end;
    }
    for (size_t i = 0; i < node->count; i++) {
        it->path[depth] = i;
        if (search(node->children[i], depth + 1, it)) return true;
    }
    return false;
}

bool leaf_at(const struct node *root, size_t cursor, bool before, size_t *path, size_t *depth, size_t *offset)
{
    struct search it = {.cursor = cursor, .before = before, .path = path, .depth = depth, .offset = offset};
    if (search(root, 0, &it)) return true;
    if (!before || !it.any || it.last_offset != cursor) return false;
    memcpy(path, it.last, it.last_depth * sizeof *path);
    *depth = it.last_depth;
    *offset = it.last_offset;
    return true;
}

/* How many bytes the character at the beginning of these bytes has, or 0 if there is none. */
static size_t character(const unsigned char *text, size_t len)
{
    unsigned char first = text[0];
    size_t count = first < 0x80 ? 1 : first < 0xc2 ? 0 : first < 0xe0 ? 2 : first < 0xf0 ? 3 : first < 0xf5 ? 4 : 0;
    if (count == 0 || len < count) return 0;
    for (size_t i = 1; i < count; i++)
        if ((text[i] & 0xc0) != 0x80) return 0;
    if (first == 0xe0 && text[1] < 0xa0) return 0;
    if (first == 0xed && text[1] > 0x9f) return 0;
    if (first == 0xf0 && text[1] < 0x90) return 0;
    if (first == 0xf4 && text[1] > 0x8f) return 0;
    return count;
}

bool is_utf8(const char *text, size_t len)
{
    for (size_t at = 0; at < len;) {
        size_t count = character((const unsigned char *)text + at, len - at);
        if (count == 0) return false;
        at += count;
    }
    return true;
}

bool is_boundary(const char *text, size_t len, size_t at)
{
    return at == len || (at < len && ((unsigned char)text[at] & 0xc0) != 0x80);
}

/* Whether a line begins after these bytes. They end in a line end, and not between a carriage return and its line feed. */
static bool ends_line(const unsigned char *text, size_t len, uint32_t ends, size_t at)
{
    unsigned char last = text[at - 1];
    if (last == '\r') return at == len || text[at] != '\n';
    if (ends) return last == '\n';
    if ('\n' <= last && last <= '\f') return true;
    if (2 <= at && text[at - 2] == 0xc2 && last == 0x85) return true;
    return 3 <= at && text[at - 3] == 0xe2 && text[at - 2] == 0x80 && (last == 0xa8 || last == 0xa9);
}

/* By how much a byte increases the column. */
static size_t column_width(unsigned char byte, uint32_t unit)
{
    if (unit == 0) return 1;
    if ((byte & 0xc0) == 0x80) return 0;
    return unit != 1 && 0xf0 <= byte ? 2 : 1;
}

bool spot_at(const char *text, size_t len, uint32_t ends, uint32_t unit, bool by_byte, struct spot *spot)
{
    struct spot now = {0, 0, 0};
    for (;; now.byte++) {
        if (now.byte && ends_line((const unsigned char *)text, len, ends, now.byte)) {
            now.line++;
            now.column = 0;
        }
        bool there = by_byte ? now.byte == spot->byte : now.line == spot->line && now.column == spot->column;
        if (there && is_boundary(text, len, now.byte)) {
            *spot = now;
            return true;
        }
        if (now.byte == len) return false;
        now.column += column_width((unsigned char)text[now.byte], unit);
    }
}
