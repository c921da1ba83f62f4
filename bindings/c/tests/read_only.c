/* Makes each call that only reads on sessions in memory that can't be written.
 *
 * The contract of such a call says that the session is the same when it returns. This program tests that nothing is written in
 * between either: a write ends the process with a signal. So each call runs in a process of its own. A call that changes a session
 * must end with a signal, which shows that the memory can't be written. */
#define _DEFAULT_SOURCE
#include "typst.h"

#include <stdio.h>
#include <stdlib.h>
#include <string.h>
#include <sys/mman.h>
#include <sys/wait.h>
#include <unistd.h>

enum { NODES = 64, DEPTH = 64, BYTES = 256 };

/* Two sessions in one page, each with a document. */
static typst_session *session, *other;

static typst_node_info infos[NODES];
static typst_length length;
static typst_place place;
static char bytes[BYTES];
static size_t path[DEPTH], found[DEPTH], size;
static uint32_t flag;

/* Finds a leaf for a call that reads one. */
static size_t leaf(void)
{
    if (typst_leaf_at(session, 3, TYPST_BEFORE, path, DEPTH, &place) != TYPST_DONE) exit(99);
    return place.depth;
}

static typst_status read_node(void) { return typst_node(session, path, 0, infos); }
static typst_status read_children(void) { return typst_children(session, path, 0, infos, NODES, &length); }
static typst_status read_preorder(void) { return typst_preorder(session, path, 0, infos, NODES, &length); }
static typst_status read_leaf_text(void) { return typst_leaf_text(session, path, leaf(), bytes, BYTES, &length); }
static typst_status read_full_text(void) { return typst_full_text(session, path, 0, bytes, BYTES, &length); }

static typst_status read_child_of_class(void)
{
    return typst_child_of_class(session, path, 0, TYPST_CLASS_EXPR, 0, TYPST_FROM_LAST, &size);
}

static typst_status read_view(void)
{
    typst_answer answer;
    return typst_view(session, path, 0, TYPST_VIEW_MARKUP_EXPRS, 0, bytes, BYTES, &answer);
}

static typst_status read_diagnostics(void)
{
    typst_diagnostic out[8];
    typst_diagnostic_sizes sizes;
    return typst_diagnostics(session, out, 8, bytes, BYTES, &sizes);
}

static typst_status compare_within(void) { return typst_spanless_eq_within(session, path, 0, path, 0, &flag); }
static typst_status compare(void) { return typst_spanless_eq(session, path, 0, other, path, 0, &flag); }

static typst_status find(void)
{
    if (read_node() != TYPST_DONE) exit(99);
    return typst_find(session, infos[0].number, path, DEPTH, &place);
}

static typst_status find_leaf(void) { return typst_leaf_at(session, 3, TYPST_AFTER, path, DEPTH, &place); }

static typst_status read_range(void)
{
    typst_range range;
    return typst_range_of(session, path, leaf(), &range);
}

static typst_status find_neighbor(void)
{
    return typst_neighbor(session, path, leaf(), TYPST_NEXT_LEAF, found, DEPTH, &place);
}

static typst_status count_lines(void) { return typst_len_lines(session, &size); }

static typst_status place_byte(void)
{
    typst_line_column at;
    return typst_byte_to_line_column(session, 3, TYPST_UTF16, &at);
}

static typst_status find_byte(void) { return typst_line_column_to_byte(session, 0, 1, TYPST_UTF16, &size); }

static typst_status find_byte_clamped(void)
{
    return typst_line_column_to_byte_clamped(session, 0, 100, TYPST_UTF16, &size);
}

static typst_status count_before(void) { return typst_byte_to_offset(session, 3, TYPST_UTF16, &size); }
static typst_status find_offset(void) { return typst_offset_to_byte(session, 3, TYPST_UTF16, &size); }

static typst_status copy(void)
{
    typst_session made = TYPST_SESSION_INIT;
    typst_status status = typst_copy(session, &made);
    typst_free(&made);
    return status;
}

static typst_status read_edited_path(void) { return typst_edited_path(session, path, DEPTH, &length); }
static typst_status find_cover(void) { return typst_find_cover(session, 1, 3, path, DEPTH, &place); }

static typst_status follow(void)
{
    uint64_t now;
    if (read_node() != TYPST_DONE) exit(99);
    return typst_follow(session, infos[0].number, &now);
}

static typst_status find_range(void) { return typst_find_range(session, 0, 17, path, DEPTH, &place); }
static typst_status read_text(void) { return typst_text(session, 1, 4, bytes, BYTES, &length); }

static typst_status read_line(void)
{
    typst_range range;
    return typst_line_to_range(session, 1, &range);
}

static typst_status change(void) { return typst_push_leaf(session, TYPST_KIND_TEXT, "a", 1); }

static const struct {
    const char *name;
    typst_status (*call)(void);
} reads[] = {{"typst_node", read_node},
             {"typst_children", read_children},
             {"typst_preorder", read_preorder},
             {"typst_leaf_text", read_leaf_text},
             {"typst_full_text", read_full_text},
             {"typst_child_of_class", read_child_of_class},
             {"typst_view", read_view},
             {"typst_diagnostics", read_diagnostics},
             {"typst_spanless_eq_within", compare_within},
             {"typst_spanless_eq", compare},
             {"typst_find", find},
             {"typst_leaf_at", find_leaf},
             {"typst_range_of", read_range},
             {"typst_neighbor", find_neighbor},
             {"typst_find_range", find_range},
             {"typst_follow", follow},
             {"typst_text", read_text},
             {"typst_line_to_range", read_line},
             {"typst_len_lines", count_lines},
             {"typst_byte_to_line_column", place_byte},
             {"typst_line_column_to_byte", find_byte},
             {"typst_line_column_to_byte_clamped", find_byte_clamped},
             {"typst_byte_to_offset", count_before},
             {"typst_offset_to_byte", find_offset},
             {"typst_copy", copy},
             {"typst_edited_path", read_edited_path},
             {"typst_find_cover", find_cover}};

/* Makes a call in a process of its own. Returns its status, or -1 if a signal ended it. */
static int outcome(typst_status (*call)(void))
{
    int ended = 0;
    pid_t child = fork();
    if (child == 0) _exit((int)call());
    if (child < 0 || waitpid(child, &ended, 0) != child) abort();
    return WIFEXITED(ended) ? WEXITSTATUS(ended) : -1;
}

int main(void)
{
    static const char text[] = "= a *b*\n\nc _d_ e";
    typst_edited edited;
    size_t page = (size_t)sysconf(_SC_PAGESIZE), count = sizeof reads / sizeof *reads, wrong = 0;
    void *memory = mmap(NULL, page, PROT_READ | PROT_WRITE, MAP_PRIVATE | MAP_ANONYMOUS, -1, 0);
    if (memory == MAP_FAILED) abort();
    session = (typst_session *)memory;
    other = session + 1;
    if (typst_new(session) || typst_new(other)) abort();
    if (typst_open(session, 1, text, sizeof text - 1) || typst_open(other, 1, text, sizeof text - 1)) abort();
    if (typst_edit(session, sizeof text - 1, sizeof text - 1, "f", 1, &edited)) abort();
    if (mprotect(memory, page, PROT_READ)) abort();
    for (size_t i = 0; i < count; i++) {
        int status = outcome(reads[i].call);
        if (status == TYPST_DONE) continue;
        wrong++;
        printf("%s %s\n", reads[i].name, status < 0 ? "writes the session" : typst_status_text((typst_status)status));
    }
    if (outcome(change) != -1) {
        wrong++;
        printf("typst_push_leaf changes a session in memory that can't be written\n");
    }
    if (mprotect(memory, page, PROT_READ | PROT_WRITE)) abort();
    typst_free(session);
    typst_free(other);
    printf("%zu calls that read ran on sessions that can't be written, and %zu went wrong\n", count, wrong);
    return wrong != 0;
}
