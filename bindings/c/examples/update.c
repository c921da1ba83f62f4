/* A parser of one's own, which isn't incremental: it makes the whole tree of a list of settings anew after each edit. One call puts
 * the new tree in place of the old one, and a kept number is followed. */
#include "typst.h"

#include <stdio.h>
#include <stdlib.h>
#include <string.h>

/* Ends the program if a call wasn't done. */
static void need(typst_status status)
{
    if (status == TYPST_DONE) return;
    fprintf(stderr, "%s\n", typst_status_text(status));
    exit(1);
}

/* Pushes a leaf with the first bytes of a text, and returns the text behind them. */
static const char *leaf(typst_session *session, uint32_t kind, const char *text, size_t len)
{
    need(typst_try_push_leaf(session, kind, text, len));
    return text + len;
}

/* Pushes the node of a line `name=value`, or an error with the line. */
static void setting(typst_session *session, const char *line, size_t len)
{
    static const char message[] = "expected `name=value`";
    const char *sign = memchr(line, '=', len);

    if (!sign) {
        need(typst_try_push_error(session, message, sizeof message - 1, line, len));
        return;
    }
    sign = leaf(session, TYPST_KIND_IDENT, line, (size_t)(sign - line));
    sign = leaf(session, TYPST_KIND_EQ, sign, 1);
    leaf(session, TYPST_KIND_TEXT, sign, (size_t)(line + len - sign));
    need(typst_try_wrap(session, TYPST_KIND_NAMED, 3));
}

/* Pushes the tree of a text: its lines, and the line feeds between them. */
static void parse(typst_session *session, const char *text)
{
    size_t count = 0;

    while (*text) {
        size_t len = strcspn(text, "\n");

        if (len) {
            setting(session, text, len);
            text += len;
        } else {
            text = leaf(session, TYPST_KIND_SPACE, text, 1);
        }
        count++;
    }
    need(typst_try_wrap(session, TYPST_KIND_CODE, count));
}

/* Prints the text of the node with a number. */
static void show(typst_session *session, uint64_t number)
{
    size_t path[8];
    char text[80];
    typst_place place;
    typst_length length;

    need(typst_try_find(session, number, path, 8, &place));
    need(typst_try_full_text(session, path, place.depth, text, sizeof text, &length));
    printf("byte %zu: %.*s\n", place.offset, (int)length.len, text);
}

int main(void)
{
    static const char *const later[] = {
        "width=30\nheight=20\ncolour=red", /* a value before it */
        "width=30\nheight=20\ncolour=green", /* its own value */
        "width=30\ndepth=5\nheight=20\ncolour=green", /* a line before it */
        "width=30\ndepth=5\nheight=20\ncolour", /* it is no setting any more */
    };
    typst_session *session = typst_session_new();
    size_t last = 4;
    typst_node_info colour;
    typst_change change;

    parse(session, "width=10\nheight=20\ncolour=red");
    need(typst_try_number(session, 1, TYPST_FIRST_NUMBER, TYPST_END_NUMBER));
    need(typst_try_node(session, &last, 1, &colour));
    show(session, colour.number);
    for (size_t i = 0; i < sizeof later / sizeof *later; i++) {
        parse(session, later[i]);
        need(typst_try_update(session, &change));
        if (typst_try_follow(session, colour.number, &colour.number) != TYPST_DONE) {
            puts("it is gone");
            break;
        }
        show(session, colour.number);
    }
    typst_session_free(session);
    return 0;
}
