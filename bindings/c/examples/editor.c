/* An example of an editor: it opens a text and edits it as its user types. After each edit it asks for the leaf at the
 * cursor and for what is wrong there. */
#include "typst.h"

#include <stdio.h>
#include <stdlib.h>
#include <string.h>

/* Ends the program if a call wasn't done. */
static void need(const char *what, typst_status status)
{
    if (status == TYPST_DONE) return;
    fprintf(stderr, "%s: %s\n", what, typst_status_text(status));
    exit(1);
}

/* Prints the leaf before the cursor, with the name of its kind. */
static void show_leaf(typst_session *session, size_t cursor)
{
    size_t path[TYPST_DOCUMENT_DEPTH];
    typst_place place;
    typst_node_info info;
    typst_length length;
    char kind[64];

    need("the leaf at the cursor", typst_try_leaf_at(session, cursor, TYPST_BEFORE, path, TYPST_DOCUMENT_DEPTH, &place));
    need("a node", typst_try_node(session, path, place.depth, &info));
    need("the name of a kind", typst_try_kind_name(info.kind, kind, sizeof kind, &length));
    printf("  the leaf before byte %zu has the bytes %zu..%zu: %.*s\n", cursor, place.offset, place.offset + info.len, (int)length.len,
           kind);
}

/* Prints what is wrong, and at which line and column. Both count from 1 here, as readers count. */
static void show_errors(typst_session *session)
{
    typst_diagnostic_sizes sizes;
    typst_line_column place;

    /* A call without room asks how much room is needed. */
    typst_status status = typst_try_diagnostics(session, NULL, 0, NULL, 0, &sizes);
    if (status != TYPST_SHORT_BUFFER) {
        need("diagnostics", status);
        return;
    }
    typst_diagnostic *told = calloc(sizes.count, sizeof *told);
    char *texts = malloc(sizes.len + 1);
    if (!told || !texts) need("diagnostics", TYPST_NO_MEMORY);
    need("diagnostics", typst_try_diagnostics(session, told, sizes.count, texts, sizes.len, &sizes));
    const char *text = texts;
    for (size_t i = 0; i < sizes.count; text += told[i++].len) {
        if (told[i].severity == TYPST_SEVERITY_HINT) {
            printf("  hint: %.*s\n", (int)told[i].len, text);
            continue;
        }
        need("a place", typst_try_byte_to_line_column(session, told[i].start, TYPST_CHARACTERS, &place));
        printf("  line %zu, column %zu: %.*s\n", place.line + 1, place.column + 1, (int)told[i].len, text);
    }
    free(texts);
    free(told);
}

/* Types a text at a place, and prints how much of the document was parsed anew. */
static void type(typst_session *session, size_t at, const char *text)
{
    typst_edited edited;
    typst_node_info root;

    need("an edit", typst_try_edit(session, at, at, text, strlen(text), &edited));
    need("the root", typst_try_node(session, NULL, 0, &root));
    printf("typed \"%s\": %zu of %zu bytes parsed anew\n", text, edited.end - edited.start, root.len);
    show_leaf(session, at + strlen(text));
    show_errors(session);
}

int main(void)
{
    static const char text[] = "= Notes\n\nSome text.\n\nThe last paragraph.\n";
    typst_session session = TYPST_SESSION_INIT;

    need("a session", typst_try_new(&session));
    need("a document", typst_try_open(&session, 1, text, sizeof text - 1));
    type(&session, 14, "*");
    type(&session, 19, "*");
    type(&session, 21, " `raw");
    typst_free(&session);
    return 0;
}
