/*
 * Writes the lines of `tree` for many texts.
 *
 * It reads, for each text, a line `OPTIONS LENGTH` and then LENGTH bytes. It writes a line `STATUS LENGTH` and then
 * LENGTH bytes: the lines of the tree, or nothing at a status other than 0.
 */
#define _POSIX_C_SOURCE 200809L
#include "lines.h"

#include <inttypes.h>
#include <stdlib.h>

static void fail(const char *what) {
    fprintf(stderr, "tree_lines: %s\n", what);
    exit(2);
}

/* Writes what comes of a text. */
static void answer(const char *text, size_t length, uint32_t options) {
    struct first_pass_tree *tree;
    char *lines = NULL;
    size_t size = 0;
    FILE *out = open_memstream(&lines, &size);
    if (out == NULL) {
        fail("no memory");
    }
    enum first_pass_status status = first_pass_parse(text, length, options, NULL, &tree);
    if (status == FIRST_PASS_OK) {
        write_lines(out, tree);
    }
    first_pass_tree_free(tree);
    if (fclose(out) != 0) {
        fail("no memory");
    }
    printf("%d %zu\n", (int)status, size);
    fwrite(lines, 1, size, stdout);
    free(lines);
}

int main(void) {
    uint32_t options;
    size_t length;
    while (scanf("%" SCNu32 " %zu", &options, &length) == 2) {
        char *text = malloc(length + 1);
        if (text == NULL || getchar() != '\n' || fread(text, 1, length, stdin) != length) {
            fail("a text ends too early");
        }
        answer(text, length, options);
        free(text);
    }
    if (!feof(stdin) || fflush(stdout) != 0) {
        fail("the input has another form");
    }
    return 0;
}
