/*
 * Prints the headings of Markdown files: the level of each, its range in bytes, and its id if its attributes give one.
 *
 *     cc outline.c $(pkg-config --cflags --libs first_pass) -o outline && ./outline FILE..
 */
#include "first_pass.h"

#include <stdio.h>
#include <stdlib.h>

/* Reads a stream to its end. NULL if it can't be read. */
static char *read_all(FILE *file, size_t *length) {
    size_t capacity = 1 << 16;
    char *text = malloc(capacity);
    *length = 0;
    while (text != NULL) {
        *length += fread(text + *length, 1, capacity - *length, file);
        if (*length < capacity) {
            break;
        }
        char *larger = realloc(text, capacity *= 2);
        if (larger == NULL) {
            free(text);
        }
        text = larger;
    }
    if (text != NULL && ferror(file)) {
        free(text);
        text = NULL;
    }
    return text;
}

static void print_heading(const struct first_pass_tree *tree, const struct first_pass_node *node) {
    const struct first_pass_attribute *attributes = first_pass_heading_attributes(tree, node);
    printf("%d %u..%u", first_pass_heading_level(node), node->start, node->end);
    /* (the id stands before all other attributes) */
    if (attributes != NULL && attributes->kind == FIRST_PASS_ATTRIBUTE_ID) {
        printf(" #%.*s", (int)attributes->name_length, tree->strings + attributes->name);
    }
    putchar('\n');
}

static int print_outline(const char *name) {
    FILE *file = fopen(name, "rb");
    size_t length;
    char *text = file != NULL ? read_all(file, &length) : NULL;
    if (file != NULL) {
        fclose(file);
    }
    if (text == NULL) {
        fprintf(stderr, "outline: %s: it can't be read\n", name);
        return 2;
    }
    struct first_pass_tree *tree;
    /* (what GitHub reads, and the ids of headings, as `# One {#one}`) */
    uint32_t options = FIRST_PASS_OPT_GITHUB | FIRST_PASS_OPT_HEADING_ATTRIBUTES;
    enum first_pass_status status = first_pass_parse(text, length, options, NULL, &tree);
    free(text);
    if (status != FIRST_PASS_OK) {
        fprintf(stderr, "outline: %s: %s\n", name, first_pass_status_message(status));
        return status == FIRST_PASS_OUT_OF_MEMORY ? 1 : 2;
    }
    for (size_t i = 0; i < tree->node_count; i++) {
        if (tree->nodes[i].kind == FIRST_PASS_NODE_HEADING) {
            print_heading(tree, &tree->nodes[i]);
        }
    }
    first_pass_tree_free(tree);
    return 0;
}

int main(int argc, char **argv) {
    int worst = 0;
    for (int i = 1; i < argc; i++) {
        int status = print_outline(argv[i]);
        worst = status > worst ? status : worst;
    }
    return worst;
}
