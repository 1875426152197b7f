/*
 * Checks the links of a Markdown text on standard input: it reports each reference `[text][label]` whose label has no
 * definition, and each definition whose destination is a local file that isn't there.
 *
 *     cc link_checker.c $(pkg-config --cflags --libs first_pass) -o link_checker && ./link_checker < FILE
 *
 * It runs in the folder of the file. The status is 1 if it reports anything. Brackets in a code span count too.
 */
#define _POSIX_C_SOURCE 200809L
#include "first_pass.h"

#include <stdbool.h>
#include <stdio.h>
#include <stdlib.h>
#include <string.h>
#include <unistd.h>

static int reports;

/* A text with the table of its places. */
struct source {
    const char *text;
    size_t length;
    struct first_pass_place *places;
};

static size_t line_of(const struct source *source, size_t offset) {
    struct first_pass_place place = {0};
    first_pass_line_column(source->text, source->length, source->places, offset, &place);
    return place.line;
}

/* The index of the `]` that is the next bracket after a node, in the same block; 0 if there is none. */
static size_t closing_bracket(const struct first_pass_tree *tree, size_t open) {
    for (size_t i = first_pass_next_sibling(tree, open); i != 0; i = first_pass_next_sibling(tree, i)) {
        uint8_t kind = tree->nodes[i].kind;
        if (kind == FIRST_PASS_NODE_MAYBE_LINK_CLOSE) {
            return i;
        }
        if (kind == FIRST_PASS_NODE_MAYBE_LINK_OPEN || kind == FIRST_PASS_NODE_MAYBE_IMAGE) {
            return 0;
        }
    }
    return 0;
}

/* Checks the label after a `]`, if one stands there. */
static void check_reference(const struct first_pass_tree *tree, const struct source *source, size_t close) {
    const struct first_pass_definition *found;
    size_t open = first_pass_next_sibling(tree, close);
    if (open == 0 || tree->nodes[open].kind != FIRST_PASS_NODE_MAYBE_LINK_OPEN) {
        return;
    }
    size_t end = closing_bracket(tree, open);
    if (end == 0 || tree->nodes[open].start != tree->nodes[close].end) {
        return;
    }
    const char *label = source->text + tree->nodes[open].end;
    size_t length = tree->nodes[end].start - tree->nodes[open].end;
    if (length > 0 && first_pass_find_definition(tree, label, length, &found) == FIRST_PASS_OK && found == NULL) {
        printf("%zu: no definition of [%.*s]\n", line_of(source, tree->nodes[open].start), (int)length, label);
        reports++;
    }
}

/* Whether a destination is the name of a file: no part of this text, no address with a scheme or a host. */
static bool is_file(const char *destination) {
    size_t name = strcspn(destination, ":/?#");
    return *destination != '\0' && *destination != '#' && destination[name] != ':' &&
           strncmp(destination, "//", 2) != 0;
}

static void check_definition(const struct first_pass_tree *tree, const struct source *source,
                             const struct first_pass_definition *it) {
    char *destination = strndup(tree->strings + it->destination, it->destination_length);
    if (destination == NULL) {
        fputs("link_checker: out of memory\n", stderr);
        exit(2);
    }
    if (is_file(destination)) {
        destination[strcspn(destination, "?#")] = '\0';
        if (access(destination, F_OK) != 0) {
            printf("%zu: no file %s\n", line_of(source, it->start), destination);
            reports++;
        }
    }
    free(destination);
}

static void check_links(const struct first_pass_tree *tree, const struct source *source) {
    for (size_t i = 0; i < tree->node_count; i++) {
        if (tree->nodes[i].kind == FIRST_PASS_NODE_MAYBE_LINK_CLOSE) {
            check_reference(tree, source, i);
        }
    }
    for (size_t i = 0; i < tree->link_count; i++) {
        check_definition(tree, source, &tree->definitions[i]);
    }
}

int main(void) {
    char *text = NULL;
    size_t capacity = 0;
    struct first_pass_tree *tree;
    /* (no text in UTF-8 has this byte) */
    ssize_t length = getdelim(&text, &capacity, 0xff, stdin);
    if (length < 0) {
        free(text);
        return ferror(stdin) ? 2 : 0;
    }
    enum first_pass_status status = first_pass_parse(text, (size_t)length, FIRST_PASS_OPT_GITHUB, NULL, &tree);
    if (status != FIRST_PASS_OK) {
        fprintf(stderr, "link_checker: %s\n", first_pass_status_message(status));
        return 2;
    }
    struct source source = {text, (size_t)length, NULL};
    source.places = malloc(first_pass_place_count(source.length) * sizeof *source.places);
    if (source.places == NULL) {
        fputs("link_checker: out of memory\n", stderr);
        return 2;
    }
    first_pass_places(text, source.length, source.places);
    check_links(tree, &source);
    first_pass_tree_free(tree);
    free(source.places);
    free(text);
    return reports != 0;
}
