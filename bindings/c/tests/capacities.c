/*
 * first_pass_parse_into, first_pass_parse_into_arrays and first_pass_fold over memory that ends at a page: with
 * exactly the capacities that a text takes, with each capacity one smaller, and with none. The guess of
 * first_pass_parse, and the size of the block that it keeps.
 */
#define _GNU_SOURCE
#include "check.h"

#include <stdio.h>
#include <stdlib.h>
#include <string.h>

#define ARRAYS 4
static const size_t sizes[ARRAYS] = {sizeof(struct first_pass_node), sizeof(struct first_pass_attribute),
                                     sizeof(struct first_pass_definition), 1};

static bool same_counts(const struct first_pass_counts *one, const struct first_pass_counts *other) {
    return memcmp(one, other, sizeof *one) == 0;
}

/* Parses a text into arrays of these capacities, each at the end of a page, by both calls. */
static uint32_t parse_at_edges(const char *text, size_t length, const size_t capacities[ARRAYS], void *arrays[ARRAYS],
                               struct first_pass_counts *counts) {
    uint8_t *copy = edge_memory(length);
    memcpy(copy, text, length);
    for (int i = 0; i < ARRAYS; i++) {
        arrays[i] = edge_memory(capacities[i] * sizes[i]);
        memset(arrays[i], 0xa5, capacities[i] * sizes[i]);
    }
    uint32_t status = first_pass_parse_into(copy, length, FIRST_PASS_OPT_ALL, arrays[0], capacities[0], arrays[1],
                                            capacities[1], arrays[2], capacities[2], arrays[3], capacities[3], counts);
    const struct first_pass_arrays lent = {arrays[0], capacities[0], arrays[1], capacities[1],
                                           arrays[2], capacities[2], arrays[3], capacities[3]};
    struct first_pass_counts again = {0};
    CHECK(first_pass_parse_into_arrays(copy, length, FIRST_PASS_OPT_ALL, &lent, &again) == status);
    CHECK(same_counts(&again, counts));
    free_edge_memory(copy, length);
    return status;
}

static void free_arrays(const size_t capacities[ARRAYS], void *arrays[ARRAYS]) {
    for (int i = 0; i < ARRAYS; i++) {
        free_edge_memory(arrays[i], capacities[i] * sizes[i]);
    }
}

/* Whether the arrays hold the records of a tree. */
static bool hold_tree(void *arrays[ARRAYS], const struct first_pass_counts *counts,
                      const struct first_pass_tree *tree) {
    struct first_pass_tree other = {arrays[0],           counts->nodes, arrays[1], counts->attributes,  arrays[2],
                                    counts->definitions, counts->links, arrays[3], counts->string_bytes};
    return same_trees(&other, tree);
}

/* With capacities that are larger or smaller by some records. */
static void test_parse_into(const char *text, size_t length, const struct first_pass_tree *tree) {
    const size_t takes[ARRAYS] = {tree->node_count, tree->attribute_count, tree->definition_count, tree->string_bytes};
    const struct first_pass_counts wanted = {takes[0], takes[1], takes[2], tree->link_count, takes[3]};
    for (int changed = 0; changed < ARRAYS; changed++) {
        for (int change = -1; change <= 3; change++) {
            size_t capacities[ARRAYS];
            void *arrays[ARRAYS];
            struct first_pass_counts counts = {0};
            memcpy(capacities, takes, sizeof capacities);
            if (change < 0 && capacities[changed] == 0) {
                continue;
            }
            capacities[changed] = change == 3 ? 0 : capacities[changed] + (size_t)change;
            bool is_small = capacities[changed] < takes[changed];
            uint32_t status = parse_at_edges(text, length, capacities, arrays, &counts);
            CHECK(status == (is_small ? (uint32_t)FIRST_PASS_TOO_SMALL : (uint32_t)FIRST_PASS_OK));
            CHECK(same_counts(&counts, &wanted));
            CHECK(is_small || hold_tree(arrays, &counts, tree));
            for (size_t i = takes[changed] * sizes[changed]; i < capacities[changed] * sizes[changed]; i++) {
                CHECK(((uint8_t *)arrays[changed])[i] == 0xa5);
            }
            free_arrays(capacities, arrays);
        }
    }
}

static void test_fold(const char *label, const char *wanted) {
    size_t length = strlen(label), wanted_length = strlen(wanted);
    uint8_t *copy = edge_memory(length);
    memcpy(copy, label, length);
    for (size_t capacity = 0; capacity <= wanted_length + 1; capacity++) {
        uint8_t *folded = edge_memory(capacity);
        size_t folded_length = SIZE_MAX;
        memset(folded, 0xa5, capacity);
        uint32_t status = first_pass_fold(copy, length, folded, capacity, &folded_length);
        CHECK(status == (capacity < wanted_length ? (uint32_t)FIRST_PASS_TOO_SMALL : (uint32_t)FIRST_PASS_OK));
        CHECK(folded_length == wanted_length);
        CHECK(capacity < wanted_length || memcmp(folded, wanted, wanted_length) == 0);
        CHECK(capacity <= wanted_length || folded[wanted_length] == 0xa5);
        free_edge_memory(folded, capacity);
    }
    free_edge_memory(copy, length);
}

/* The requests that a parse makes of its allocator, and that its block is no larger than it has to be. */
static unsigned long test_block(const char *text, size_t length) {
    struct guarded guarded;
    struct first_pass_tree *tree;
    guard(&guarded, 0, false);
    CHECK(first_pass_parse(text, length, FIRST_PASS_OPT_ALL, &guarded.allocator, &tree) == FIRST_PASS_OK);
    CHECK(guarded.blocks == 1);
    CHECK(guarded.bytes == sizeof *tree + sizeof(struct first_pass_allocator) +
                               tree->node_count * sizeof *tree->nodes +
                               tree->attribute_count * sizeof *tree->attributes +
                               tree->definition_count * sizeof *tree->definitions + tree->string_bytes);
    test_parse_into(text, length, tree);
    first_pass_tree_free(tree);
    CHECK(guarded.blocks == 0 && guarded.bytes == 0);
    return guarded.requests;
}

static char *repeated(const char *text, size_t times) {
    size_t length = strlen(text);
    char *all = malloc(length * times + 1);
    for (size_t i = 0; i < times; i++) {
        memcpy(all + i * length, text, length + 1);
    }
    return all;
}

/* Texts that take more of a record than is guessed: nodes, attributes, definitions, strings. */
static void test_dense(void) {
    static const char *const parts[] = {"*_", "# {#a .b .c .d e f=g h}\n", "[^a]:b\n", "&copy;",
                                        "~~~ abcdefghijklmnopqrst\n~~~\n"};
    for (size_t i = 0; i < sizeof parts / sizeof *parts; i++) {
        char *text = repeated(parts[i], 700);
        test_block(text, strlen(text));
        free(text);
    }
    char *text = NULL;
    size_t length = 0;
    FILE *out = open_memstream(&text, &length);
    for (int i = 0; i < 500; i++) {
        fprintf(out, "[%d]:b\n", i);
    }
    fclose(out);
    test_block(text, length);
    free(text);
}

/* Texts whose nodes just fit into what is guessed, or just don't: what stands after them moves by a few records. */
static void test_fit(void) {
    for (size_t times = 1; times < 60; times++) {
        char text[200];
        char *stars = repeated("*a", times);
        int length = snprintf(text, sizeof text, "[a]: /b 'c'\n[d]: e\n\n# f {#g .h}\n\n&copy;%s\n", stars);
        test_block(text, (size_t)length);
        free(stars);
    }
}

int main(void) {
    test_block("", 0);
    test_block("a", 1);
    test_block(sample, strlen(sample));
    test_dense();
    test_fit();
    test_fold("", "");
    test_fold("Abc D", "abc d");
    test_fold("\xe1\xba\x9e", "ss");
    test_fold("\xce\x90", "\xce\xb9\xcc\x88\xcc\x81");
    uint8_t folded[4];
    size_t length;
    CHECK(first_pass_fold((const uint8_t *)"\xff", 1, folded, sizeof folded, &length) == FIRST_PASS_NOT_UTF8);
    return report("capacities");
}
