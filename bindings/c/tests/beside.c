/*
 * Beside another library that was built in the same way: the proved part under other names, with a heap of its own
 * whose names can be seen. It must neither be called for this library, nor be called in place of its own.
 */
#define _GNU_SOURCE
#include "check.h"

#include <stdlib.h>
#include <string.h>

uint32_t other_fold(const uint8_t *label, size_t length, uint8_t *folded, size_t capacity, size_t *folded_length);
uint32_t other_parse_into(const uint8_t *text, size_t length, uint32_t options, struct first_pass_node *nodes,
                          size_t node_capacity, struct first_pass_attribute *attributes, size_t attribute_capacity,
                          struct first_pass_definition *definitions, size_t definition_capacity, uint8_t *strings,
                          size_t string_capacity, struct first_pass_counts *counts);

static unsigned long requests;
static struct guarded guarded;

struct taken {
    size_t ok;
    void *at;
};

struct taken rattle_alloc(size_t bytes, size_t align);
struct taken rattle_realloc(void *old, size_t had, size_t bytes, size_t align);
void rattle_dealloc(void *block);

struct taken rattle_alloc(size_t bytes, size_t align) {
    requests++;
    void *block = malloc(bytes != 0 ? bytes : align);
    return (struct taken){block != NULL, block};
}

struct taken rattle_realloc(void *old, size_t had, size_t bytes, size_t align) {
    (void)had;
    requests++;
    void *block = realloc(old, bytes != 0 ? bytes : align);
    return (struct taken){block != NULL, block};
}

void rattle_dealloc(void *block) {
    free(block);
}

int main(void) {
    struct first_pass_tree *tree;
    struct first_pass_counts counts = {0};
    struct first_pass_node node;
    struct first_pass_attribute attribute;
    struct first_pass_definition definition;
    uint8_t string;
    guard(&guarded, 0, false);
    CHECK(first_pass_parse(sample, strlen(sample), FIRST_PASS_OPT_ALL, &guarded.allocator, &tree) == FIRST_PASS_OK);
    CHECK(requests == 0 && guarded.requests > 2);
    unsigned long own = guarded.requests;
    CHECK(other_parse_into((const uint8_t *)sample, strlen(sample), FIRST_PASS_OPT_ALL, &node, 1, &attribute, 1,
                           &definition, 1, &string, 1, &counts) == FIRST_PASS_TOO_SMALL);
    CHECK(requests > 2 && guarded.requests == own && counts.nodes == tree->node_count);
    first_pass_tree_free(tree);
    return report("beside");
}
