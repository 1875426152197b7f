/*
 * The functions that the header itself has, in a file that reads it twice, as C and as C++.
 */
#include <first_pass.h>

/* (once more) */
#include <first_pass.h>

const char *string_of(const struct first_pass_tree *tree, size_t i);
const char *string_of(const struct first_pass_tree *tree, size_t i) {
    size_t child = first_pass_first_child(tree, first_pass_next_sibling(tree, i));
    size_t skip = first_pass_bom_length(tree->strings, tree->string_bytes);
    if (first_pass_heading_attributes(tree, &tree->nodes[child]))
        return 0;
    return first_pass_node_string(tree, &tree->nodes[skip + i]);
}
