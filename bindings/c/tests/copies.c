/*
 * The shared library loaded more than once into a process: twice by two files, and once more into a namespace of its
 * own. Its words are the paths of the two files.
 */
#define _GNU_SOURCE
#include "check.h"

#include <dlfcn.h>
#include <stdio.h>
#include <string.h>

struct copy {
    void *library;
    enum first_pass_status (*parse)(const char *text, size_t length, uint32_t options,
                                    const struct first_pass_allocator *allocator, struct first_pass_tree **tree);
    void (*tree_free)(struct first_pass_tree *tree);
    struct first_pass_tree *tree;
};

/* Takes a call from a library. POSIX has a function and an object in pointers of one form. */
static void take(void *library, const char *name, void *call) {
    void *found = dlsym(library, name);
    CHECK(found != NULL);
    memcpy(call, &found, sizeof found);
}

static bool load(struct copy *copy, void *library) {
    copy->library = library;
    if (!CHECK(library != NULL)) {
        fprintf(stderr, "copies: %s\n", dlerror());
        return false;
    }
    take(library, "first_pass_parse", &copy->parse);
    take(library, "first_pass_tree_free", &copy->tree_free);
    return copy->parse != NULL && copy->tree_free != NULL;
}

int main(int argc, char **argv) {
    struct copy copies[3];
    if (argc != 3 || !load(&copies[0], dlopen(argv[1], RTLD_NOW | RTLD_LOCAL)) ||
        !load(&copies[1], dlopen(argv[2], RTLD_NOW | RTLD_GLOBAL)) ||
        !load(&copies[2], dlmopen(LM_ID_NEWLM, argv[1], RTLD_NOW))) {
        return 2;
    }
    CHECK(copies[0].parse != copies[1].parse && copies[0].parse != copies[2].parse);
    for (int i = 0; i < 3; i++) {
        CHECK(copies[i].parse(sample, strlen(sample), FIRST_PASS_OPT_ALL, NULL, &copies[i].tree) == FIRST_PASS_OK);
    }
    for (int i = 0; i < 3; i++) {
        CHECK(same_trees(copies[i].tree, copies[0].tree));
    }
    /* (a tree knows its allocator, so each copy can free it) */
    for (int i = 0; i < 3; i++) {
        copies[(i + 1) % 3].tree_free(copies[i].tree);
    }
    for (int i = 2; i >= 0; i--) {
        CHECK(dlclose(copies[i].library) == 0);
    }
    return report("copies");
}
