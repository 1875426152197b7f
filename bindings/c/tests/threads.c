/*
 * Eight threads at once: each parses all texts over and over, half of them with an allocator of their own, and all of
 * them read one tree. Each result is that of a single thread.
 */
#define _GNU_SOURCE
#include "check.h"

#include <pthread.h>
#include <stdio.h>
#include <string.h>

#define THREADS 8
#define ROUNDS 40

static const char *const texts[] = {sample, "", "# a\n", "> - a\n>   b\n", "[a]: b\n\n[a]\n", "*_*_*_*_*_*_*_*_*_*_"};
#define TEXTS (sizeof texts / sizeof *texts)

static struct first_pass_tree *wanted[TEXTS];

static int count_visit(const struct first_pass_node *node, void *data) {
    (void)node;
    ++*(size_t *)data;
    return 0;
}

/* Reads the tree that all threads share. */
static void read_shared(void) {
    const struct first_pass_definition *found;
    size_t visits = 0;
    CHECK(first_pass_find_definition(wanted[0], "LABEL", 5, &found) == FIRST_PASS_OK && found != NULL);
    CHECK(first_pass_walk(wanted[0], count_visit, count_visit, &visits) == 0);
    CHECK(visits == 2 * wanted[0]->node_count);
}

static void *run(void *data) {
    struct guarded guarded;
    guard(&guarded, 0, false);
    const struct first_pass_allocator *allocator = *(int *)data % 2 == 0 ? &guarded.allocator : NULL;
    for (int round = 0; round < ROUNDS; round++) {
        struct first_pass_tree *trees[TEXTS];
        for (size_t i = 0; i < TEXTS; i++) {
            CHECK(first_pass_parse(texts[i], strlen(texts[i]), FIRST_PASS_OPT_ALL, allocator, &trees[i]) ==
                  FIRST_PASS_OK);
        }
        read_shared();
        CHECK(guarded.blocks == (allocator != NULL ? TEXTS : 0));
        for (size_t i = 0; i < TEXTS; i++) {
            CHECK(same_trees(trees[i], wanted[i]));
            first_pass_tree_free(trees[i]);
        }
    }
    CHECK(guarded.blocks == 0 && (guarded.requests > 0) == (allocator != NULL));
    return NULL;
}

int main(void) {
    pthread_t threads[THREADS];
    int numbers[THREADS];
    for (size_t i = 0; i < TEXTS; i++) {
        CHECK(first_pass_parse(texts[i], strlen(texts[i]), FIRST_PASS_OPT_ALL, NULL, &wanted[i]) == FIRST_PASS_OK);
    }
    for (int i = 0; i < THREADS; i++) {
        numbers[i] = i;
        CHECK(pthread_create(&threads[i], NULL, run, &numbers[i]) == 0);
    }
    for (int i = 0; i < THREADS; i++) {
        pthread_join(threads[i], NULL);
    }
    for (size_t i = 0; i < TEXTS; i++) {
        first_pass_tree_free(wanted[i]);
    }
    return report("threads");
}
