/*
 * Texts that are nested 100,000 deep, and the ranges in one 10,000 deep, in a thread with a stack of 256 KiB.
 */
#define _GNU_SOURCE
#include "check.h"

#include <pthread.h>
#include <stdio.h>
#include <stdlib.h>
#include <string.h>

#define TIMES 100000
#define STACK (256 * 1024)

struct nested {
    const char *part; /* what is repeated */
    const char *end;
    size_t depth; /* how deep the tree is at least */
};

static const struct nested texts[] = {
    {">", "a\n", TIMES},
    {"- ", "a\n", TIMES},
    {"1) ", "a\n", TIMES},
    {"[", "a", 2},
    {"*a ", "", 2},
    {"<b>", "", 2},
    {"![", "](", 2},
    {"`a``", "", 2},
    {"> - ", "a\n", TIMES},
    {"[a]: b\n", "", 0},
    {"|a", "|\n|-|\n|b|\n", 2},
    {"\\", "\n", 2},
};

struct levels {
    size_t now;
    size_t most;
};

static int enter(const struct first_pass_node *node, void *data) {
    struct levels *levels = data;
    CHECK(node->depth == levels->now);
    levels->now++;
    levels->most = levels->now > levels->most ? levels->now : levels->most;
    return 0;
}

static int leave(const struct first_pass_node *node, void *data) {
    struct levels *levels = data;
    levels->now--;
    return node->depth == levels->now ? 0 : 1;
}

static void try_text(const struct nested *nested, size_t times) {
    size_t part = strlen(nested->part), length = part * times + strlen(nested->end);
    char *text = malloc(length + 1);
    struct first_pass_tree *tree;
    struct levels levels = {0, 0};
    for (size_t i = 0; i < times; i++) {
        memcpy(text + i * part, nested->part, part);
    }
    memcpy(text + part * times, nested->end, strlen(nested->end) + 1);
    if (CHECK(first_pass_parse(text, length, FIRST_PASS_OPT_ALL, NULL, &tree) == FIRST_PASS_OK)) {
        CHECK(first_pass_walk(tree, enter, leave, &levels) == 0);
        CHECK(levels.now == 0 && levels.most > nested->depth);
        first_pass_tree_free(tree);
    }
    free(text);
}

/* Each of 10,000 nested quotes has its own depth, and its range: from its mark to the end of the text. */
static void test_ranges(void) {
    enum { QUOTES = 10000 };
    static char text[QUOTES + 1];
    struct first_pass_tree *tree;
    memset(text, '>', QUOTES);
    text[QUOTES] = 'a';
    if (!CHECK(first_pass_parse(text, sizeof text, 0, NULL, &tree) == FIRST_PASS_OK)) {
        return;
    }
    if (CHECK(tree->node_count == QUOTES + 3)) {
        for (uint32_t i = 0; i < QUOTES; i++) {
            const struct first_pass_node *quote = &tree->nodes[i + 1];
            CHECK(quote->kind == FIRST_PASS_NODE_BLOCK_QUOTE && quote->depth == i + 1);
            CHECK(quote->start == i && quote->end == QUOTES + 1);
        }
        const struct first_pass_node *paragraph = &tree->nodes[QUOTES + 1];
        CHECK(paragraph->kind == FIRST_PASS_NODE_PARAGRAPH && paragraph->depth == QUOTES + 1);
        CHECK(paragraph->start == QUOTES && paragraph->end == QUOTES + 1);
    }
    first_pass_tree_free(tree);
}

static void *run(void *data) {
    (void)data;
    for (size_t i = 0; i < sizeof texts / sizeof *texts; i++) {
        try_text(&texts[i], TIMES);
    }
    /* (a walk needs memory from some depth on) */
    for (size_t times = 55; times < 75; times++) {
        try_text(&(struct nested){">", "a\n", times}, times);
    }
    test_ranges();
    return NULL;
}

int main(void) {
    pthread_attr_t attributes;
    pthread_t thread;
    CHECK(pthread_attr_init(&attributes) == 0 && pthread_attr_setstacksize(&attributes, STACK) == 0);
    CHECK(pthread_create(&thread, &attributes, run, NULL) == 0);
    pthread_join(thread, NULL);
    pthread_attr_destroy(&attributes);
    return report("deep");
}
