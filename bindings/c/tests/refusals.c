/*
 * Each request for memory is refused in turn, once by itself and once with all that follow. Then each call says that
 * memory ran out, keeps no block, and writes nothing outside of its blocks. Only the room that a long text may need
 * can be refused without harm.
 */
#define _GNU_SOURCE
#include "check.h"

#include <stdio.h>
#include <stdlib.h>
#include <string.h>

static int visit(const struct first_pass_node *node, void *data) {
    (void)node;
    ++*(size_t *)data;
    return 0;
}

/* Parses a text while a request is refused. Sets the number of requests; returns whether there is a tree. */
static bool parse_refused(const char *text, const struct first_pass_tree *wanted, unsigned long refuse,
                          bool refuse_all, unsigned long *requests) {
    struct guarded guarded;
    struct first_pass_tree *tree;
    guard(&guarded, refuse, refuse_all);
    enum first_pass_status status =
        first_pass_parse(text, strlen(text), FIRST_PASS_OPT_ALL, &guarded.allocator, &tree);
    if (status == FIRST_PASS_OK) {
        CHECK(same_trees(tree, wanted) && guarded.blocks == 1);
        first_pass_tree_free(tree);
    } else {
        CHECK(status == FIRST_PASS_OUT_OF_MEMORY && tree == NULL && guarded.requests >= refuse);
    }
    CHECK(guarded.blocks == 0);
    *requests = guarded.requests;
    return status == FIRST_PASS_OK;
}

/* Finds a label and walks, while a request is refused after the parse. */
static unsigned long use_refused(const char *text, const char *label, unsigned long refuse, bool refuse_all) {
    struct guarded guarded;
    struct first_pass_tree *tree;
    const struct first_pass_definition *found;
    size_t visits = 0;
    guard(&guarded, 0, false);
    CHECK(first_pass_parse(text, strlen(text), FIRST_PASS_OPT_ALL, &guarded.allocator, &tree) == FIRST_PASS_OK);
    guarded.requests = 0;
    guarded.refuse = refuse;
    guarded.refuse_all = refuse_all;
    enum first_pass_status status = first_pass_find_definition(tree, label, strlen(label), &found);
    int answer = first_pass_walk(tree, visit, visit, &visits);
    CHECK(guarded.blocks == 1);
    CHECK(status == FIRST_PASS_OK ? found != NULL : status == FIRST_PASS_OUT_OF_MEMORY && found == NULL);
    CHECK(answer == 0 ? visits == 2 * tree->node_count : answer == FIRST_PASS_WALK_OUT_OF_MEMORY && visits == 0);
    /* (without a refusal all goes well, and with one something doesn't) */
    CHECK((status == FIRST_PASS_OK && answer == 0) == (refuse == 0));
    first_pass_tree_free(tree);
    CHECK(guarded.blocks == 0);
    return guarded.requests;
}

/*
 * Refuses each request of a text in turn; returns how many there are. If the text is so long that room is requested
 * for its rest, there is a tree all the same when that is refused. The last request gives memory back, and may be
 * refused.
 */
static unsigned long refuse_each(const char *text, bool is_long) {
    struct first_pass_tree *wanted;
    unsigned long requests, made, spared = 0;
    CHECK(first_pass_parse(text, strlen(text), FIRST_PASS_OPT_ALL, NULL, &wanted) == FIRST_PASS_OK);
    CHECK(parse_refused(text, wanted, 0, false, &requests));
    for (unsigned long refuse = 1; refuse <= requests; refuse++) {
        if (parse_refused(text, wanted, refuse, false, &made) && refuse != made) {
            spared++;
        }
        CHECK(!parse_refused(text, wanted, refuse, true, &made) || refuse == made);
    }
    CHECK((spared > 0) == is_long);
    first_pass_tree_free(wanted);
    return requests;
}

/* A text of many levels, with definitions whose labels have a long folding. */
static char *deep_text(char label[400]) {
    char *text = NULL;
    size_t length = 0;
    FILE *out = open_memstream(&text, &length);
    for (int i = 0; i < 100; i++) {
        fputs("> ", out);
    }
    fputs("a\n\n", out);
    for (int i = 0; i < 9; i++) {
        snprintf(label, 400, "\xc3\x84%0300d", i);
        fprintf(out, "[%s]: /%d\n", label, i);
    }
    fclose(out);
    return text;
}

/* A text of many lines. */
static char *long_text(const char *line, int count) {
    char *text = NULL;
    size_t length = 0;
    FILE *out = open_memstream(&text, &length);
    for (int i = 0; i < count; i++) {
        fputs(line, out);
    }
    fclose(out);
    return text;
}

int main(void) {
    static const char *const texts[] = {"", "a",
                                        "*_*_*_*_*_*_*_*_*_*_*_*_*_*_*_*_*_*_*_*_*_*_*_*_*_*_*_*_*_*_*_*_*_*_",
                                        "# {#a .b .c .d .e .f .g .h .i .j .k l m n o p q r s t u v}\n",
                                        "[a]:b\n[c]:d\n[e]:f\n[g]:h\n[i]:j\n[k]:l\n[m]:n\n[o]:p\n[q]:r\n[s]:t\n"};
    unsigned long requests = refuse_each(sample, false);
    char label[400];
    char *deep = deep_text(label);
    /* (room for headings and for definitions, and room for nodes) */
    char *headings = long_text("# a {#b}\n[c]: d\n", 5000);
    char *paragraphs = long_text("aaaaaa\n\n", 425000);
    for (size_t i = 0; i < sizeof texts / sizeof *texts; i++) {
        requests += refuse_each(texts[i], false);
    }
    requests += refuse_each(deep, false);
    requests += refuse_each(headings, true);
    requests += refuse_each(paragraphs, true);
    unsigned long uses = use_refused(deep, label, 0, false);
    for (unsigned long refuse = 1; refuse <= uses; refuse++) {
        use_refused(deep, label, refuse, false);
        use_refused(deep, label, refuse, true);
    }
    CHECK(uses >= 3);
    free(deep);
    free(headings);
    free(paragraphs);
    printf("refusals: %lu requests, each refused\n", requests + uses);
    return report("refusals");
}
