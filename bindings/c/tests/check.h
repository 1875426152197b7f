/*
 * What the tests share: checks, an allocator that watches and refuses, and memory that ends at a page.
 */
#ifndef CHECK_H
#define CHECK_H

#include "first_pass.h"

#include <stdbool.h>

/* Counts a check, and prints it if it fails. A test ends with `return report("its name")`. */
#define CHECK(condition) check((condition), #condition, __FILE__, __LINE__)
bool check(bool holds, const char *condition, const char *file, int line);
int report(const char *test);

/* An allocator with bytes around each block that nothing may write to. */
struct guarded {
    struct first_pass_allocator allocator;
    unsigned long requests; /* how many there were, of allocate and resize */
    unsigned long refuse;   /* the number of the request that is refused, from 1 on; 0 for none */
    bool refuse_all;        /* whether those after it are refused too */
    unsigned long blocks;   /* how many blocks are taken and not given back */
    size_t bytes;           /* how many bytes these have */
};

/* Begins to watch, with a request to refuse. The struct has to stay where it is. */
void guard(struct guarded *guarded, unsigned long refuse, bool refuse_all);

/* Memory that ends where a page ends, so that no byte after it can be read or written. */
void *edge_memory(size_t bytes);
void free_edge_memory(void *memory, size_t bytes);

/* The text with all kinds of records that the tests share, which takes all options. */
extern const char sample[];

/* Whether two trees have the same bytes. */
bool same_trees(const struct first_pass_tree *one, const struct first_pass_tree *other);

#endif
