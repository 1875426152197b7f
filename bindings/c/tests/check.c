#define _GNU_SOURCE
#include "check.h"

#include <stdio.h>
#include <stdlib.h>
#include <string.h>
#include <sys/mman.h>
#include <unistd.h>

static unsigned long checks, failures;

bool check(bool holds, const char *condition, const char *file, int line) {
    __atomic_add_fetch(&checks, 1, __ATOMIC_RELAXED);
    if (!holds) {
        __atomic_add_fetch(&failures, 1, __ATOMIC_RELAXED);
        fprintf(stderr, "%s:%d: not so: %s\n", file, line, condition);
    }
    return holds;
}

int report(const char *test) {
    printf("%s: %lu checks, %lu failed\n", test, checks, failures);
    return failures != 0;
}

/* A block: its size, guard bytes, the bytes, guard bytes. */
#define GUARD 48
#define GUARD_BYTE 0xa5

static unsigned char *start_of(void *block) {
    return (unsigned char *)block - GUARD - sizeof(size_t) * 2;
}

static size_t size_of(void *block) {
    size_t bytes;
    memcpy(&bytes, start_of(block), sizeof bytes);
    return bytes;
}

static bool is_refused(struct guarded *guarded) {
    guarded->requests++;
    return guarded->refuse != 0 &&
           (guarded->requests == guarded->refuse || (guarded->refuse_all && guarded->requests > guarded->refuse));
}

static void check_guards(void *block) {
    size_t bytes = size_of(block);
    bool holds = true;
    for (size_t i = 0; i < GUARD; i++) {
        holds = holds && ((unsigned char *)block)[-1 - (ptrdiff_t)i] == GUARD_BYTE;
        holds = holds && ((unsigned char *)block)[bytes + i] == GUARD_BYTE;
    }
    check(holds, "the bytes around a block are unchanged", __FILE__, __LINE__);
}

static void *allocate_guarded(void *data, size_t bytes) {
    struct guarded *guarded = data;
    CHECK(bytes > 0);
    unsigned char *start = is_refused(guarded) ? NULL : malloc(bytes + 2 * GUARD + 2 * sizeof(size_t));
    if (start == NULL) {
        return NULL;
    }
    unsigned char *block = start + GUARD + 2 * sizeof(size_t);
    memcpy(start, &bytes, sizeof bytes);
    memset(block - GUARD, GUARD_BYTE, GUARD);
    memset(block + bytes, GUARD_BYTE, GUARD);
    /* (so that what is read before it is written is always the same) */
    memset(block, 0xdb, bytes);
    guarded->blocks++;
    guarded->bytes += bytes;
    return block;
}

static void release_guarded(void *data, void *block) {
    struct guarded *guarded = data;
    CHECK(block != NULL);
    check_guards(block);
    guarded->blocks--;
    guarded->bytes -= size_of(block);
    free(start_of(block));
}

/* Always moves the block. */
static void *resize_guarded(void *data, void *block, size_t bytes) {
    CHECK(block != NULL);
    check_guards(block);
    void *other = allocate_guarded(data, bytes);
    if (other != NULL) {
        size_t had = size_of(block);
        memcpy(other, block, had < bytes ? had : bytes);
        release_guarded(data, block);
    }
    return other;
}

void guard(struct guarded *guarded, unsigned long refuse, bool refuse_all) {
    memset(guarded, 0, sizeof *guarded);
    guarded->allocator.allocate = allocate_guarded;
    guarded->allocator.resize = resize_guarded;
    guarded->allocator.release = release_guarded;
    guarded->allocator.data = guarded;
    guarded->refuse = refuse;
    guarded->refuse_all = refuse_all;
}

static size_t whole_pages(size_t bytes) {
    size_t page = (size_t)sysconf(_SC_PAGESIZE);
    return (bytes + page - 1) / page * page;
}

void *edge_memory(size_t bytes) {
    size_t page = (size_t)sysconf(_SC_PAGESIZE);
    size_t whole = whole_pages(bytes);
    char *start = mmap(NULL, whole + page, PROT_READ | PROT_WRITE, MAP_PRIVATE | MAP_ANONYMOUS, -1, 0);
    if (start == MAP_FAILED || mprotect(start + whole, page, PROT_NONE) != 0) {
        fputs("no memory for a test\n", stderr);
        exit(2);
    }
    return start + whole - bytes;
}

void free_edge_memory(void *memory, size_t bytes) {
    size_t whole = whole_pages(bytes);
    munmap((char *)memory + bytes - whole, whole + (size_t)sysconf(_SC_PAGESIZE));
}

const char sample[] =
    "---\ntitle: x\n---\n\n"
    "# One {#first .wide .tall lang=en draft empty=\"\"}\n\n"
    "Two \\*three\\*\nfour  \nfive\\\nsix *a* **b** ~c~ `d` \\`e $f$ <b> [g] ![h](i) \"j\" 'k' &amp; &#x41; "
    "&hellip; -- ...\n\n"
    "> [!NOTE]\n> quote\n>\n> > deeper\n\n"
    "- [ ] to do\n- [x] done\n  7) seven\n\n* loose\n\n* list\n\n"
    "| a | b | c | d |\n|---|:--|:-:|--:|\n| 1 | 2 | 3 | \xe2\x82\xac |\n| short |\n\n"
    "```rust ignore\nfn main() {}\n```\n\n    indented\n\n<div>\nhtml\n</div>\n\n***\n\n"
    "Term\n\n: Definition\n\n[^note]: A footnote.\n\n[^n\xc3\xb6te]: Another.\n\n"
    "[Label]: /url \"title\"\n[empty title]: <> ''\n[\xc3\x9f]: /sharp\n[two\n  lines]: /lines\n"
    "[label]: /second\n\nSetext\n======\n";

/* Whether two arrays have the same records. */
static bool same(size_t count, size_t other_count, const void *one, const void *other, size_t size) {
    return count == other_count && (count == 0 || memcmp(one, other, count * size) == 0);
}

bool same_trees(const struct first_pass_tree *one, const struct first_pass_tree *other) {
    return same(one->node_count, other->node_count, one->nodes, other->nodes, sizeof *one->nodes) &&
           same(one->attribute_count, other->attribute_count, one->attributes, other->attributes,
                sizeof *one->attributes) &&
           same(one->definition_count, other->definition_count, one->definitions, other->definitions,
                sizeof *one->definitions) &&
           same(one->string_bytes, other->string_bytes, one->strings, other->strings, 1) &&
           one->link_count == other->link_count;
}
