/*
 * The calls of first_pass.h that are not proved, and the heap of those that are.
 */
#include "first_pass.h"

#include <stdbool.h>
#include <stdlib.h>
#include <string.h>

/* The proved calls were compiled for records of these sizes, with these members at these places. */
#define IS_AT(record, member, offset)                                                                                 \
    _Static_assert(offsetof(struct first_pass_##record, member) == (offset), #record "." #member)
#define HAS_SIZE(record, size) _Static_assert(sizeof(struct first_pass_##record) == (size), #record)

IS_AT(node, start, 0);
IS_AT(node, end, 4);
IS_AT(node, depth, 8);
IS_AT(node, next, 12);
IS_AT(node, string_start, 16);
IS_AT(node, string_length, 20);
IS_AT(node, number, 24);
IS_AT(node, kind, 28);
IS_AT(node, first, 29);
IS_AT(node, second, 30);
IS_AT(node, third, 31);
HAS_SIZE(node, 32);
IS_AT(attribute, name, 0);
IS_AT(attribute, name_length, 8);
IS_AT(attribute, value, 16);
IS_AT(attribute, value_length, 24);
IS_AT(attribute, has_value, 32);
IS_AT(attribute, kind, 36);
HAS_SIZE(attribute, 40);
IS_AT(definition, start, 0);
IS_AT(definition, end, 8);
IS_AT(definition, label, 16);
IS_AT(definition, label_length, 24);
IS_AT(definition, destination, 32);
IS_AT(definition, destination_length, 40);
IS_AT(definition, title, 48);
IS_AT(definition, title_length, 56);
IS_AT(definition, has_title, 64);
IS_AT(definition, label_end, 72);
IS_AT(definition, destination_start, 80);
IS_AT(definition, destination_end, 88);
IS_AT(definition, title_start, 96);
HAS_SIZE(definition, 104);
IS_AT(counts, nodes, 0);
IS_AT(counts, attributes, 8);
IS_AT(counts, definitions, 16);
IS_AT(counts, links, 24);
IS_AT(counts, string_bytes, 32);
HAS_SIZE(counts, 40);
IS_AT(arrays, nodes, 0);
IS_AT(arrays, node_capacity, 8);
IS_AT(arrays, attributes, 16);
IS_AT(arrays, attribute_capacity, 24);
IS_AT(arrays, definitions, 32);
IS_AT(arrays, definition_capacity, 40);
IS_AT(arrays, strings, 48);
IS_AT(arrays, string_capacity, 56);
HAS_SIZE(arrays, 64);
IS_AT(range, start, 0);
IS_AT(range, end, 8);
HAS_SIZE(range, 16);
IS_AT(place, line, 0);
IS_AT(place, column, 8);
IS_AT(place, utf16_column, 16);
HAS_SIZE(place, 24);
_Static_assert(sizeof(size_t) == 8, "the proved calls are compiled for 64 bits");

/* How deep a tree is that first_pass_walk walks without memory. */
#define SMALL_DEPTH 64
/* How many bytes of a text may be dense markup, in the guess of what its tree takes. */
#define DENSE_BYTES (UINT64_C(32) << 20)
/* How long the folding of a label is that first_pass_find_definition compares without memory. */
#define SMALL_FOLDING 256
/* How many bytes of a text are between two places of its table. */
#define PLACE_STEP 256

static void *allocate_standard(void *data, size_t bytes) {
    (void)data;
    return malloc(bytes);
}

static void *resize_standard(void *data, void *block, size_t bytes) {
    (void)data;
    return realloc(block, bytes);
}

static void release_standard(void *data, void *block) {
    (void)data;
    free(block);
}

static const struct first_pass_allocator standard = {allocate_standard, resize_standard, release_standard, NULL};

/*
 * The allocator of the call that runs in this thread, or NULL for the standard one. glibc makes room for a
 * thread-local variable of a loaded library when a thread first uses it, and ends the process if it can't, unless the
 * variable has its place from the start.
 */
#if defined(__GLIBC__)
__attribute__((tls_model("initial-exec")))
#endif
static _Thread_local const struct first_pass_allocator *current;

static const struct first_pass_allocator *current_allocator(void) {
    return current != NULL ? current : &standard;
}

/* The proved calls ask for memory by these three names. tools/lib hides them. */
struct taken {
    size_t ok;
    void *at;
};

struct taken rattle_alloc(size_t bytes, size_t align);
struct taken rattle_realloc(void *old, size_t had, size_t bytes, size_t align);
void rattle_dealloc(void *block);

/* What a request came to. `at` is never NULL, also if it was refused. */
static struct taken taken(void *block) {
    static const char nothing;
    return (struct taken){block != NULL, block != NULL ? block : (void *)&nothing};
}

struct taken rattle_alloc(size_t bytes, size_t align) {
    const struct first_pass_allocator *allocator = current_allocator();
    return taken(allocator->allocate(allocator->data, bytes != 0 ? bytes : align));
}

struct taken rattle_realloc(void *old, size_t had, size_t bytes, size_t align) {
    const struct first_pass_allocator *allocator = current_allocator();
    (void)had;
    return taken(allocator->resize(allocator->data, old, bytes != 0 ? bytes : align));
}

void rattle_dealloc(void *block) {
    const struct first_pass_allocator *allocator = current_allocator();
    allocator->release(allocator->data, block);
}

/* The block of a tree: this, then the nodes, the definitions, the attributes and the strings. */
struct block {
    struct first_pass_tree tree;
    struct first_pass_allocator allocator;
};

/* Where each array of a block begins, in bytes, and where the block ends. */
struct layout {
    size_t nodes;
    size_t definitions;
    size_t attributes;
    size_t strings;
    size_t end;
};

/* Adds space for records to the end of a block. False if no block can be as large. */
static bool add_space(size_t *end, uint64_t count, size_t size) {
    if (count > (PTRDIFF_MAX - *end) / size) {
        return false;
    }
    *end += (size_t)count * size;
    return true;
}

static bool lay_out(struct layout *layout, const struct first_pass_counts *capacities) {
    size_t end = sizeof(struct block);
    layout->nodes = end;
    if (!add_space(&end, capacities->nodes, sizeof(struct first_pass_node))) {
        return false;
    }
    layout->definitions = end;
    if (!add_space(&end, capacities->definitions, sizeof(struct first_pass_definition))) {
        return false;
    }
    layout->attributes = end;
    if (!add_space(&end, capacities->attributes, sizeof(struct first_pass_attribute))) {
        return false;
    }
    layout->strings = end;
    if (!add_space(&end, capacities->string_bytes, 1)) {
        return false;
    }
    layout->end = end;
    return true;
}

/*
 * The capacities that a text is first parsed with. They fit nearly all texts: prose has a node in 20 to 50 bytes,
 * dense markup and tables one in 5. What is left over is given back, and pages that nothing is written to take no
 * memory. Most of a very long text is taken for prose, since a system may refuse a block that is much larger than a
 * tree takes.
 */
static struct first_pass_counts guess(size_t length) {
    struct first_pass_counts capacities = {0};
    /* (a text that is too long is refused, whatever the capacities) */
    uint64_t bytes = length <= UINT32_MAX ? length : 0;
    uint64_t dense = bytes < DENSE_BYTES ? bytes : DENSE_BYTES;
    capacities.nodes = dense / 16 * 3 + bytes / 16 + 32;
    capacities.attributes = dense / 64 + 8;
    capacities.definitions = dense / 64 + 8;
    capacities.string_bytes = dense / 2 + bytes / 16 + 128;
    return capacities;
}

uint32_t first_pass_parse_into_arrays(const uint8_t *text, size_t length, uint32_t options,
                                      const struct first_pass_arrays *arrays, struct first_pass_counts *counts) {
    return first_pass_parse_into(text, length, options, arrays->nodes, arrays->node_capacity, arrays->attributes,
                                 arrays->attribute_capacity, arrays->definitions, arrays->definition_capacity,
                                 arrays->strings, arrays->string_capacity, counts);
}

/* A text, with its options and the allocator for its tree. */
struct request {
    const uint8_t *text;
    size_t length;
    uint32_t options;
    const struct first_pass_allocator *allocator;
};

/* Parses a text into the arrays of a block with these capacities, which become the counts. */
static uint32_t read_into(const struct request *request, char *block, struct first_pass_counts *counts) {
    const struct first_pass_allocator *outer = current;
    struct first_pass_counts capacities = *counts;
    struct layout at;
    if (!lay_out(&at, &capacities)) {
        return FIRST_PASS_OUT_OF_MEMORY;
    }
    current = request->allocator;
    uint32_t status = first_pass_parse_into(
        request->text, request->length, request->options, (struct first_pass_node *)(block + at.nodes),
        capacities.nodes, (struct first_pass_attribute *)(block + at.attributes), capacities.attributes,
        (struct first_pass_definition *)(block + at.definitions), capacities.definitions,
        (uint8_t *)(block + at.strings), capacities.string_bytes, counts);
    current = outer;
    return status;
}

/* Moves the arrays of a block together and gives the rest back. An allocator that refuses that keeps the block. */
static char *close_up(char *block, const struct layout *from, const struct layout *to,
                      const struct first_pass_allocator *allocator) {
    memmove(block + to->definitions, block + from->definitions, to->attributes - to->definitions);
    memmove(block + to->attributes, block + from->attributes, to->strings - to->attributes);
    memmove(block + to->strings, block + from->strings, to->end - to->strings);
    char *shrunk = to->end < from->end ? allocator->resize(allocator->data, block, to->end) : NULL;
    return shrunk != NULL ? shrunk : block;
}

/* Makes the tree of a block whose arrays stand where its layout says. */
static struct first_pass_tree *make_tree(char *memory, const struct layout *at, const struct first_pass_counts *counts,
                                         const struct first_pass_allocator *allocator) {
    struct block *block = (struct block *)memory;
    block->allocator = *allocator;
    block->tree.nodes = (const struct first_pass_node *)(memory + at->nodes);
    block->tree.node_count = counts->nodes;
    block->tree.attributes = (const struct first_pass_attribute *)(memory + at->attributes);
    block->tree.attribute_count = counts->attributes;
    block->tree.definitions = (const struct first_pass_definition *)(memory + at->definitions);
    block->tree.definition_count = counts->definitions;
    block->tree.link_count = counts->links;
    block->tree.strings = memory + at->strings;
    block->tree.string_bytes = counts->string_bytes;
    return &block->tree;
}

/* Parses a text into a new block with these capacities. If they are too small, they become those that it takes. */
static uint32_t read_once(const struct request *request, struct first_pass_counts *capacities,
                          struct first_pass_tree **tree) {
    const struct first_pass_allocator *allocator = request->allocator;
    struct layout from, to;
    if (!lay_out(&from, capacities)) {
        return FIRST_PASS_OUT_OF_MEMORY;
    }
    char *block = allocator->allocate(allocator->data, from.end);
    if (block == NULL) {
        return FIRST_PASS_OUT_OF_MEMORY;
    }
    uint32_t status = read_into(request, block, capacities);
    if (status == FIRST_PASS_OK && lay_out(&to, capacities)) {
        block = close_up(block, &from, &to, allocator);
        *tree = make_tree(block, &to, capacities, allocator);
    } else {
        allocator->release(allocator->data, block);
    }
    return status;
}

enum first_pass_status first_pass_parse(const char *text, size_t length, uint32_t options,
                                        const struct first_pass_allocator *allocator, struct first_pass_tree **tree) {
    struct request request = {(const uint8_t *)(text != NULL ? text : ""), length, options,
                              allocator != NULL ? allocator : &standard};
    struct first_pass_counts capacities = guess(length);
    *tree = NULL;
    uint32_t status = read_once(&request, &capacities, tree);
    if (status == FIRST_PASS_TOO_SMALL) {
        status = read_once(&request, &capacities, tree);
    }
    return (enum first_pass_status)status;
}

static const struct first_pass_allocator *allocator_of(const struct first_pass_tree *tree) {
    return &((const struct block *)tree)->allocator;
}

void first_pass_tree_free(struct first_pass_tree *tree) {
    if (tree != NULL) {
        struct first_pass_allocator allocator = *allocator_of(tree);
        allocator.release(allocator.data, tree);
    }
}

/* A folding with a byte to spare before it and after it: in `small`, or in memory of its own. */
struct folding {
    const struct first_pass_allocator *allocator;
    uint8_t *memory;
    size_t length;
    uint8_t small[SMALL_FOLDING + 2];
};

static uint8_t *folded(const struct folding *folding) {
    return folding->memory + 1;
}

static void end_folding(struct folding *folding) {
    if (folding->memory != folding->small) {
        folding->allocator->release(folding->allocator->data, folding->memory);
    }
}

/* Makes each run of white space one space, as labels of a tree have it. Folding changes no white space. */
static void merge_white_space(struct folding *folding) {
    uint8_t *bytes = folded(folding);
    size_t length = 0;
    for (size_t i = 0; i < folding->length; i++) {
        bool is_white = bytes[i] == ' ' || (bytes[i] >= '\t' && bytes[i] <= '\r');
        if (!is_white) {
            bytes[length++] = bytes[i];
        } else if (length == 0 || bytes[length - 1] != ' ') {
            bytes[length++] = ' ';
        }
    }
    folding->length = length;
}

/* Folds a label. The folding has to be ended if the status is FIRST_PASS_OK. */
static uint32_t fold(struct folding *folding, const struct first_pass_allocator *allocator, const uint8_t *label,
                     size_t length) {
    const struct first_pass_allocator *outer = current;
    folding->allocator = allocator;
    folding->memory = folding->small;
    current = allocator;
    uint32_t status = first_pass_fold(label, length, folded(folding), SMALL_FOLDING, &folding->length);
    if (status == FIRST_PASS_TOO_SMALL) {
        size_t capacity = folding->length;
        folding->memory = allocator->allocate(allocator->data, capacity + 2);
        status = folding->memory != NULL ? first_pass_fold(label, length, folded(folding), capacity, &folding->length)
                                         : (uint32_t)FIRST_PASS_OUT_OF_MEMORY;
        if (folding->memory != NULL && status != FIRST_PASS_OK) {
            end_folding(folding);
        }
    }
    current = outer;
    if (status == FIRST_PASS_OK) {
        merge_white_space(folding);
    }
    return status;
}

/* What is sought: the bytes of a folding, or of a part of one. */
struct key {
    const uint8_t *bytes;
    size_t length;
};

/* Compares a key with the folding of a definition's label: less than 0, 0 or more, as memcmp. */
static uint32_t compare(const struct key *wanted, const struct first_pass_tree *tree, size_t i, int *order) {
    const struct first_pass_definition *definition = &tree->definitions[i];
    struct folding other;
    uint32_t status =
        fold(&other, allocator_of(tree), (const uint8_t *)tree->strings + definition->label, definition->label_length);
    if (status != FIRST_PASS_OK) {
        return status;
    }
    *order = memcmp(wanted->bytes, folded(&other), wanted->length < other.length ? wanted->length : other.length);
    if (*order == 0) {
        *order = (wanted->length > other.length) - (wanted->length < other.length);
    }
    end_folding(&other);
    return FIRST_PASS_OK;
}

/* Searches the link definitions, which are sorted by the foldings of their labels. NULL if none has the key. */
static uint32_t search(const struct key *wanted, const struct first_pass_tree *tree,
                       const struct first_pass_definition **found) {
    size_t from = 0;
    size_t to = tree->link_count;
    *found = NULL;
    while (from < to) {
        size_t middle = from + (to - from) / 2;
        int order = 0;
        uint32_t status = compare(wanted, tree, middle, &order);
        if (status != FIRST_PASS_OK) {
            return status;
        }
        if (order == 0) {
            *found = &tree->definitions[middle];
            return FIRST_PASS_OK;
        }
        if (order < 0) {
            to = middle;
        } else {
            from = middle + 1;
        }
    }
    return FIRST_PASS_OK;
}

/*
 * Finds the definition that begins first, of those whose label is the folded one but for white space at its ends. A
 * table may have four: without a space at the ends, with one before or after, and with both.
 */
static uint32_t search_each(struct folding *label, const struct first_pass_tree *tree,
                            const struct first_pass_definition **found) {
    uint8_t *from = folded(label);
    uint8_t *to = from + label->length;
    from += from < to && *from == ' ';
    to -= from < to && to[-1] == ' ';
    from[-1] = ' ';
    *to = ' ';
    for (int spaces = 0; from < to && spaces < 4; spaces++) {
        int before = spaces & 1;
        struct key wanted = {from - before, (size_t)(to - from + before + (spaces >> 1))};
        const struct first_pass_definition *other;
        uint32_t status = search(&wanted, tree, &other);
        if (status != FIRST_PASS_OK) {
            *found = NULL;
            return status;
        }
        if (other != NULL && (*found == NULL || other->start < (*found)->start)) {
            *found = other;
        }
    }
    return FIRST_PASS_OK;
}

enum first_pass_status first_pass_find_definition(const struct first_pass_tree *tree, const char *label, size_t length,
                                                  const struct first_pass_definition **found) {
    struct folding wanted;
    *found = NULL;
    uint32_t status = fold(&wanted, allocator_of(tree), (const uint8_t *)(label != NULL ? label : ""), length);
    if (status == FIRST_PASS_OK) {
        status = search_each(&wanted, tree, found);
        end_folding(&wanted);
    }
    return (enum first_pass_status)status;
}

/* A walk, with the indices of the nodes that are entered and not left. */
struct walk {
    const struct first_pass_tree *tree;
    first_pass_visit *enter;
    first_pass_visit *leave;
    void *data;
    uint32_t *path;
};

/* Leaves the nodes of the path from its end down to a depth. */
static int leave_down_to(const struct walk *walk, uint32_t *open, uint32_t depth) {
    while (*open > depth) {
        int answer = walk->leave(&walk->tree->nodes[walk->path[--*open]], walk->data);
        if (answer != 0) {
            return answer;
        }
    }
    return 0;
}

static int walk_nodes(const struct walk *walk) {
    const struct first_pass_tree *tree = walk->tree;
    uint32_t open = 0;
    for (size_t i = 0; i < tree->node_count; i++) {
        const struct first_pass_node *node = &tree->nodes[i];
        int answer = walk->leave != NULL ? leave_down_to(walk, &open, node->depth) : 0;
        if (answer == 0 && walk->enter != NULL) {
            answer = walk->enter(node, walk->data);
        }
        if (answer != 0) {
            return answer;
        }
        if (walk->leave != NULL) {
            walk->path[open++] = (uint32_t)i;
        }
    }
    return walk->leave != NULL ? leave_down_to(walk, &open, 0) : 0;
}

static size_t levels_of(const struct first_pass_tree *tree) {
    size_t levels = 0;
    for (size_t i = 0; i < tree->node_count; i++) {
        size_t level = (size_t)tree->nodes[i].depth + 1;
        levels = level > levels ? level : levels;
    }
    return levels;
}

int first_pass_walk(const struct first_pass_tree *tree, first_pass_visit *enter, first_pass_visit *leave, void *data) {
    const struct first_pass_allocator *allocator = allocator_of(tree);
    uint32_t small[SMALL_DEPTH] = {0};
    struct walk walk = {tree, enter, leave, data, small};
    size_t levels = leave != NULL ? levels_of(tree) : 0;
    if (levels > SMALL_DEPTH) {
        walk.path = allocator->allocate(allocator->data, levels * sizeof *walk.path);
        if (walk.path == NULL) {
            return FIRST_PASS_WALK_OUT_OF_MEMORY;
        }
    }
    int answer = walk_nodes(&walk);
    if (walk.path != small) {
        allocator->release(allocator->data, walk.path);
    }
    return answer;
}

/* Moves a place past the byte at its offset. */
static void pass_byte(struct first_pass_place *place, const char *text, size_t length, size_t offset) {
    uint8_t byte = (uint8_t)text[offset];
    bool is_before_newline = offset + 1 < length && text[offset + 1] == '\n';
    if (byte == '\n' || (byte == '\r' && !is_before_newline)) {
        *place = (struct first_pass_place){place->line + 1, 1, 1};
        return;
    }
    place->column++;
    /* (the first byte of a character counts for all of it, and that of one with four bytes twice) */
    bool is_first = (byte & 0xc0) != 0x80;
    place->utf16_column += is_first ? (byte < 0xf0 ? 1 : 2) : 0;
}

size_t first_pass_place_count(size_t length) {
    return length / PLACE_STEP + 1;
}

void first_pass_places(const char *text, size_t length, struct first_pass_place *places) {
    struct first_pass_place place = {1, 1, 1};
    places[0] = place;
    for (size_t offset = 0; offset < length; offset++) {
        pass_byte(&place, text, length, offset);
        if ((offset + 1) % PLACE_STEP == 0) {
            places[(offset + 1) / PLACE_STEP] = place;
        }
    }
}

uint32_t first_pass_line_column(const char *text, size_t length, const struct first_pass_place *places, size_t offset,
                                struct first_pass_place *place) {
    if (offset > length) {
        return 0;
    }
    *place = places[offset / PLACE_STEP];
    for (size_t passed = offset - offset % PLACE_STEP; passed < offset; passed++) {
        pass_byte(place, text, length, passed);
    }
    return 1;
}

const char *first_pass_kind_name(uint8_t kind) {
    static const char *const names[] = {
        "Root",
        "Paragraph",
        "TightParagraph",
        "Rule",
        "Heading",
        "FencedCodeBlock",
        "IndentCodeBlock",
        "HtmlBlock",
        "BlockQuote",
        "List",
        "ListItem",
        "FootnoteDefinition",
        "MetadataBlock",
        "DefinitionList",
        "MaybeDefinitionListTitle",
        "DefinitionListTitle",
        "DefinitionListDefinition",
        "Table",
        "TableHead",
        "TableRow",
        "TableCell",
        "Text",
        "SoftBreak",
        "HardBreak",
        "MaybeEmphasis",
        "MaybeMath",
        "MaybeSmartQuote",
        "MaybeCode",
        "MaybeHtml",
        "MaybeLinkOpen",
        "MaybeLinkClose",
        "MaybeImage",
        "Html",
        "SynthesizeText",
        "SynthesizeChar",
        "TaskListMarker",
    };
    return kind < sizeof names / sizeof *names ? names[kind] : "?";
}

static const struct {
    const char *name;
    uint32_t value;
} options_by_name[] = {
    {"tables", FIRST_PASS_OPT_TABLES},
    {"footnotes", FIRST_PASS_OPT_FOOTNOTES},
    {"strikethrough", FIRST_PASS_OPT_STRIKETHROUGH},
    {"tasklists", FIRST_PASS_OPT_TASKLISTS},
    {"smart_punctuation", FIRST_PASS_OPT_SMART_PUNCTUATION},
    {"heading_attributes", FIRST_PASS_OPT_HEADING_ATTRIBUTES},
    {"yaml_style_metadata_blocks", FIRST_PASS_OPT_YAML_STYLE_METADATA_BLOCKS},
    {"pluses_delimited_metadata_blocks", FIRST_PASS_OPT_PLUSES_DELIMITED_METADATA_BLOCKS},
    {"old_footnotes", FIRST_PASS_OPT_OLD_FOOTNOTES},
    {"math", FIRST_PASS_OPT_MATH},
    {"gfm", FIRST_PASS_OPT_GFM},
    {"definition_list", FIRST_PASS_OPT_DEFINITION_LIST},
    {"superscript", FIRST_PASS_OPT_SUPERSCRIPT},
    {"subscript", FIRST_PASS_OPT_SUBSCRIPT},
    {"wikilinks", FIRST_PASS_OPT_WIKILINKS},
};

#define OPTION_COUNT (sizeof options_by_name / sizeof *options_by_name)

const char *first_pass_option_name(uint32_t option) {
    for (size_t i = 0; i < OPTION_COUNT; i++) {
        if (options_by_name[i].value == option) {
            return options_by_name[i].name;
        }
    }
    return "?";
}

/* Whether a word is the name of an option, perhaps with hyphens. */
static bool is_named(const char *word, const char *name) {
    while (*name != '\0' && (*word == *name || (*word == '-' && *name == '_'))) {
        word++;
        name++;
    }
    return *word == *name;
}

uint32_t first_pass_option_value(const char *name) {
    for (size_t i = 0; i < OPTION_COUNT; i++) {
        if (is_named(name, options_by_name[i].name)) {
            return options_by_name[i].value;
        }
    }
    return 0;
}

const char *first_pass_status_message(uint32_t status) {
    static const char *const messages[] = {"ok", "out of memory", "not UTF-8", "bad options", "too small", "too long"};
    return status < sizeof messages / sizeof *messages ? messages[status] : "unknown status";
}

#define AS_TEXT(number) #number
#define VERSION_TEXT(major, minor, patch) AS_TEXT(major) "." AS_TEXT(minor) "." AS_TEXT(patch)

const char *first_pass_version(void) {
    return VERSION_TEXT(FIRST_PASS_VERSION_MAJOR, FIRST_PASS_VERSION_MINOR, FIRST_PASS_VERSION_PATCH);
}
