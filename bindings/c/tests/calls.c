/*
 * Each call of first_pass.h on its happy path and at its edges.
 */
#define _GNU_SOURCE
#include "check.h"

#include <stdio.h>
#include <stdlib.h>
#include <string.h>
#include <sys/mman.h>

static struct first_pass_tree *parsed(const char *text, size_t length) {
    struct first_pass_tree *tree;
    if (!CHECK(first_pass_parse(text, length, FIRST_PASS_OPT_ALL, NULL, &tree) == FIRST_PASS_OK)) {
        exit(report("calls"));
    }
    return tree;
}

static void test_statuses(void) {
    struct first_pass_tree *tree = (struct first_pass_tree *)&tree;
    CHECK(first_pass_parse("a\xff", 2, 0, NULL, &tree) == FIRST_PASS_NOT_UTF8 && tree == NULL);
    CHECK(first_pass_parse("\xed\xa0\x80", 3, 0, NULL, &tree) == FIRST_PASS_NOT_UTF8 && tree == NULL);
    CHECK(first_pass_parse("a", 1, 1, NULL, &tree) == FIRST_PASS_BAD_OPTIONS && tree == NULL);
    CHECK(first_pass_parse("a", 1, 1u << 16, NULL, &tree) == FIRST_PASS_BAD_OPTIONS && tree == NULL);
    CHECK(first_pass_parse("a\xff", 2, 1, NULL, &tree) == FIRST_PASS_BAD_OPTIONS && tree == NULL);
    CHECK(strcmp(first_pass_status_message(FIRST_PASS_OK), "ok") == 0);
    CHECK(strcmp(first_pass_status_message(FIRST_PASS_OUT_OF_MEMORY), "out of memory") == 0);
    CHECK(strcmp(first_pass_status_message(FIRST_PASS_NOT_UTF8), "not UTF-8") == 0);
    CHECK(strcmp(first_pass_status_message(FIRST_PASS_BAD_OPTIONS), "bad options") == 0);
    CHECK(strcmp(first_pass_status_message(FIRST_PASS_TOO_SMALL), "too small") == 0);
    CHECK(strcmp(first_pass_status_message(FIRST_PASS_TOO_LONG), "too long") == 0);
    CHECK(strcmp(first_pass_status_message(6), "unknown status") == 0);
    CHECK(strcmp(first_pass_status_message(UINT32_MAX), "unknown status") == 0);
}

/* The requests of a parse, of which only the first is granted: that for the block of a tree. */
struct once {
    size_t requests;
    size_t bytes;
};

static void *allocate_once(void *data, size_t bytes) {
    struct once *once = data;
    if (++once->requests > 1) {
        return NULL;
    }
    once->bytes = bytes;
    void *block = mmap(NULL, bytes, PROT_READ | PROT_WRITE, MAP_PRIVATE | MAP_ANONYMOUS | MAP_NORESERVE, -1, 0);
    return block != MAP_FAILED ? block : NULL;
}

static void *resize_never(void *data, void *block, size_t bytes) {
    (void)block;
    return allocate_once(data, bytes);
}

static void release_once(void *data, void *block) {
    struct once *once = data;
    munmap(block, once->bytes);
}

/* A text of 4 GiB is refused, before much memory is asked for. One that is a byte shorter is read. */
static void test_too_long(void) {
    struct first_pass_tree *tree;
    struct once once = {0};
    struct first_pass_allocator allocator = {allocate_once, resize_never, release_once, &once};
    size_t length = (size_t)UINT32_MAX + 1;
    char *text = mmap(NULL, length, PROT_READ, MAP_PRIVATE | MAP_ANONYMOUS | MAP_NORESERVE, -1, 0);
    if (text == MAP_FAILED) {
        puts("calls: a text of 4 GiB can't be had here, so it isn't tried");
        return;
    }
    CHECK(first_pass_parse(text, length, 0, NULL, &tree) == FIRST_PASS_TOO_LONG && tree == NULL);
    CHECK(first_pass_parse(text, length, 1, NULL, &tree) == FIRST_PASS_BAD_OPTIONS && tree == NULL);
    CHECK(first_pass_parse(text, length, 0, &allocator, &tree) == FIRST_PASS_TOO_LONG && once.bytes < 10000);
    once.requests = 0;
    CHECK(first_pass_parse(text, length - 1, 0, &allocator, &tree) == FIRST_PASS_OUT_OF_MEMORY && once.requests > 1);
    munmap(text, length);
}

static void test_empty(void) {
    struct first_pass_tree *tree = parsed(NULL, 0);
    struct first_pass_tree *other = parsed("", 0);
    CHECK(tree->node_count == 1 && tree->nodes[0].kind == FIRST_PASS_NODE_ROOT && tree->nodes[0].next == 1);
    CHECK(tree->attribute_count == 0 && tree->definition_count == 0 && tree->link_count == 0);
    CHECK(tree->string_bytes == 0 && first_pass_first_child(tree, 0) == 0 && first_pass_next_sibling(tree, 0) == 0);
    CHECK(same_trees(tree, other));
    first_pass_tree_free(tree);
    first_pass_tree_free(other);
    first_pass_tree_free(NULL);
    tree = parsed("a\0b\n", 4);
    CHECK(tree->nodes[0].end == 4 && tree->nodes[2].kind == FIRST_PASS_NODE_TEXT && tree->nodes[2].end == 3);
    first_pass_tree_free(tree);
}

/* The values of options are those of the program `tree`. */
static void test_options(void) {
    static const struct {
        const char *name;
        uint32_t value;
        uint32_t option;
    } options[] = {
        {"tables", 2, FIRST_PASS_OPT_TABLES},
        {"footnotes", 4, FIRST_PASS_OPT_FOOTNOTES},
        {"strikethrough", 8, FIRST_PASS_OPT_STRIKETHROUGH},
        {"tasklists", 16, FIRST_PASS_OPT_TASKLISTS},
        {"smart_punctuation", 32, FIRST_PASS_OPT_SMART_PUNCTUATION},
        {"heading_attributes", 64, FIRST_PASS_OPT_HEADING_ATTRIBUTES},
        {"yaml_style_metadata_blocks", 128, FIRST_PASS_OPT_YAML_STYLE_METADATA_BLOCKS},
        {"pluses_delimited_metadata_blocks", 256, FIRST_PASS_OPT_PLUSES_DELIMITED_METADATA_BLOCKS},
        {"old_footnotes", 516, FIRST_PASS_OPT_OLD_FOOTNOTES},
        {"math", 1024, FIRST_PASS_OPT_MATH},
        {"gfm", 2048, FIRST_PASS_OPT_GFM},
        {"definition_list", 4096, FIRST_PASS_OPT_DEFINITION_LIST},
        {"superscript", 8192, FIRST_PASS_OPT_SUPERSCRIPT},
        {"subscript", 16384, FIRST_PASS_OPT_SUBSCRIPT},
        {"wikilinks", 32768, FIRST_PASS_OPT_WIKILINKS},
    };
    for (size_t i = 0; i < sizeof options / sizeof *options; i++) {
        CHECK(options[i].option == options[i].value);
        CHECK(first_pass_option_value(options[i].name) == options[i].value);
        CHECK(strcmp(first_pass_option_name(options[i].value), options[i].name) == 0);
    }
}

/* The sets have the extensions that the command `first_pass` gives them. */
static void test_sets(void) {
    uint32_t github = FIRST_PASS_OPT_TABLES | FIRST_PASS_OPT_FOOTNOTES | FIRST_PASS_OPT_STRIKETHROUGH |
                      FIRST_PASS_OPT_TASKLISTS | FIRST_PASS_OPT_GFM;
    uint32_t docs = github | FIRST_PASS_OPT_YAML_STYLE_METADATA_BLOCKS | FIRST_PASS_OPT_HEADING_ATTRIBUTES |
                    FIRST_PASS_OPT_MATH | FIRST_PASS_OPT_DEFINITION_LIST;
    CHECK(FIRST_PASS_OPT_COMMONMARK == 0 && FIRST_PASS_OPT_GITHUB == github && FIRST_PASS_OPT_DOCS == docs);
}

static const struct {
    const char *name;
    int kind;
} kinds[] = {
    {"Root", FIRST_PASS_NODE_ROOT},
    {"Paragraph", FIRST_PASS_NODE_PARAGRAPH},
    {"TightParagraph", FIRST_PASS_NODE_TIGHT_PARAGRAPH},
    {"Rule", FIRST_PASS_NODE_RULE},
    {"Heading", FIRST_PASS_NODE_HEADING},
    {"FencedCodeBlock", FIRST_PASS_NODE_FENCED_CODE_BLOCK},
    {"IndentCodeBlock", FIRST_PASS_NODE_INDENT_CODE_BLOCK},
    {"HtmlBlock", FIRST_PASS_NODE_HTML_BLOCK},
    {"BlockQuote", FIRST_PASS_NODE_BLOCK_QUOTE},
    {"List", FIRST_PASS_NODE_LIST},
    {"ListItem", FIRST_PASS_NODE_LIST_ITEM},
    {"FootnoteDefinition", FIRST_PASS_NODE_FOOTNOTE_DEFINITION},
    {"MetadataBlock", FIRST_PASS_NODE_METADATA_BLOCK},
    {"DefinitionList", FIRST_PASS_NODE_DEFINITION_LIST},
    {"MaybeDefinitionListTitle", FIRST_PASS_NODE_MAYBE_DEFINITION_LIST_TITLE},
    {"DefinitionListTitle", FIRST_PASS_NODE_DEFINITION_LIST_TITLE},
    {"DefinitionListDefinition", FIRST_PASS_NODE_DEFINITION_LIST_DEFINITION},
    {"Table", FIRST_PASS_NODE_TABLE},
    {"TableHead", FIRST_PASS_NODE_TABLE_HEAD},
    {"TableRow", FIRST_PASS_NODE_TABLE_ROW},
    {"TableCell", FIRST_PASS_NODE_TABLE_CELL},
    {"Text", FIRST_PASS_NODE_TEXT},
    {"SoftBreak", FIRST_PASS_NODE_SOFT_BREAK},
    {"HardBreak", FIRST_PASS_NODE_HARD_BREAK},
    {"MaybeEmphasis", FIRST_PASS_NODE_MAYBE_EMPHASIS},
    {"MaybeMath", FIRST_PASS_NODE_MAYBE_MATH},
    {"MaybeSmartQuote", FIRST_PASS_NODE_MAYBE_SMART_QUOTE},
    {"MaybeCode", FIRST_PASS_NODE_MAYBE_CODE},
    {"MaybeHtml", FIRST_PASS_NODE_MAYBE_HTML},
    {"MaybeLinkOpen", FIRST_PASS_NODE_MAYBE_LINK_OPEN},
    {"MaybeLinkClose", FIRST_PASS_NODE_MAYBE_LINK_CLOSE},
    {"MaybeImage", FIRST_PASS_NODE_MAYBE_IMAGE},
    {"Html", FIRST_PASS_NODE_HTML},
    {"SynthesizeText", FIRST_PASS_NODE_SYNTHESIZE_TEXT},
    {"SynthesizeChar", FIRST_PASS_NODE_SYNTHESIZE_CHAR},
    {"TaskListMarker", FIRST_PASS_NODE_TASK_LIST_MARKER},
};

/* The numbers of kinds are those of the records, in the order of their names. */
static void test_kinds(void) {
    for (size_t i = 0; i < sizeof kinds / sizeof *kinds; i++) {
        CHECK(kinds[i].kind == (int)i && strcmp(first_pass_kind_name((uint8_t)i), kinds[i].name) == 0);
    }
    CHECK(strcmp(first_pass_kind_name(36), "?") == 0 && strcmp(first_pass_kind_name(255), "?") == 0);
}

/* Whether a call reads a member of nodes of its kind, and gives 0 of another. */
#define CHECK_VALUE(call, of, member)                                                                                 \
    CHECK((uint32_t)first_pass_##call(&node) == (node.kind == FIRST_PASS_NODE_##of ? node.member : 0u))

/* Each value is read of its kind alone. */
static void test_values(void) {
    struct first_pass_node node = {.string_length = 70001, .number = 70000, .first = 5, .second = '-', .third = 1};
    for (unsigned kind = 0; kind < 256; kind++) {
        node.kind = (uint8_t)kind;
        CHECK_VALUE(heading_level, HEADING, first);
        CHECK_VALUE(heading_has_attribute_block, HEADING, second);
        CHECK_VALUE(heading_attribute_count, HEADING, string_length);
        CHECK_VALUE(block_quote_kind, BLOCK_QUOTE, first);
        CHECK_VALUE(list_is_tight, LIST, first);
        CHECK_VALUE(list_byte, LIST, second);
        CHECK_VALUE(list_number, LIST, number);
        CHECK_VALUE(list_item_columns, LIST_ITEM, number);
        CHECK_VALUE(metadata_block_has_pluses, METADATA_BLOCK, first);
        CHECK_VALUE(definition_list_is_tight, DEFINITION_LIST, first);
        CHECK_VALUE(definition_list_definition_columns, DEFINITION_LIST_DEFINITION, number);
        CHECK_VALUE(text_is_escaped, TEXT, first);
        CHECK_VALUE(hard_break_is_by_backslash, HARD_BREAK, first);
        CHECK_VALUE(maybe_emphasis_remaining, MAYBE_EMPHASIS, number);
        CHECK_VALUE(maybe_emphasis_can_open, MAYBE_EMPHASIS, first);
        CHECK_VALUE(maybe_emphasis_can_close, MAYBE_EMPHASIS, second);
        CHECK_VALUE(maybe_math_context, MAYBE_MATH, number);
        CHECK_VALUE(maybe_math_can_open, MAYBE_MATH, first);
        CHECK_VALUE(maybe_math_can_close, MAYBE_MATH, second);
        CHECK_VALUE(maybe_smart_quote_byte, MAYBE_SMART_QUOTE, second);
        CHECK_VALUE(maybe_smart_quote_can_open, MAYBE_SMART_QUOTE, first);
        CHECK_VALUE(maybe_smart_quote_can_close, MAYBE_SMART_QUOTE, third);
        CHECK_VALUE(maybe_code_count, MAYBE_CODE, number);
        CHECK_VALUE(maybe_code_is_escaped, MAYBE_CODE, first);
        CHECK_VALUE(maybe_link_close_is_active, MAYBE_LINK_CLOSE, first);
        CHECK_VALUE(synthesize_char_character, SYNTHESIZE_CHAR, number);
        CHECK_VALUE(task_list_marker_is_checked, TASK_LIST_MARKER, first);
    }
}

/* A tag gives a quote the kind of its name. */
static void test_quotes(void) {
    static const struct {
        const char *text;
        int quote;
    } quotes[] = {
        {"> a", FIRST_PASS_QUOTE_PLAIN},
        {"> [!NOTE]\n> a", FIRST_PASS_QUOTE_NOTE},
        {"> [!TIP]\n> a", FIRST_PASS_QUOTE_TIP},
        {"> [!IMPORTANT]\n> a", FIRST_PASS_QUOTE_IMPORTANT},
        {"> [!WARNING]\n> a", FIRST_PASS_QUOTE_WARNING},
        {"> [!CAUTION]\n> a", FIRST_PASS_QUOTE_CAUTION},
    };
    for (size_t i = 0; i < sizeof quotes / sizeof *quotes; i++) {
        struct first_pass_tree *tree = parsed(quotes[i].text, strlen(quotes[i].text));
        CHECK(tree->nodes[1].kind == FIRST_PASS_NODE_BLOCK_QUOTE &&
              first_pass_block_quote_kind(&tree->nodes[1]) == quotes[i].quote);
        first_pass_tree_free(tree);
    }
}

static void test_names(void) {
    uint32_t all = 0;
    for (uint32_t bit = 1; bit != 0; bit <<= 1) {
        uint32_t option = bit == 1 << 9 ? (uint32_t)FIRST_PASS_OPT_OLD_FOOTNOTES : bit;
        const char *name = first_pass_option_name(option);
        bool is_one = (option & FIRST_PASS_OPT_ALL) != 0;
        CHECK((strcmp(name, "?") != 0) == is_one);
        CHECK(first_pass_option_value(name) == (is_one ? option : 0));
        all |= first_pass_option_value(name);
    }
    CHECK(all == FIRST_PASS_OPT_ALL);
    CHECK(first_pass_option_value("heading-attributes") == FIRST_PASS_OPT_HEADING_ATTRIBUTES);
    CHECK(first_pass_option_value("") == 0 && first_pass_option_value("table") == 0);
    CHECK(first_pass_option_value("tables ") == 0 && first_pass_option_value("Tables") == 0);
    CHECK(strcmp(first_pass_option_name(0), "?") == 0);
    CHECK(strcmp(first_pass_option_name(FIRST_PASS_OPT_TABLES | FIRST_PASS_OPT_MATH), "?") == 0);
}

/* Whether a definition has a label, a destination and a title, which may be NULL. */
static bool is_definition(const struct first_pass_tree *tree, const struct first_pass_definition *it,
                          const char *label, const char *destination, const char *title) {
    return it != NULL && it->label_length == strlen(label) &&
           memcmp(tree->strings + it->label, label, it->label_length) == 0 &&
           it->destination_length == strlen(destination) &&
           memcmp(tree->strings + it->destination, destination, it->destination_length) == 0 &&
           it->has_title == (title != NULL) && it->title_length == (title != NULL ? strlen(title) : 0) &&
           (title == NULL || memcmp(tree->strings + it->title, title, it->title_length) == 0);
}

static const struct first_pass_definition *find(const struct first_pass_tree *tree, const char *label) {
    const struct first_pass_definition *found;
    CHECK(first_pass_find_definition(tree, label, strlen(label), &found) == FIRST_PASS_OK);
    return found;
}

static void test_find(void) {
    struct first_pass_tree *tree = parsed(sample, strlen(sample));
    const struct first_pass_definition *found;
    CHECK(tree->link_count == 4 && tree->definition_count == 6);
    CHECK(is_definition(tree, find(tree, "Label"), "Label", "/url", "title"));
    CHECK(is_definition(tree, find(tree, "lABEL"), "Label", "/url", "title"));
    CHECK(is_definition(tree, find(tree, "empty title"), "empty title", "", ""));
    CHECK(is_definition(tree, find(tree, "empty \t\n title"), "empty title", "", ""));
    CHECK(is_definition(tree, find(tree, "two\n> lines"), "two lines", "/lines", NULL) == false);
    CHECK(is_definition(tree, find(tree, "two\x0b\x0c\r lines"), "two lines", "/lines", NULL));
    CHECK(is_definition(tree, find(tree, "SS"), "\xc3\x9f", "/sharp", NULL));
    CHECK(is_definition(tree, find(tree, "\xe1\xba\x9e"), "\xc3\x9f", "/sharp", NULL));
    found = find(tree, "label");
    CHECK(memcmp(sample + found->start, "[Label]: ", 9) == 0 && found->label_end == found->start + 6);
    CHECK(memcmp(sample + found->destination_start, "/url \"title\"", 12) == 0);
    CHECK(found->destination_end == found->destination_start + 4);
    CHECK(found->title_start == found->destination_end + 1 && found->end == found->title_start + 7);
    found = find(tree, "ss");
    CHECK(found->title_start == found->end && found->destination_end == found->end);
    CHECK(find(tree, " label") == find(tree, "label") && find(tree, "\tLABEL\r\n") == find(tree, "label"));
    CHECK(find(tree, "") == NULL && find(tree, " ") == NULL && find(tree, "\t\n\x0b\x0c\r ") == NULL);
    CHECK(find(tree, "labe") == NULL && find(tree, "labels") == NULL && find(tree, "note") == NULL);
    CHECK(find(tree, "zzz") == NULL && find(tree, "\xf0\x9f\x98\x80") == NULL);
    CHECK(first_pass_find_definition(tree, NULL, 0, &found) == FIRST_PASS_OK && found == NULL);
    found = tree->definitions;
    CHECK(first_pass_find_definition(tree, "a\xff", 2, &found) == FIRST_PASS_NOT_UTF8 && found == NULL);
    first_pass_tree_free(tree);
}

/*
 * White space at the ends of a label doesn't count: of the definitions whose labels differ in it alone, the one that
 * begins first is found, by each of their labels.
 */
static void test_find_by_ends(void) {
    static const struct {
        const char *text, *destination;
        size_t count;
    } texts[] = {
        {"[ only ]: /1\n\n[only]", "/1", 1},
        {"[ only ]: /1\n[only]: /2", "/1", 2},
        {"[only]: /2\n[ only ]: /1", "/2", 2},
        {"[only ]: /3\n[ only ]: /1\n[ only]: /4\n[only]: /2", "/3", 4},
        {"[a]: /a\n[ Only]: /4\n[only]: /2\n[only ]: /3\n[zz]: /z\n[\tonly\n]: /1", "/4", 6},
    };
    static const char *const labels[] = {"only", " ONLY", "only\n", "\t Only \r\n"};
    for (size_t i = 0; i < sizeof texts / sizeof *texts; i++) {
        struct first_pass_tree *tree = parsed(texts[i].text, strlen(texts[i].text));
        CHECK(tree->link_count == texts[i].count && find(tree, "onl") == NULL && find(tree, " ") == NULL);
        for (size_t j = 0; j < sizeof labels / sizeof *labels; j++) {
            const struct first_pass_definition *found = find(tree, labels[j]);
            CHECK(found != NULL && found->destination_length == 2 &&
                  memcmp(tree->strings + found->destination, texts[i].destination, 2) == 0);
        }
        first_pass_tree_free(tree);
    }
    struct first_pass_tree *tree = parsed("[\tA  b ]: /1\n[ ]: /2", 22);
    CHECK(tree->link_count == 1 && is_definition(tree, find(tree, "a B"), " A b ", "/1", NULL));
    CHECK(find(tree, "\na\t\tb") != NULL && find(tree, " a b ") != NULL && find(tree, "ab") == NULL);
    first_pass_tree_free(tree);
}

/* Each of a thousand labels is found, also those whose folding is long, and those with white space at their ends. */
static void test_find_many(void) {
    char *text = NULL;
    size_t length = 0;
    FILE *out = open_memstream(&text, &length);
    for (int i = 0; i < 1000; i++) {
        const char *before = i % 3 == 0 ? " " : "", *after = i % 5 == 0 ? "\t" : "";
        fprintf(out, "[%s%s%0*d%s]: /%d\n", before, i % 2 == 0 ? "\xc3\x84" : "Z", i % 7 == 0 ? 252 + i % 6 : 1, i,
                after, i);
    }
    fclose(out);
    struct first_pass_tree *tree = parsed(text, length);
    CHECK(tree->link_count == 1000);
    for (int i = 0; i < 1000; i++) {
        char label[400], destination[20], missing[404];
        snprintf(label, sizeof label, "%s%0*d", i % 2 == 0 ? "\xc3\xa4" : "z", i % 7 == 0 ? 252 + i % 6 : 1, i);
        snprintf(missing, sizeof missing, "%s.", label);
        snprintf(destination, sizeof destination, "/%d", i);
        const struct first_pass_definition *found = find(tree, label);
        CHECK(found != NULL && found->destination_length == strlen(destination) &&
              memcmp(tree->strings + found->destination, destination, strlen(destination)) == 0);
        CHECK(find(tree, missing) == NULL);
    }
    first_pass_tree_free(tree);
    free(text);
}

/* What a walk has seen, and where it is to end: at that many entered nodes, or, from 1000 on, after a kind is left. */
struct seen {
    const struct first_pass_tree *tree;
    size_t entered;
    uint32_t open[64];
    uint32_t depth;
    size_t end_at;
};

static int enter_node(const struct first_pass_node *node, void *data) {
    struct seen *seen = data;
    CHECK(node == &seen->tree->nodes[seen->entered] && node->depth == seen->depth);
    seen->open[seen->depth++] = (uint32_t)seen->entered;
    return ++seen->entered == seen->end_at ? 7 : 0;
}

static int leave_node(const struct first_pass_node *node, void *data) {
    struct seen *seen = data;
    seen->depth--;
    CHECK(node == &seen->tree->nodes[seen->open[seen->depth]] && node->next == seen->entered);
    return seen->end_at == 1000u + node->kind ? -3 : 0;
}

static void test_walk(void) {
    struct first_pass_tree *tree = parsed(sample, strlen(sample));
    struct seen seen = {.tree = tree};
    CHECK(first_pass_walk(tree, enter_node, leave_node, &seen) == 0);
    CHECK(seen.entered == tree->node_count && seen.depth == 0);
    seen = (struct seen){.tree = tree, .end_at = 5};
    CHECK(first_pass_walk(tree, enter_node, leave_node, &seen) == 7 && seen.entered == 5);
    seen = (struct seen){.tree = tree, .end_at = 1000 + FIRST_PASS_NODE_HEADING};
    CHECK(first_pass_walk(tree, enter_node, leave_node, &seen) == -3);
    CHECK(tree->nodes[seen.open[seen.depth]].kind == FIRST_PASS_NODE_HEADING);
    seen = (struct seen){.tree = tree, .end_at = 1000 + FIRST_PASS_NODE_ROOT};
    CHECK(first_pass_walk(tree, enter_node, leave_node, &seen) == -3 && seen.entered == tree->node_count);
    CHECK(first_pass_walk(tree, NULL, NULL, NULL) == 0);
    first_pass_tree_free(tree);
}

/* The children that the helpers name are those that the depths say. */
static void test_children(void) {
    struct first_pass_tree *tree = parsed(sample, strlen(sample));
    for (size_t i = 0; i < tree->node_count; i++) {
        size_t child = first_pass_first_child(tree, i);
        size_t end = i + 1;
        for (; end < tree->node_count && tree->nodes[end].depth > tree->nodes[i].depth; end++) {
            if (tree->nodes[end].depth == tree->nodes[i].depth + 1) {
                CHECK(child == end);
                child = first_pass_next_sibling(tree, child);
            }
        }
        CHECK(child == 0 && tree->nodes[i].next == end);
    }
    first_pass_tree_free(tree);
}

static void test_strings(void) {
    struct first_pass_tree *tree = parsed(sample, strlen(sample));
    const struct first_pass_node *node = tree->nodes;
    while (node->kind != FIRST_PASS_NODE_HEADING) {
        CHECK(first_pass_heading_attributes(tree, node) == NULL);
        node++;
    }
    const struct first_pass_attribute *it = first_pass_heading_attributes(tree, node);
    CHECK(it != NULL && first_pass_heading_attribute_count(node) == 6 &&
          first_pass_heading_has_attribute_block(node) && first_pass_node_string(tree, node) == NULL);
    CHECK(it[0].kind == FIRST_PASS_ATTRIBUTE_ID && memcmp(tree->strings + it[0].name, "first", 5) == 0);
    CHECK(it[1].kind == FIRST_PASS_ATTRIBUTE_CLASS && it[2].kind == FIRST_PASS_ATTRIBUTE_CLASS);
    CHECK(it[3].kind == FIRST_PASS_ATTRIBUTE_KEY && it[3].has_value == 1 && it[3].value_length == 2);
    CHECK(it[4].kind == FIRST_PASS_ATTRIBUTE_KEY && it[4].has_value == 0);
    while (node->kind != FIRST_PASS_NODE_TABLE) {
        node++;
    }
    CHECK(node->string_length == 4 && memcmp(first_pass_node_string(tree, node), "-lcr", 4) == 0);
    while (node->kind != FIRST_PASS_NODE_HEADING) {
        node++;
    }
    CHECK(!first_pass_heading_has_attribute_block(node) && first_pass_heading_attributes(tree, node) == NULL);
    first_pass_tree_free(tree);
}

/* An allocator that calls the library at each request. */
static void *allocate_and_parse(void *data, size_t bytes) {
    struct first_pass_tree *tree;
    ++*(size_t *)data;
    CHECK(first_pass_parse("# a\n", 4, 0, NULL, &tree) == FIRST_PASS_OK && tree->node_count == 3);
    first_pass_tree_free(tree);
    return malloc(bytes);
}

static void *resize_plainly(void *data, void *block, size_t bytes) {
    ++*(size_t *)data;
    return realloc(block, bytes);
}

static void release_plainly(void *data, void *block) {
    (void)data;
    free(block);
}

/* An allocator may call the library, and is asked only while a call runs that was given it. */
static void test_allocator(void) {
    size_t requests = 0, folded_length;
    struct first_pass_allocator allocator = {allocate_and_parse, resize_plainly, release_plainly, &requests};
    struct first_pass_tree *tree;
    uint8_t folded[40];
    CHECK(first_pass_parse(sample, strlen(sample), FIRST_PASS_OPT_ALL, &allocator, &tree) == FIRST_PASS_OK);
    CHECK(requests > 3);
    struct first_pass_tree *none;
    CHECK(first_pass_parse("\xff", 1, 0, &allocator, &none) == FIRST_PASS_NOT_UTF8);
    requests = 0;
    const uint8_t *label = (const uint8_t *)"\xc3\x84 and so on";
    CHECK(first_pass_fold(label, strlen((const char *)label), folded, sizeof folded, &folded_length) == FIRST_PASS_OK);
    first_pass_tree_free(parsed(sample, strlen(sample)));
    CHECK(requests == 0);
    CHECK(find(tree, "label") != NULL);
    /* (a label is folded in memory of its tree) */
    CHECK(requests > 0);
    first_pass_tree_free(tree);
}

/* Where texts have the strings or the attributes of their second nodes. */
static void test_string_ranges(void) {
    static const struct {
        const char *text;
        const char *wanted;
    } cases[] = {
        {"~~~  a&amp;b\\* \n~~~\n", "a&amp;b\\*"},
        {"```\n", ""},
        {"> [^a\\]b]: c\n", NULL},
        {"[^a\\]b]: c\n", "a\\]b"},
        {"# a {#b .c}\n", "#b .c"},
        {"a {x}\nb {y} \\\n===\n", "y"},
        {"# a {}\n", ""},
        {"# a {b} c\n", NULL},
        {"a\n", NULL},
    };
    for (size_t i = 0; i < sizeof cases / sizeof *cases; i++) {
        const char *text = cases[i].text;
        struct first_pass_tree *tree = parsed(text, strlen(text));
        struct first_pass_range range = {77, 78};
        uint32_t found = first_pass_string_range(text, strlen(text), &tree->nodes[1], &range);
        if (cases[i].wanted == NULL) {
            CHECK(found == 0 && range.start == 77 && range.end == 78);
        } else {
            size_t length = strlen(cases[i].wanted);
            CHECK(found == 1 && range.end - range.start == length);
            CHECK(memcmp(text + range.start, cases[i].wanted, length) == 0);
        }
        CHECK(first_pass_string_range(text, 1, &tree->nodes[1], &range) == 0);
        first_pass_tree_free(tree);
    }
}

static void test_versions(void) {
    char version[40];
    snprintf(version, sizeof version, "%d.%d.%d", FIRST_PASS_VERSION_MAJOR, FIRST_PASS_VERSION_MINOR,
             FIRST_PASS_VERSION_PATCH);
    CHECK(strcmp(first_pass_version(), version) == 0);
}

int main(void) {
    test_statuses();
    test_too_long();
    test_empty();
    test_options();
    test_sets();
    test_kinds();
    test_values();
    test_quotes();
    test_names();
    test_find();
    test_find_by_ends();
    test_find_many();
    test_walk();
    test_children();
    test_strings();
    test_allocator();
    test_string_ranges();
    test_versions();
    return report("calls");
}
