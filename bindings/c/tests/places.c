/*
 * The lines and columns of offsets, for texts and tables that end at a page, and the length of a byte order mark.
 */
#define _GNU_SOURCE
#include "check.h"

#include <stdlib.h>
#include <string.h>

/* The place of an offset by the words of the header, from the start of the text. */
static struct first_pass_place counted(const char *text, size_t length, size_t offset) {
    struct first_pass_place place = {1, 1, 1};
    size_t start = 0;
    for (size_t i = 0; i < offset; i++) {
        bool both = text[i] == '\r' && i + 1 < length && text[i + 1] == '\n';
        if (text[i] == '\n' || (text[i] == '\r' && !both)) {
            place.line++;
            start = i + 1;
        }
    }
    place.column = offset - start + 1;
    for (size_t i = start; i < offset; i++) {
        unsigned char byte = (unsigned char)text[i];
        place.utf16_column += byte < 0x80 || byte >= 0xc0;
        place.utf16_column += byte >= 0xf0;
    }
    return place;
}

static bool same_places(const struct first_pass_place *one, const struct first_pass_place *other) {
    return one->line == other->line && one->column == other->column && one->utf16_column == other->utf16_column;
}

/* Each offset of a text has its place, and one after its end has none. */
static void check_text(const char *text, size_t length) {
    size_t bytes = first_pass_place_count(length) * sizeof(struct first_pass_place);
    char *copy = edge_memory(length);
    struct first_pass_place *places = edge_memory(bytes);
    memcpy(copy, text, length);
    first_pass_places(copy, length, places);
    for (size_t offset = 0; offset <= length; offset++) {
        struct first_pass_place place = {0};
        struct first_pass_place wanted = counted(text, length, offset);
        CHECK(first_pass_line_column(copy, length, places, offset, &place) == 1 && same_places(&place, &wanted));
    }
    struct first_pass_place place = {7, 8, 9};
    CHECK(first_pass_line_column(copy, length, places, length + 1, &place) == 0);
    CHECK(first_pass_line_column(copy, length, places, SIZE_MAX, &place) == 0);
    CHECK(place.line == 7 && place.column == 8 && place.utf16_column == 9);
    free_edge_memory(copy, length);
    free_edge_memory(places, bytes);
}

static void test_rows(void) {
    static const char text[] = "a\xc3\xa9\xf0\x9f\x98\x80z\r\n\rb\n";
    static const struct {
        size_t offset;
        struct first_pass_place place;
    } rows[] = {
        {0, {1, 1, 1}},  {1, {1, 2, 2}},  {3, {1, 4, 3}},  {5, {1, 6, 5}},  {7, {1, 8, 5}},  {8, {1, 9, 6}},
        {9, {1, 10, 7}}, {10, {2, 1, 1}}, {11, {3, 1, 1}}, {12, {3, 2, 2}}, {13, {4, 1, 1}},
    };
    struct first_pass_place places[1], place;
    CHECK(first_pass_place_count(sizeof text - 1) == 1);
    first_pass_places(text, sizeof text - 1, places);
    for (size_t i = 0; i < sizeof rows / sizeof *rows; i++) {
        CHECK(first_pass_line_column(text, sizeof text - 1, places, rows[i].offset, &place) == 1);
        CHECK(same_places(&place, &rows[i].place));
    }
}

/* Texts of pieces that come in an order that looks random: short and long lines, with each line ending. */
static void test_texts(void) {
    static const char *const pieces[] = {"\n",  "\r",       "\r\n",         "a",
                                         "bc ", "\xc3\xa9", "\xe2\x82\xac", "\xf0\x9f\x98\x80"};
    char text[2100];
    uint32_t state = 1;
    for (int count = 0; count < 40; count++) {
        size_t length = 0;
        while (length < sizeof text - 100) {
            state = state * 1664525 + 1013904223;
            /* (each other text has long lines) */
            size_t at = count % 2 == 0 || state >> 26 == 0 ? state >> 29 : 3 + (state >> 24) % 5;
            length += (size_t)(stpcpy(text + length, pieces[at]) - (text + length));
        }
        check_text(text, length - (size_t)count);
    }
    for (size_t length = 250; length < 262; length++) {
        memset(text, '\r', sizeof text);
        check_text(text, length);
        text[255] = '\n';
        check_text(text, length);
        text[256] = '\n';
        check_text(text, length);
    }
}

/* The places of a tree's nodes. */
static void test_tree(void) {
    static const char text[] = "\xf0\x9f\x98\x80 *a*\r\n\r\n> # b\n";
    size_t length = sizeof text - 1;
    struct first_pass_tree *tree;
    struct first_pass_place places[1], place;
    if (!CHECK(first_pass_parse(text, length, FIRST_PASS_OPT_COMMONMARK, NULL, &tree) == FIRST_PASS_OK)) {
        return;
    }
    first_pass_places(text, length, places);
    const struct first_pass_node *node = tree->nodes;
    while (node->kind != FIRST_PASS_NODE_MAYBE_EMPHASIS) {
        node++;
    }
    CHECK(first_pass_line_column(text, length, places, node->start, &place) == 1);
    CHECK(place.line == 1 && place.column == 6 && place.utf16_column == 4);
    while (node->kind != FIRST_PASS_NODE_HEADING) {
        node++;
    }
    CHECK(first_pass_line_column(text, length, places, node->start, &place) == 1);
    CHECK(place.line == 3 && place.column == 3 && place.utf16_column == 3);
    first_pass_tree_free(tree);
}

/* A text is parsed with its byte order mark, or from after it. */
static void test_byte_order_mark(void) {
    static const char text[] = "\xef\xbb\xbf# a\n";
    size_t length = sizeof text - 1, skip = first_pass_bom_length(text, length);
    struct first_pass_tree *tree;
    CHECK(skip == 3 && first_pass_bom_length(text, 3) == 3);
    for (size_t shorter = 0; shorter < 3; shorter++) {
        CHECK(first_pass_bom_length(text, shorter) == 0);
    }
    CHECK(first_pass_bom_length(NULL, 0) == 0 && first_pass_bom_length(text + 3, length - 3) == 0);
    CHECK(first_pass_bom_length("\xef\xbb\xbe", 3) == 0 && first_pass_bom_length("\xff\xfe\xbf", 3) == 0);
    if (CHECK(first_pass_parse(text, length, 0, NULL, &tree) == FIRST_PASS_OK)) {
        CHECK(tree->nodes[1].kind == FIRST_PASS_NODE_PARAGRAPH && tree->nodes[0].end == 7);
        first_pass_tree_free(tree);
    }
    if (CHECK(first_pass_parse(text + skip, length - skip, 0, NULL, &tree) == FIRST_PASS_OK)) {
        CHECK(tree->nodes[1].kind == FIRST_PASS_NODE_HEADING && tree->nodes[0].end == 4);
        first_pass_tree_free(tree);
    }
}

int main(void) {
    test_rows();
    check_text("", 0);
    test_texts();
    test_tree();
    test_byte_order_mark();
    return report("places");
}
