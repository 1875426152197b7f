#include "lines.h"

#include <inttypes.h>
#include <stdbool.h>
#include <string.h>

static void write_string(FILE *out, const char *text, size_t length) {
    static const char plain[] = "\b\f\n\r\t\"\\";
    static const char letters[] = "bfnrt\"\\";
    fputc('"', out);
    for (size_t i = 0; i < length; i++) {
        const char *found = text[i] != '\0' ? strchr(plain, text[i]) : NULL;
        if (found != NULL) {
            fprintf(out, "\\%c", letters[found - plain]);
        } else if ((unsigned char)text[i] < 0x20) {
            fprintf(out, "\\u%04x", (unsigned)text[i]);
        } else {
            fputc(text[i], out);
        }
    }
    fputc('"', out);
}

/* A string of the tree, after the name of its member. */
static void write_member(FILE *out, const char *member, const char *text, size_t length) {
    fprintf(out, ",\"%s\":", member);
    write_string(out, text, length);
}

static void write_flag(FILE *out, const char *member, int flag) {
    fprintf(out, ",\"%s\":%s", member, flag != 0 ? "true" : "false");
}

static void write_number(FILE *out, const char *member, uint32_t number) {
    fprintf(out, ",\"%s\":%" PRIu32, member, number);
}

static void write_byte(FILE *out, const char *member, char byte) {
    write_member(out, member, &byte, 1);
}

/* A character in UTF-8. */
static void write_character(FILE *out, const char *member, uint32_t c) {
    char text[4];
    size_t length = c < 0x80 ? 1 : c < 0x800 ? 2 : c < 0x10000 ? 3 : 4;
    static const unsigned char heads[] = {0, 0, 0xc0, 0xe0, 0xf0};
    for (size_t i = length - 1; i > 0; i--) {
        text[i] = (char)(0x80 | (c & 0x3f));
        c >>= 6;
    }
    text[0] = (char)(heads[length] | c);
    write_member(out, member, text, length);
}

static void write_attribute(FILE *out, const struct first_pass_tree *tree, const struct first_pass_attribute *it) {
    if (it->kind != FIRST_PASS_ATTRIBUTE_KEY) {
        write_string(out, tree->strings + it->name, it->name_length);
        return;
    }
    fputc('[', out);
    write_string(out, tree->strings + it->name, it->name_length);
    fputc(',', out);
    if (it->has_value != 0) {
        write_string(out, tree->strings + it->value, it->value_length);
    } else {
        fputs("null", out);
    }
    fputc(']', out);
}

/* The attributes of a heading that are of a kind, with a comma between two. */
static size_t write_attributes(FILE *out, const struct first_pass_tree *tree, const struct first_pass_node *node,
                               uint32_t kind) {
    const struct first_pass_attribute *attributes = first_pass_heading_attributes(tree, node);
    size_t count = 0;
    for (size_t i = 0; i < first_pass_heading_attribute_count(node); i++) {
        if (attributes[i].kind == kind) {
            fputs(count++ > 0 ? "," : "", out);
            write_attribute(out, tree, &attributes[i]);
        }
    }
    return count;
}

static void write_heading(FILE *out, const struct first_pass_tree *tree, const struct first_pass_node *node) {
    write_number(out, "level", (uint32_t)first_pass_heading_level(node));
    fputs(",\"id\":", out);
    if (write_attributes(out, tree, node, FIRST_PASS_ATTRIBUTE_ID) == 0) {
        fputs("null", out);
    }
    fputs(",\"classes\":[", out);
    write_attributes(out, tree, node, FIRST_PASS_ATTRIBUTE_CLASS);
    fputs("],\"attributes\":[", out);
    write_attributes(out, tree, node, FIRST_PASS_ATTRIBUTE_KEY);
    fputc(']', out);
}

static void write_quote(FILE *out, int kind) {
    static const char *const kinds[] = {"null", "\"Note\"", "\"Tip\"", "\"Important\"", "\"Warning\"", "\"Caution\""};
    fprintf(out, ",\"quote\":%s", kind <= FIRST_PASS_QUOTE_CAUTION ? kinds[kind] : "?");
}

static const char *alignment_name(char alignment) {
    switch (alignment) {
    case '-':
        return "none";
    case 'l':
        return "left";
    case 'c':
        return "center";
    case 'r':
        return "right";
    default:
        return "?";
    }
}

static void write_alignments(FILE *out, const char *alignments, size_t count) {
    fputs(",\"alignments\":[", out);
    for (size_t i = 0; i < count; i++) {
        fprintf(out, "%s\"%s\"", i > 0 ? "," : "", alignment_name(alignments[i]));
    }
    fputc(']', out);
}

static void write_sides(FILE *out, int can_open, int can_close) {
    write_flag(out, "can_open", can_open);
    write_flag(out, "can_close", can_close);
}

/* The members of a token, if it has any. */
static void write_token(FILE *out, const struct first_pass_tree *tree, const struct first_pass_node *node) {
    switch (node->kind) {
    case FIRST_PASS_NODE_TEXT:
        write_flag(out, "escaped", first_pass_text_is_escaped(node));
        break;
    case FIRST_PASS_NODE_HARD_BREAK:
        write_flag(out, "by_backslash", first_pass_hard_break_is_by_backslash(node));
        break;
    case FIRST_PASS_NODE_MAYBE_EMPHASIS:
        write_number(out, "remaining", first_pass_maybe_emphasis_remaining(node));
        write_sides(out, first_pass_maybe_emphasis_can_open(node), first_pass_maybe_emphasis_can_close(node));
        break;
    case FIRST_PASS_NODE_MAYBE_MATH:
        write_sides(out, first_pass_maybe_math_can_open(node), first_pass_maybe_math_can_close(node));
        write_number(out, "context", first_pass_maybe_math_context(node));
        break;
    case FIRST_PASS_NODE_MAYBE_SMART_QUOTE:
        write_byte(out, "byte", first_pass_maybe_smart_quote_byte(node));
        write_sides(out, first_pass_maybe_smart_quote_can_open(node), first_pass_maybe_smart_quote_can_close(node));
        break;
    case FIRST_PASS_NODE_MAYBE_CODE:
        write_number(out, "count", first_pass_maybe_code_count(node));
        write_flag(out, "escaped", first_pass_maybe_code_is_escaped(node));
        break;
    case FIRST_PASS_NODE_MAYBE_LINK_CLOSE:
        write_flag(out, "active", first_pass_maybe_link_close_is_active(node));
        break;
    case FIRST_PASS_NODE_SYNTHESIZE_TEXT:
        write_member(out, "text", first_pass_node_string(tree, node), node->string_length);
        break;
    case FIRST_PASS_NODE_SYNTHESIZE_CHAR:
        write_character(out, "text", first_pass_synthesize_char_character(node));
        break;
    case FIRST_PASS_NODE_TASK_LIST_MARKER:
        write_flag(out, "checked", first_pass_task_list_marker_is_checked(node));
        break;
    default:
        break;
    }
}

/* The members of a block, or of a token. */
static void write_members(FILE *out, const struct first_pass_tree *tree, const struct first_pass_node *node) {
    switch (node->kind) {
    case FIRST_PASS_NODE_HEADING:
        write_heading(out, tree, node);
        break;
    case FIRST_PASS_NODE_FENCED_CODE_BLOCK:
        write_member(out, "info", first_pass_node_string(tree, node), node->string_length);
        break;
    case FIRST_PASS_NODE_BLOCK_QUOTE:
        write_quote(out, first_pass_block_quote_kind(node));
        break;
    case FIRST_PASS_NODE_LIST:
        write_flag(out, "tight", first_pass_list_is_tight(node));
        write_byte(out, "byte", first_pass_list_byte(node));
        write_number(out, "number", first_pass_list_number(node));
        break;
    case FIRST_PASS_NODE_DEFINITION_LIST:
        write_flag(out, "tight", first_pass_definition_list_is_tight(node));
        break;
    case FIRST_PASS_NODE_LIST_ITEM:
        write_number(out, "columns", first_pass_list_item_columns(node));
        break;
    case FIRST_PASS_NODE_DEFINITION_LIST_DEFINITION:
        write_number(out, "columns", first_pass_definition_list_definition_columns(node));
        break;
    case FIRST_PASS_NODE_FOOTNOTE_DEFINITION:
        write_member(out, "label", first_pass_node_string(tree, node), node->string_length);
        break;
    case FIRST_PASS_NODE_METADATA_BLOCK:
        fprintf(out, ",\"metadata\":\"%s\"", first_pass_metadata_block_has_pluses(node) ? "PlusesStyle" : "YamlStyle");
        break;
    case FIRST_PASS_NODE_TABLE:
        write_alignments(out, first_pass_node_string(tree, node), node->string_length);
        break;
    default:
        write_token(out, tree, node);
        break;
    }
}

static void write_definition(FILE *out, const struct first_pass_tree *tree, const struct first_pass_definition *it) {
    fputs("{\"definition\":", out);
    write_string(out, tree->strings + it->label, it->label_length);
    write_member(out, "destination", tree->strings + it->destination, it->destination_length);
    if (it->has_title != 0) {
        write_member(out, "title", tree->strings + it->title, it->title_length);
    } else {
        fputs(",\"title\":null", out);
    }
    fprintf(out, ",\"start\":%" PRIu64 ",\"end\":%" PRIu64 "}\n", it->start, it->end);
}

void write_lines(FILE *out, const struct first_pass_tree *tree) {
    for (size_t i = 0; i < tree->node_count; i++) {
        const struct first_pass_node *node = &tree->nodes[i];
        fprintf(out, "{\"kind\":\"%s\",\"depth\":%" PRIu32 ",\"start\":%" PRIu32 ",\"end\":%" PRIu32,
                first_pass_kind_name(node->kind), node->depth, node->start, node->end);
        write_members(out, tree, node);
        fputs("}\n", out);
    }
    for (size_t i = 0; i < tree->link_count; i++) {
        write_definition(out, tree, &tree->definitions[i]);
    }
    for (size_t i = tree->link_count; i < tree->definition_count; i++) {
        fputs("{\"footnote\":", out);
        write_string(out, tree->strings + tree->definitions[i].label, tree->definitions[i].label_length);
        fputs("}\n", out);
    }
}
