/**
 * @file first_pass.h
 * @brief The blocks of a Markdown text, as a tree with byte ranges.
 *
 * The default is CommonMark without extensions: options of 0, which is FIRST_PASS_OPT_COMMONMARK. Other sets are
 * FIRST_PASS_OPT_GITHUB, FIRST_PASS_OPT_DOCS and FIRST_PASS_OPT_ALL.
 *
 *     struct first_pass_tree *tree;
 *     if (first_pass_parse(text, length, FIRST_PASS_OPT_COMMONMARK, NULL, &tree) == FIRST_PASS_OK) {
 *         for (size_t i = 0; i < tree->node_count; i++) {
 *             printf("%s %u..%u\n", first_pass_kind_name(tree->nodes[i].kind), tree->nodes[i].start,
 *                    tree->nodes[i].end);
 *         }
 *         first_pass_tree_free(tree);
 *     }
 *
 * A text is bytes of UTF-8. A tree holds no pointer into its text: a range is two offsets, counted in bytes. The text
 * may be freed as soon as the call returns. first_pass_places() and first_pass_line_column() give the line and the
 * column of an offset.
 *
 * first_pass_parse_into(), first_pass_fold() and first_pass_string_range() are proved. The other calls are C, and are
 * tested.
 *
 * No call prints, ends the process or keeps state. Any number of calls may run at the same time, and a tree may be
 * read in any number of threads. A call may not be made from a signal handler.
 *
 * Unless a call says otherwise, no pointer may be NULL.
 */
#ifndef FIRST_PASS_H
#define FIRST_PASS_H

#include <stddef.h>
#include <stdint.h>

/** The version of this header, as first_pass_version() has that of the library. */
#define FIRST_PASS_VERSION_MAJOR 0
#define FIRST_PASS_VERSION_MINOR 1 /**< see FIRST_PASS_VERSION_MAJOR */
#define FIRST_PASS_VERSION_PATCH 0 /**< see FIRST_PASS_VERSION_MAJOR */

/** Marks a call that the libraries export. */
#if defined(__GNUC__)
#define FIRST_PASS_API __attribute__((visibility("default")))
#else
#define FIRST_PASS_API
#endif

#ifdef __cplusplus
extern "C" {
#endif

/** Options: which extensions of CommonMark are read, and four sets of them. Several are joined by `|`. */
enum first_pass_option {
    FIRST_PASS_OPT_COMMONMARK = 0, /**< the set without extensions */
    FIRST_PASS_OPT_TABLES = 1 << 1,
    FIRST_PASS_OPT_FOOTNOTES = 1 << 2, /**< footnote definitions, as GitHub has them */
    FIRST_PASS_OPT_STRIKETHROUGH = 1 << 3,
    FIRST_PASS_OPT_TASKLISTS = 1 << 4,
    FIRST_PASS_OPT_SMART_PUNCTUATION = 1 << 5,
    FIRST_PASS_OPT_HEADING_ATTRIBUTES = 1 << 6,
    FIRST_PASS_OPT_YAML_STYLE_METADATA_BLOCKS = 1 << 7,
    FIRST_PASS_OPT_PLUSES_DELIMITED_METADATA_BLOCKS = 1 << 8,
    FIRST_PASS_OPT_OLD_FOOTNOTES = (1 << 9) | (1 << 2), /**< footnote definitions in their old form */
    FIRST_PASS_OPT_MATH = 1 << 10,
    FIRST_PASS_OPT_GFM = 1 << 11, /**< tags of block quotes, as `> [!NOTE]` */
    FIRST_PASS_OPT_DEFINITION_LIST = 1 << 12,
    FIRST_PASS_OPT_SUPERSCRIPT = 1 << 13,
    FIRST_PASS_OPT_SUBSCRIPT = 1 << 14,
    FIRST_PASS_OPT_WIKILINKS = 1 << 15, /**< accepted, without an effect */
    FIRST_PASS_OPT_GITHUB = 2078,       /**< the set of GitHub: tables, footnotes, strikethrough, tasklists and gfm */
    /** the set of documentation: that of GitHub, YAML metadata, heading attributes, math and definition lists */
    FIRST_PASS_OPT_DOCS = 7390,
    FIRST_PASS_OPT_ALL = 65534 /**< the set of all extensions */
};

/** How a call ended. */
enum first_pass_status {
    FIRST_PASS_OK = 0,
    FIRST_PASS_OUT_OF_MEMORY = 1, /**< a request for memory was refused */
    FIRST_PASS_NOT_UTF8 = 2,      /**< the text is not UTF-8 */
    FIRST_PASS_BAD_OPTIONS = 3,   /**< a bit of the options stands for no option */
    FIRST_PASS_TOO_SMALL = 4,     /**< only of calls that fill arrays of the caller: an array is too short */
    FIRST_PASS_TOO_LONG = 5       /**< the text has 4 GiB or more, or a number of a node takes more than 32 bits */
};

/**
 * Kinds of nodes. A number never changes, and new kinds come after the last one. A reader takes a node of a kind that
 * it doesn't know as one without values.
 *
 * Each comment says which values a node of the kind has, besides its range, and how they are read. A call that is
 * named like a kind reads a value of that kind: first_pass_list_is_tight() that of a list. A string is read by
 * first_pass_node_string().
 */
enum first_pass_kind {
    FIRST_PASS_NODE_ROOT = 0,
    FIRST_PASS_NODE_PARAGRAPH = 1,
    FIRST_PASS_NODE_TIGHT_PARAGRAPH = 2, /**< a paragraph directly in an item or a definition of a tight list */
    FIRST_PASS_NODE_RULE = 3,
    /**
     * first_pass_heading_level(), first_pass_heading_has_attribute_block(), first_pass_heading_attributes(),
     * first_pass_heading_attribute_count()
     */
    FIRST_PASS_NODE_HEADING = 4,
    /**
     * The string is its info string. The code is that of its children, one after the other: the string of a
     * FIRST_PASS_NODE_SYNTHESIZE_TEXT, which has the spaces that are left of a tab, and the bytes of any other. Each
     * line then has its line ending, of which CR LF is a newline alone.
     */
    FIRST_PASS_NODE_FENCED_CODE_BLOCK = 5,
    FIRST_PASS_NODE_INDENT_CODE_BLOCK = 6, /**< its code is read as that of a fenced code block */
    FIRST_PASS_NODE_HTML_BLOCK = 7,
    FIRST_PASS_NODE_BLOCK_QUOTE = 8, /**< first_pass_block_quote_kind() */
    /** first_pass_list_is_tight(), first_pass_list_byte(), first_pass_list_number() */
    FIRST_PASS_NODE_LIST = 9,
    FIRST_PASS_NODE_LIST_ITEM = 10,                   /**< first_pass_list_item_columns() */
    FIRST_PASS_NODE_FOOTNOTE_DEFINITION = 11,         /**< the string is its label */
    FIRST_PASS_NODE_METADATA_BLOCK = 12,              /**< first_pass_metadata_block_has_pluses() */
    FIRST_PASS_NODE_DEFINITION_LIST = 13,             /**< first_pass_definition_list_is_tight() */
    FIRST_PASS_NODE_MAYBE_DEFINITION_LIST_TITLE = 14, /**< in no tree that a call returns */
    FIRST_PASS_NODE_DEFINITION_LIST_TITLE = 15,
    FIRST_PASS_NODE_DEFINITION_LIST_DEFINITION = 16, /**< first_pass_definition_list_definition_columns() */
    /** the string has a byte for each column: `-` not aligned, `l` left, `c` centered, `r` right */
    FIRST_PASS_NODE_TABLE = 17,
    FIRST_PASS_NODE_TABLE_HEAD = 18,
    FIRST_PASS_NODE_TABLE_ROW = 19,
    FIRST_PASS_NODE_TABLE_CELL = 20,
    FIRST_PASS_NODE_TEXT = 21, /**< first_pass_text_is_escaped() */
    FIRST_PASS_NODE_SOFT_BREAK = 22,
    FIRST_PASS_NODE_HARD_BREAK = 23, /**< first_pass_hard_break_is_by_backslash() */
    /**
     * first_pass_maybe_emphasis_remaining(), first_pass_maybe_emphasis_can_open(),
     * first_pass_maybe_emphasis_can_close()
     */
    FIRST_PASS_NODE_MAYBE_EMPHASIS = 24,
    /**
     * first_pass_maybe_math_context(), first_pass_maybe_math_can_open(),
     * first_pass_maybe_math_can_close()
     */
    FIRST_PASS_NODE_MAYBE_MATH = 25,
    /**
     * first_pass_maybe_smart_quote_byte(), first_pass_maybe_smart_quote_can_open(),
     * first_pass_maybe_smart_quote_can_close()
     */
    FIRST_PASS_NODE_MAYBE_SMART_QUOTE = 26,
    FIRST_PASS_NODE_MAYBE_CODE = 27, /**< first_pass_maybe_code_count(), first_pass_maybe_code_is_escaped() */
    FIRST_PASS_NODE_MAYBE_HTML = 28,
    FIRST_PASS_NODE_MAYBE_LINK_OPEN = 29,
    FIRST_PASS_NODE_MAYBE_LINK_CLOSE = 30, /**< first_pass_maybe_link_close_is_active() */
    FIRST_PASS_NODE_MAYBE_IMAGE = 31,
    FIRST_PASS_NODE_HTML = 32,
    FIRST_PASS_NODE_SYNTHESIZE_TEXT = 33, /**< the string stands for the bytes of its range */
    FIRST_PASS_NODE_SYNTHESIZE_CHAR = 34, /**< first_pass_synthesize_char_character() */
    FIRST_PASS_NODE_TASK_LIST_MARKER = 35 /**< first_pass_task_list_marker_is_checked() */
};

/** The kind that a tag gives a block quote. */
enum first_pass_quote {
    FIRST_PASS_QUOTE_PLAIN = 0,
    FIRST_PASS_QUOTE_NOTE = 1,
    FIRST_PASS_QUOTE_TIP = 2,
    FIRST_PASS_QUOTE_IMPORTANT = 3,
    FIRST_PASS_QUOTE_WARNING = 4,
    FIRST_PASS_QUOTE_CAUTION = 5
};

/**
 * A node: 32 bytes, on every machine. Nodes stand in reading order, and the first one is the root.
 *
 * Ranges nest: siblings never overlap, and a node lies within its parent. There is one exception: a task list item
 * marker may start before the paragraph, the heading or the title of a definition list that it is the first child of.
 * It then lies in the same list item.
 *
 * The values of a kind are read by the calls that enum first_pass_kind names. `number`, `first`, `second` and `third`
 * hold them. Those that a kind doesn't use are 0.
 */
struct first_pass_node {
    uint32_t start;         /**< the range in the text: its first byte */
    uint32_t end;           /**< and the byte after its last one */
    uint32_t depth;         /**< how many nodes it lies in: 0 for the root */
    uint32_t next;          /**< the index of the first later node that is not deeper, or the number of nodes */
    uint32_t string_start;  /**< its string's offset in the strings; of a heading, the index of its first attribute */
    uint32_t string_length; /**< how many bytes its string has; of a heading, how many attributes it has */
    uint32_t number;        /**< a number that the kind has */
    uint8_t kind;           /**< enum first_pass_kind, or a newer kind */
    uint8_t first;          /**< a small value that the kind has */
    uint8_t second;         /**< another one */
    uint8_t third;          /**< and another one */
};

/** What an attribute of a heading is. */
enum first_pass_attribute_kind {
    FIRST_PASS_ATTRIBUTE_ID = 0,    /**< `{#id}` */
    FIRST_PASS_ATTRIBUTE_CLASS = 1, /**< `{.class}` */
    FIRST_PASS_ATTRIBUTE_KEY = 2    /**< `{key}` or `{key=value}` */
};

/** An attribute of a heading: 40 bytes. Those of a heading stand together: its id, its classes, its keys. */
struct first_pass_attribute {
    uint64_t name;         /**< the offset of the id, the class or the key in the strings */
    uint64_t name_length;  /**< its length */
    uint64_t value;        /**< the offset of the key's value in the strings */
    uint64_t value_length; /**< its length */
    uint32_t has_value;    /**< whether the key has a value, which may be empty */
    uint32_t kind;         /**< enum first_pass_attribute_kind */
};

/**
 * A link reference definition, or the label of a footnote: 104 bytes. Of a footnote's label only `label` and
 * `label_length` have a meaning. Only the first definition of a label is there. A label has each run of white space as
 * one space, also at its ends: `[a]`, `[ a]`, `[a ]` and `[ a ]` may each have a record, of which
 * first_pass_find_definition() finds the one that counts.
 */
struct first_pass_definition {
    uint64_t start;              /**< the range in the text: its first byte */
    uint64_t end;                /**< and the byte after its last one */
    uint64_t label;              /**< the offset of the label, as it is spelled, in the strings */
    uint64_t label_length;       /**< its length */
    uint64_t destination;        /**< the offset of the destination in the strings */
    uint64_t destination_length; /**< its length */
    uint64_t title;              /**< the offset of the title in the strings */
    uint64_t title_length;       /**< its length */
    uint64_t has_title;          /**< whether there is a title, which may be empty */
    uint64_t label_end;          /**< the offset in the text of the `]` after the label */
    uint64_t destination_start;  /**< the range in the text of the destination, with its angle brackets */
    uint64_t destination_end;    /**< and the byte after it */
    uint64_t title_start;        /**< the offset in the text of what begins the title; without one, `end` */
};

/** How many records a tree takes: 40 bytes. */
struct first_pass_counts {
    uint64_t nodes;        /**< nodes, with the root */
    uint64_t attributes;   /**< attributes of all headings */
    uint64_t definitions;  /**< link definitions and labels of footnotes */
    uint64_t links;        /**< link definitions, which stand before the labels of footnotes */
    uint64_t string_bytes; /**< bytes of the strings */
};

/**
 * @brief Parses a text into arrays of the caller. This call is proved.
 *
 * It is for callers that use memory again, and for other languages. first_pass_parse() does the same with memory of
 * its own.
 *
 * Each array is given with its capacity, which is how many records it can hold. No two arrays may overlap, and none
 * may overlap the text. The pointers may not be NULL and have to be aligned, even if a capacity is 0.
 *
 * @param[in] text bytes of UTF-8
 * @param[in] length how many there are
 * @param[in] options values of enum first_pass_option, joined by `|`
 * @param[out] nodes the nodes
 * @param[in] node_capacity how many it can hold
 * @param[out] attributes the attributes of all headings
 * @param[in] attribute_capacity how many it can hold
 * @param[out] definitions the link definitions and, after them, the labels of footnotes, both sorted by folding
 * @param[in] definition_capacity how many it can hold
 * @param[out] strings the bytes of all strings, without a NUL after one
 * @param[in] string_capacity how many bytes it can hold
 * @param[out] counts at FIRST_PASS_OK how many records were written; at FIRST_PASS_TOO_SMALL how many there are
 * @return enum first_pass_status. At FIRST_PASS_OK nothing is changed in an array after the records that were written.
 *     At FIRST_PASS_TOO_LONG the arrays may hold anything; at any other status they are unchanged.
 */
FIRST_PASS_API uint32_t first_pass_parse_into(const uint8_t *text, size_t length, uint32_t options,
                                              struct first_pass_node *nodes, size_t node_capacity,
                                              struct first_pass_attribute *attributes, size_t attribute_capacity,
                                              struct first_pass_definition *definitions, size_t definition_capacity,
                                              uint8_t *strings, size_t string_capacity,
                                              struct first_pass_counts *counts);

/** The arrays of first_pass_parse_into(), each with its capacity: 64 bytes. */
struct first_pass_arrays {
    struct first_pass_node *nodes;             /**< for the nodes */
    size_t node_capacity;                      /**< how many nodes it can hold */
    struct first_pass_attribute *attributes;   /**< for the attributes of all headings */
    size_t attribute_capacity;                 /**< how many attributes it can hold */
    struct first_pass_definition *definitions; /**< for the link definitions and the labels of footnotes */
    size_t definition_capacity;                /**< how many definitions and labels it can hold */
    uint8_t *strings;                          /**< for the bytes of all strings */
    size_t string_capacity;                    /**< how many bytes it can hold */
};

/**
 * @brief Parses a text into arrays that are used for many texts. It does the same as first_pass_parse_into() with
 * fewer arguments, each of which takes time in some languages.
 *
 * @param[in] text bytes of UTF-8
 * @param[in] length how many there are
 * @param[in] options values of enum first_pass_option, joined by `|`
 * @param[in] arrays the arrays and their capacities, as for first_pass_parse_into()
 * @param[out] counts as for first_pass_parse_into()
 * @return enum first_pass_status, as for first_pass_parse_into()
 */
FIRST_PASS_API uint32_t first_pass_parse_into_arrays(const uint8_t *text, size_t length, uint32_t options,
                                                     const struct first_pass_arrays *arrays,
                                                     struct first_pass_counts *counts);

/**
 * @brief Writes the case folding of a label, by which labels match and link definitions are sorted. This call is
 * proved.
 *
 * @param[in] label bytes of UTF-8; not NULL, even if there are none
 * @param[in] length how many there are
 * @param[out] folded the folding; not NULL, even if `capacity` is 0
 * @param[in] capacity how many bytes it can hold
 * @param[out] folded_length how many bytes the folding has, at FIRST_PASS_OK and at FIRST_PASS_TOO_SMALL
 * @return FIRST_PASS_OK, FIRST_PASS_OUT_OF_MEMORY, FIRST_PASS_NOT_UTF8 or FIRST_PASS_TOO_SMALL. At each but
 *     FIRST_PASS_OK the array is unchanged.
 */
FIRST_PASS_API uint32_t first_pass_fold(const uint8_t *label, size_t length, uint8_t *folded, size_t capacity,
                                        size_t *folded_length);

/** A range of a text: 16 bytes. */
struct first_pass_range {
    uint64_t start; /**< its first byte */
    uint64_t end;   /**< and the byte after its last one */
};

/**
 * @brief Finds where a text has the string of a node, or the attributes of a heading. This call is proved.
 *
 * Of a fenced code block it is the info string, of a footnote definition the label, and of a heading what is between
 * the braces of its attribute block. The range has the bytes as they are written, with escapes and references. A label
 * that crosses lines includes the prefixes of containers. If the node is one of the text's tree, both ends of the
 * range are on character boundaries. Nothing is allocated.
 *
 * @param[in] text the text that the node is of; not NULL, even if `length` is 0
 * @param[in] length how many bytes it has
 * @param[in] node a node of its tree
 * @param[out] range the range, which may be empty; unchanged if 0 is returned
 * @return 1; or 0 for a node of another kind, for a heading without an attribute block, or if the node's own range is
 *     not in the text
 */
FIRST_PASS_API uint32_t first_pass_string_range(const char *text, size_t length, const struct first_pass_node *node,
                                                struct first_pass_range *range);

/** A place in a text, as people and editors count: 24 bytes. Lines and columns are counted from 1. */
struct first_pass_place {
    size_t line;         /**< a line ends at a newline, a carriage return, or both */
    size_t column;       /**< in bytes of UTF-8 */
    size_t utf16_column; /**< in units of UTF-16: a character above U+FFFF takes two */
};

/**
 * @brief How many places the table of a text takes, which first_pass_places() fills.
 *
 * They take about a tenth of the text's bytes.
 *
 * @param[in] length how many bytes the text has
 */
FIRST_PASS_API size_t first_pass_place_count(size_t length);

/**
 * @brief Fills the table of a text, by which first_pass_line_column() finds lines and columns. Nothing is allocated.
 *
 * The table has the places of offsets at equal distances.
 *
 * @param[in] text bytes of UTF-8; not NULL, even if `length` is 0
 * @param[in] length how many there are
 * @param[out] places an array for first_pass_place_count(length) places
 */
FIRST_PASS_API void first_pass_places(const char *text, size_t length, struct first_pass_place *places);

/**
 * @brief Finds the line and the columns of an offset, such as the start of a node. Nothing is allocated.
 *
 * It reads less than 256 bytes, however long a line is. The offset between a carriage return and its newline is in the
 * line that they end. An offset within a character has the UTF-16 column of the character's end.
 *
 * @param[in] text the text that the table was filled for; not NULL, even if `length` is 0
 * @param[in] length how many bytes it has
 * @param[in] places its table
 * @param[in] offset in bytes; `length` is that of the end of the text
 * @param[out] place the place; unchanged if 0 is returned
 * @return 1; or 0 if the offset is after the end of the text
 */
FIRST_PASS_API uint32_t first_pass_line_column(const char *text, size_t length, const struct first_pass_place *places,
                                               size_t offset, struct first_pass_place *place);

/**
 * @brief How many bytes the byte order mark takes that a text begins with: 3, or 0 if there is none.
 *
 * first_pass_parse() takes a byte order mark for a character of the text. To leave it out, hand the bytes after it to
 * each call. Then all offsets are counted from there.
 *
 * @param[in] text bytes; may be NULL if `length` is 0
 * @param[in] length how many there are
 */
static inline size_t first_pass_bom_length(const char *text, size_t length) {
    return length >= 3 && text[0] == '\xEF' && text[1] == '\xBB' && text[2] == '\xBF' ? 3 : 0;
}

/**
 * @brief Where memory comes from.
 *
 * The functions are called only in the thread of a call that was given this allocator, or a tree made with it, and
 * only while that call runs. If threads share such a tree, several may call them at once. They have to return: neither
 * longjmp nor an exception may leave them. They may call this library. Then first_pass_parse_into() and
 * first_pass_fold() take their memory from them too.
 */
struct first_pass_allocator {
    /** Returns a block of at least `bytes` bytes, which are not 0, aligned to 16; or NULL, which refuses. */
    void *(*allocate)(void *data, size_t bytes);
    /** Changes the size of a block, also to a smaller one; NULL refuses, and then the block stays as it is. */
    void *(*resize)(void *data, void *block, size_t bytes);
    /** Takes a block back. */
    void (*release)(void *data, void *block);
    void *data; /**< handed to each of them; may be NULL */
};

/**
 * A tree with its tables, which may be read and not be changed. All of it is one block of memory.
 */
struct first_pass_tree {
    const struct first_pass_node *nodes;             /**< in reading order */
    size_t node_count;                               /**< how many there are */
    const struct first_pass_attribute *attributes;   /**< those of all headings, in reading order */
    size_t attribute_count;                          /**< how many there are */
    const struct first_pass_definition *definitions; /**< link definitions, then labels of footnotes, both sorted */
    size_t definition_count;                         /**< how many both are */
    size_t link_count;                               /**< how many link definitions there are */
    const char *strings;                             /**< the bytes of all strings: UTF-8, with no NUL after one */
    size_t string_bytes;                             /**< how many there are */
};

/**
 * @brief Parses a text into a new tree.
 *
 * @param[in] text bytes of UTF-8; may be NULL if `length` is 0
 * @param[in] length how many there are
 * @param[in] options values of enum first_pass_option, joined by `|`
 * @param[in] allocator where memory comes from, copied into the tree; NULL for malloc, realloc and free
 * @param[out] tree the tree, which the caller frees by first_pass_tree_free(); NULL unless FIRST_PASS_OK is returned
 * @return any status but FIRST_PASS_TOO_SMALL
 */
FIRST_PASS_API enum first_pass_status first_pass_parse(const char *text, size_t length, uint32_t options,
                                                       const struct first_pass_allocator *allocator,
                                                       struct first_pass_tree **tree);

/**
 * @brief Frees a tree.
 *
 * @param[in] tree may be NULL
 */
FIRST_PASS_API void first_pass_tree_free(struct first_pass_tree *tree);

/**
 * @brief Finds the link definition that a label refers to.
 *
 * Labels match as in CommonMark 4.7: letter case and white space at the ends of a label are ignored, and a run of
 * white space is the same as one space. Of the definitions of a label the one that begins first in the text is found.
 * A label of white space alone has none.
 *
 * @param[in] tree the tree that has it
 * @param[in] label the bytes between the brackets, without the prefixes of containers; may be NULL if `length` is 0
 * @param[in] length how many there are
 * @param[out] found the definition, which lives as long as the tree; NULL if there is none, or at another status
 * @return FIRST_PASS_OK, even if there is none; FIRST_PASS_NOT_UTF8; or FIRST_PASS_OUT_OF_MEMORY
 */
FIRST_PASS_API enum first_pass_status first_pass_find_definition(const struct first_pass_tree *tree, const char *label,
                                                                 size_t length,
                                                                 const struct first_pass_definition **found);

/** A function that is called with a node, and with what first_pass_walk() was given for it. */
typedef int first_pass_visit(const struct first_pass_node *node, void *data);

/** What first_pass_walk() returns if it got no memory. */
#define FIRST_PASS_WALK_OUT_OF_MEMORY (-0x7fffffff)

/**
 * @brief Calls `enter` with each node before its children, and `leave` with it after them.
 *
 * It ends at the first call that returns a value other than 0. It doesn't recurse. Only for a tree of more than 64
 * levels it asks for memory, once and before the first call.
 *
 * @param[in] tree the tree
 * @param[in] enter may be NULL
 * @param[in] leave may be NULL
 * @param[in] data handed to both
 * @return that value; 0 at the end; FIRST_PASS_WALK_OUT_OF_MEMORY
 */
FIRST_PASS_API int first_pass_walk(const struct first_pass_tree *tree, first_pass_visit *enter,
                                   first_pass_visit *leave, void *data);

/** @brief The name of a kind, as "Heading"; "?" for an unknown one. */
FIRST_PASS_API const char *first_pass_kind_name(uint8_t kind);

/** @brief The name of an option, as "tables"; "?" for a value that is no single option. */
FIRST_PASS_API const char *first_pass_option_name(uint32_t option);

/** @brief The value of an option by its name, in which `-` may stand for `_`; 0 for an unknown name. */
FIRST_PASS_API uint32_t first_pass_option_value(const char *name);

/** @brief What a status means, as "out of memory"; "unknown status" for an unknown one. */
FIRST_PASS_API const char *first_pass_status_message(uint32_t status);

/** @brief The version of the library, as "0.1.0". */
FIRST_PASS_API const char *first_pass_version(void);

/**
 * @brief The string of a node: `string_length` bytes, and no NUL after them. NULL for a heading, which has attributes.
 */
static inline const char *first_pass_node_string(const struct first_pass_tree *tree,
                                                 const struct first_pass_node *node) {
    return node->kind == FIRST_PASS_NODE_HEADING ? NULL : tree->strings + node->string_start;
}

/**
 * @name The values of a kind
 * Each of these calls is named like the kind that it reads, and returns 0 or NULL for a node of another kind. A truth
 * value is 0 or 1.
 * @{
 */

/** @brief The level of a heading, 1 to 6. */
static inline int first_pass_heading_level(const struct first_pass_node *node) {
    return node->kind == FIRST_PASS_NODE_HEADING ? node->first : 0;
}

/** @brief Whether a heading has an attribute block, which may be empty as `{}`. */
static inline int first_pass_heading_has_attribute_block(const struct first_pass_node *node) {
    return node->kind == FIRST_PASS_NODE_HEADING ? node->second : 0;
}

/** @brief How many attributes a heading has. */
static inline uint32_t first_pass_heading_attribute_count(const struct first_pass_node *node) {
    return node->kind == FIRST_PASS_NODE_HEADING ? node->string_length : 0;
}

/** @brief The attributes of a heading; NULL if it has none. */
static inline const struct first_pass_attribute *first_pass_heading_attributes(const struct first_pass_tree *tree,
                                                                               const struct first_pass_node *node) {
    return first_pass_heading_attribute_count(node) > 0 ? tree->attributes + node->string_start : NULL;
}

/** @brief The kind that a tag gives a block quote: enum first_pass_quote. */
static inline int first_pass_block_quote_kind(const struct first_pass_node *node) {
    return node->kind == FIRST_PASS_NODE_BLOCK_QUOTE ? node->first : 0;
}

/** @brief Whether a list is tight. */
static inline int first_pass_list_is_tight(const struct first_pass_node *node) {
    return node->kind == FIRST_PASS_NODE_LIST ? node->first : 0;
}

/** @brief The byte of a list's markers: `-`, `+` or `*`; `.` or `)` after numbers. */
static inline char first_pass_list_byte(const struct first_pass_node *node) {
    return node->kind == FIRST_PASS_NODE_LIST ? (char)node->second : '\0';
}

/** @brief The first number of a list; 0 of one without numbers. */
static inline uint32_t first_pass_list_number(const struct first_pass_node *node) {
    return node->kind == FIRST_PASS_NODE_LIST ? node->number : 0;
}

/** @brief How many columns a line needs to continue a list item. */
static inline uint32_t first_pass_list_item_columns(const struct first_pass_node *node) {
    return node->kind == FIRST_PASS_NODE_LIST_ITEM ? node->number : 0;
}

/** @brief Whether a metadata block is between `+++`, and not between `---`. */
static inline int first_pass_metadata_block_has_pluses(const struct first_pass_node *node) {
    return node->kind == FIRST_PASS_NODE_METADATA_BLOCK ? node->first : 0;
}

/** @brief Whether a definition list is tight. */
static inline int first_pass_definition_list_is_tight(const struct first_pass_node *node) {
    return node->kind == FIRST_PASS_NODE_DEFINITION_LIST ? node->first : 0;
}

/** @brief How many columns a line needs to continue a definition of a definition list. */
static inline uint32_t first_pass_definition_list_definition_columns(const struct first_pass_node *node) {
    return node->kind == FIRST_PASS_NODE_DEFINITION_LIST_DEFINITION ? node->number : 0;
}

/** @brief Whether a backslash before a text was dropped. */
static inline int first_pass_text_is_escaped(const struct first_pass_node *node) {
    return node->kind == FIRST_PASS_NODE_TEXT ? node->first : 0;
}

/** @brief Whether a backslash makes a hard break, and not spaces. */
static inline int first_pass_hard_break_is_by_backslash(const struct first_pass_node *node) {
    return node->kind == FIRST_PASS_NODE_HARD_BREAK ? node->first : 0;
}

/** @brief How many delimiters of a run are left, this one counted. */
static inline uint32_t first_pass_maybe_emphasis_remaining(const struct first_pass_node *node) {
    return node->kind == FIRST_PASS_NODE_MAYBE_EMPHASIS ? node->number : 0;
}

/** @brief Whether a delimiter of emphasis can open. */
static inline int first_pass_maybe_emphasis_can_open(const struct first_pass_node *node) {
    return node->kind == FIRST_PASS_NODE_MAYBE_EMPHASIS ? node->first : 0;
}

/** @brief Whether a delimiter of emphasis can close. */
static inline int first_pass_maybe_emphasis_can_close(const struct first_pass_node *node) {
    return node->kind == FIRST_PASS_NODE_MAYBE_EMPHASIS ? node->second : 0;
}

/** @brief The brace context of a dollar sign. */
static inline uint32_t first_pass_maybe_math_context(const struct first_pass_node *node) {
    return node->kind == FIRST_PASS_NODE_MAYBE_MATH ? node->number : 0;
}

/** @brief Whether a dollar sign can open. */
static inline int first_pass_maybe_math_can_open(const struct first_pass_node *node) {
    return node->kind == FIRST_PASS_NODE_MAYBE_MATH ? node->first : 0;
}

/** @brief Whether a dollar sign can close. */
static inline int first_pass_maybe_math_can_close(const struct first_pass_node *node) {
    return node->kind == FIRST_PASS_NODE_MAYBE_MATH ? node->second : 0;
}

/** @brief The byte of a quotation mark. */
static inline char first_pass_maybe_smart_quote_byte(const struct first_pass_node *node) {
    return node->kind == FIRST_PASS_NODE_MAYBE_SMART_QUOTE ? (char)node->second : '\0';
}

/** @brief Whether a quotation mark can open. */
static inline int first_pass_maybe_smart_quote_can_open(const struct first_pass_node *node) {
    return node->kind == FIRST_PASS_NODE_MAYBE_SMART_QUOTE ? node->first : 0;
}

/** @brief Whether a quotation mark can close. */
static inline int first_pass_maybe_smart_quote_can_close(const struct first_pass_node *node) {
    return node->kind == FIRST_PASS_NODE_MAYBE_SMART_QUOTE ? node->third : 0;
}

/** @brief How many backquotes a run has. */
static inline uint32_t first_pass_maybe_code_count(const struct first_pass_node *node) {
    return node->kind == FIRST_PASS_NODE_MAYBE_CODE ? node->number : 0;
}

/** @brief Whether a backslash precedes a run of backquotes. */
static inline int first_pass_maybe_code_is_escaped(const struct first_pass_node *node) {
    return node->kind == FIRST_PASS_NODE_MAYBE_CODE ? node->first : 0;
}

/** @brief Whether a `]` is active: 1 in each tree of this version. */
static inline int first_pass_maybe_link_close_is_active(const struct first_pass_node *node) {
    return node->kind == FIRST_PASS_NODE_MAYBE_LINK_CLOSE ? node->first : 0;
}

/** @brief The character that stands for the bytes of the range, as a code point. */
static inline uint32_t first_pass_synthesize_char_character(const struct first_pass_node *node) {
    return node->kind == FIRST_PASS_NODE_SYNTHESIZE_CHAR ? node->number : 0;
}

/** @brief Whether a task is checked. */
static inline int first_pass_task_list_marker_is_checked(const struct first_pass_node *node) {
    return node->kind == FIRST_PASS_NODE_TASK_LIST_MARKER ? node->first : 0;
}

/** @} */

/**
 * @brief The index of a node's first child, or 0 if it has none.
 *
 * The children of node `i` are visited by
 * `for (size_t c = first_pass_first_child(tree, i); c != 0; c = first_pass_next_sibling(tree, c))`.
 */
static inline size_t first_pass_first_child(const struct first_pass_tree *tree, size_t i) {
    return tree->nodes[i].next > i + 1 ? i + 1 : 0;
}

/** @brief The index of a node's next sibling, or 0 if it has none. */
static inline size_t first_pass_next_sibling(const struct first_pass_tree *tree, size_t i) {
    size_t next = tree->nodes[i].next;
    return next < tree->node_count && tree->nodes[next].depth == tree->nodes[i].depth ? next : 0;
}

#ifdef __cplusplus
}
#endif

#endif
