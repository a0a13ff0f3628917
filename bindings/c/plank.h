/* The Plank script reader, for C (C11) and C++ (C++11). The library is libexports.a, which `bindings/library.sh`
 * writes.
 *
 * Which names to use:
 *   plank_checked_lex, plank_checked_read      a text to words
 *   plank_const_decl_name, plank_expr, ..      what a node says, one function for each accessor ("Views" below)
 *   plank_first_child, plank_next_sibling      the children of a node, one link at a time
 *   plank_node_at, plank_report_at, ..         words taken apart
 *   PLANK_TOKEN_.., PLANK_NODE_.., ..          the numbers
 * All of these may be given a null pointer with length 0, and answer a null pointer with a length above 0, slices
 * that overlap and lengths that no memory has by a number of their own (enum plank_misuses). The library's own
 * symbols are plank_lex, plank_lex_branching, plank_read, plank_view, plank_view_span and plank_view_count. They are
 * proved for all slices, but a slice is a promise of the caller's: pointers that aren't null, are aligned and stand
 * for so much memory, and none that is written overlapping another. The checked functions keep that promise where it
 * can be checked.
 *
 * Who owns what: the caller owns all memory. The library allocates nothing, keeps no pointer after it returns, has no
 * state, and may be called from several threads at once. A text is only read; it needs no 0 at its end. Reading the
 * deepest texts takes 284 KB of stack, as measured: give a thread that reads 1 MiB or more.
 *
 * docs/FORMAT.md says what the words mean.
 */
#ifndef PLANK_H
#define PLANK_H

#include <stddef.h>
#include <stdint.h>

#ifdef __cplusplus
extern "C" {
#endif

/* ---- Numbers. A test of bindings/rust compares each with the Rattle source that is named above it. */

/* The kinds of a token (crates/words/src/token.rt). */
enum plank_token_kinds {
    PLANK_TOKEN_SEMICOLON = 0,
    PLANK_TOKEN_COMMA = 1,
    PLANK_TOKEN_COLON = 2,
    PLANK_TOKEN_DOT = 3,
    PLANK_TOKEN_DOLLAR = 4,
    PLANK_TOKEN_LEFT_CURLY = 5,
    PLANK_TOKEN_RIGHT_CURLY = 6,
    PLANK_TOKEN_LEFT_ROUND = 7,
    PLANK_TOKEN_RIGHT_ROUND = 8,
    PLANK_TOKEN_LEFT_SQUARE = 9,
    PLANK_TOKEN_RIGHT_SQUARE = 10,
    PLANK_TOKEN_DOUBLE_COLON = 11,
    PLANK_TOKEN_FAT_ARROW = 12,
    PLANK_TOKEN_EQUALS = 13,
    PLANK_TOKEN_PLUS = 14,
    PLANK_TOKEN_PLUS_PERCENT = 15,
    PLANK_TOKEN_MINUS = 16,
    PLANK_TOKEN_MINUS_PERCENT = 17,
    PLANK_TOKEN_STAR = 18,
    PLANK_TOKEN_STAR_PERCENT = 19,
    PLANK_TOKEN_SLASH = 20,
    PLANK_TOKEN_PLUS_SLASH = 21,
    PLANK_TOKEN_MINUS_SLASH = 22,
    PLANK_TOKEN_LESS_SLASH = 23,
    PLANK_TOKEN_GREATER_SLASH = 24,
    PLANK_TOKEN_PERCENT = 25,
    PLANK_TOKEN_DOUBLE_EQUALS = 26,
    PLANK_TOKEN_BANG_EQUALS = 27,
    PLANK_TOKEN_LESS_THAN = 28,
    PLANK_TOKEN_GREATER_THAN = 29,
    PLANK_TOKEN_LESS_EQUALS = 30,
    PLANK_TOKEN_GREATER_EQUALS = 31,
    PLANK_TOKEN_BANG = 32,
    PLANK_TOKEN_AMPER_AMPER = 33,
    PLANK_TOKEN_PIPE_PIPE = 34,
    PLANK_TOKEN_AMPERSAND = 35,
    PLANK_TOKEN_PIPE = 36,
    PLANK_TOKEN_CARET = 37,
    PLANK_TOKEN_TILDE = 38,
    PLANK_TOKEN_SHIFT_LEFT = 39,
    PLANK_TOKEN_SHIFT_RIGHT = 40,
    PLANK_TOKEN_IF = 41,
    PLANK_TOKEN_ELSE = 42,
    PLANK_TOKEN_FN = 43,
    PLANK_TOKEN_EAGER = 44,
    PLANK_TOKEN_LET = 45,
    PLANK_TOKEN_MUT = 46,
    PLANK_TOKEN_CONST = 47,
    PLANK_TOKEN_INIT = 48,
    PLANK_TOKEN_RUN = 49,
    PLANK_TOKEN_STRUCT = 50,
    PLANK_TOKEN_TUPLE = 51,
    PLANK_TOKEN_RETURN = 52,
    PLANK_TOKEN_COMPTIME = 53,
    PLANK_TOKEN_INLINE = 54,
    PLANK_TOKEN_WHILE = 55,
    PLANK_TOKEN_TRUE = 56,
    PLANK_TOKEN_FALSE = 57,
    PLANK_TOKEN_AND = 58,
    PLANK_TOKEN_OR = 59,
    PLANK_TOKEN_PUB = 60,
    PLANK_TOKEN_USE = 61,
    PLANK_TOKEN_AS = 62,
    PLANK_TOKEN_MATCH = 63,
    PLANK_TOKEN_SELF_TYPE = 64,
    PLANK_TOKEN_IDENTIFIER = 65,
    PLANK_TOKEN_BUILTIN_NAME = 66,
    PLANK_TOKEN_DECIMAL_LITERAL = 67,
    PLANK_TOKEN_HEX_LITERAL = 68,
    PLANK_TOKEN_BIN_LITERAL = 69,
    PLANK_TOKEN_LOOSE_STRING_LITERAL = 70,
    PLANK_TOKEN_LOOSE_HEX_STRING_LITERAL = 71,
    PLANK_TOKEN_WHITESPACE = 72,
    PLANK_TOKEN_LINE_COMMENT = 73,
    PLANK_TOKEN_BLOCK_COMMENT = 74,
    PLANK_TOKEN_AT_WITHOUT_IDENT_ERROR = 75,
    PLANK_TOKEN_INVALID_CHAR_ERROR = 76,
    PLANK_TOKEN_MALFORMED_IDENT_ERROR = 77,
    PLANK_TOKEN_MULTILINE_STRING_ERROR = 78,
    PLANK_TOKEN_UNCLOSED_BLOCK_COMMENT_ERROR = 79,
    PLANK_TOKEN_UNCLOSED_STRING_ERROR = 80,
    PLANK_TOKEN_EOF = 81
};

/* The kinds of a node (crates/words/src/node.rt). */
enum plank_node_kinds {
    PLANK_NODE_FILE = 0,
    PLANK_NODE_CONST_DECL = 1,
    PLANK_NODE_IMPORT_DECL = 2,
    PLANK_NODE_IMPORT_AS_DECL = 3,
    PLANK_NODE_IMPORT_GROUP_DECL = 4,
    PLANK_NODE_IMPORT_GROUP_ITEM = 5,
    PLANK_NODE_INIT_BLOCK = 6,
    PLANK_NODE_RUN_BLOCK = 7,
    PLANK_NODE_COMPTIME_BLOCK = 8,
    PLANK_NODE_BLOCK = 9,
    PLANK_NODE_LET_STMT = 10,
    PLANK_NODE_RETURN_STMT = 11,
    PLANK_NODE_ASSIGN_STMT = 12,
    PLANK_NODE_WHILE_STMT = 13,
    PLANK_NODE_INLINE_WHILE_STMT = 14,
    PLANK_NODE_BINARY_EXPR = 15,
    PLANK_NODE_UNARY_EXPR = 16,
    PLANK_NODE_PAREN_EXPR = 17,
    PLANK_NODE_CALL_EXPR = 18,
    PLANK_NODE_MEMBER_EXPR = 19,
    PLANK_NODE_STRUCT_DEF = 20,
    PLANK_NODE_STRUCT_BODY = 21,
    PLANK_NODE_STRUCT_LIT = 22,
    PLANK_NODE_TUPLE_TYPE = 23,
    PLANK_NODE_TUPLE_LIT = 24,
    PLANK_NODE_IF = 25,
    PLANK_NODE_ELSE_IF_BRANCH_LIST = 26,
    PLANK_NODE_ELSE_IF_BRANCH = 27,
    PLANK_NODE_MATCH = 28,
    PLANK_NODE_MATCH_ARM_LIST = 29,
    PLANK_NODE_MATCH_ARM = 30,
    PLANK_NODE_MATCH_FALLBACK_ARM = 31,
    PLANK_NODE_BOOL_LITERAL = 32,
    PLANK_NODE_NUM_LITERAL = 33,
    PLANK_NODE_STRING_LITERAL = 34,
    PLANK_NODE_SELF_TYPE = 35,
    PLANK_NODE_IDENTIFIER = 36,
    PLANK_NODE_BUILTIN_NAME = 37,
    PLANK_NODE_FN_DEF = 38,
    PLANK_NODE_METHOD_DEF = 39,
    PLANK_NODE_PARAM_LIST = 40,
    PLANK_NODE_PARAMETER = 41,
    PLANK_NODE_COMPTIME_PARAMETER = 42,
    PLANK_NODE_PARAM_ANY_TYPE = 43,
    PLANK_NODE_OPERATOR = 44,
    PLANK_NODE_STATEMENTS_LIST = 45,
    PLANK_NODE_IMPORT_PATH = 46,
    PLANK_NODE_FIELD_DEF = 47,
    PLANK_NODE_FIELD_ASSIGN = 48,
    PLANK_NODE_ERROR = 49
};

/* The payload of a BinaryExpr (crates/words/src/binary_op.rt). */
enum plank_binary_ops {
    PLANK_BINARY_OP_OR = 0,
    PLANK_BINARY_OP_AND = 1,
    PLANK_BINARY_OP_DOUBLE_EQUALS = 2,
    PLANK_BINARY_OP_BANG_EQUALS = 3,
    PLANK_BINARY_OP_LESS_THAN = 4,
    PLANK_BINARY_OP_GREATER_THAN = 5,
    PLANK_BINARY_OP_LESS_EQUALS = 6,
    PLANK_BINARY_OP_GREATER_EQUALS = 7,
    PLANK_BINARY_OP_PIPE = 8,
    PLANK_BINARY_OP_CARET = 9,
    PLANK_BINARY_OP_AMPERSAND = 10,
    PLANK_BINARY_OP_SHIFT_LEFT = 11,
    PLANK_BINARY_OP_SHIFT_RIGHT = 12,
    PLANK_BINARY_OP_PLUS = 13,
    PLANK_BINARY_OP_MINUS = 14,
    PLANK_BINARY_OP_PLUS_PERCENT = 15,
    PLANK_BINARY_OP_MINUS_PERCENT = 16,
    PLANK_BINARY_OP_STAR = 17,
    PLANK_BINARY_OP_SLASH = 18,
    PLANK_BINARY_OP_PERCENT = 19,
    PLANK_BINARY_OP_STAR_PERCENT = 20,
    PLANK_BINARY_OP_PLUS_SLASH = 21,
    PLANK_BINARY_OP_MINUS_SLASH = 22,
    PLANK_BINARY_OP_LESS_SLASH = 23,
    PLANK_BINARY_OP_GREATER_SLASH = 24
};

/* The payload of a UnaryExpr (crates/words/src/unary_op.rt). */
enum plank_unary_ops {
    PLANK_UNARY_OP_MINUS = 0,
    PLANK_UNARY_OP_BANG = 1,
    PLANK_UNARY_OP_TILDE = 2
};

/* The flags in the payload of a node, each as the number that it adds (crates/words/src/flag.rt). */
enum plank_flags {
    PLANK_FLAG_CONST_DECL_TYPED = 1,
    PLANK_FLAG_IMPORT_DECL_PUBLIC = 2,
    PLANK_FLAG_IMPORT_DECL_GLOB = 1,
    PLANK_FLAG_IMPORT_AS_DECL_PUBLIC = 1,
    PLANK_FLAG_IMPORT_GROUP_DECL_PUBLIC = 1,
    PLANK_FLAG_LET_STMT_COMPTIME = 4,
    PLANK_FLAG_LET_STMT_MUTABLE = 2,
    PLANK_FLAG_LET_STMT_TYPED = 1,
    PLANK_FLAG_MATCH_FALLBACK_ARM_BINDING = 1,
    PLANK_FLAG_BOOL_LITERAL_TRUE = 1,
    PLANK_FLAG_FN_DEF_EAGER = 1,
    PLANK_FLAG_METHOD_DEF_EAGER = 1
};

/* The tags of a value (crates/words/src/value.rt). */
enum plank_value_tags {
    PLANK_VALUE_NUMBER = 1,
    PLANK_VALUE_STRING = 2
};

/* The kinds of a report (crates/words/src/report.rt), with what its detail is; of the others it is 0. */
enum plank_report_kinds {
    PLANK_REPORT_LEXER_ERROR = 1,       /* enum plank_error_tokens */
    PLANK_REPORT_UNEXPECTED = 2,        /* kind of the token that was found */
    PLANK_REPORT_MISSING_TOKEN = 3,     /* kind of the token that is wanted */
    PLANK_REPORT_MISSING_SPECIFIC = 4,  /* kind of the token that is wanted */
    PLANK_REPORT_BUILTIN_AS_NAME = 5,
    PLANK_REPORT_FIELD_AFTER_METHOD = 6,
    PLANK_REPORT_STAR_IN_GROUP = 7,
    PLANK_REPORT_PATH_IN_GROUP = 8,
    PLANK_REPORT_EMPTY_GROUP = 9,
    PLANK_REPORT_NEEDLESS_BRACES = 10,
    PLANK_REPORT_NON_ASCII = 11,        /* reserved: never made */
    PLANK_REPORT_BAD_HEX_ESCAPE = 12,
    PLANK_REPORT_UNKNOWN_ESCAPE = 13,   /* the character's Unicode number */
    PLANK_REPORT_NON_HEX_DIGIT = 14,    /* the character's Unicode number */
    PLANK_REPORT_ODD_DIGITS = 15,
    PLANK_REPORT_BACKSLASH_AT_END = 16
};

/* The detail of a report of kind PLANK_REPORT_LEXER_ERROR (crates/words/src/error_token.rt). */
enum plank_error_tokens {
    PLANK_ERROR_TOKEN_INVALID_CHAR = 0,
    PLANK_ERROR_TOKEN_MALFORMED_IDENT = 1,
    PLANK_ERROR_TOKEN_MULTILINE_STRING = 2,
    PLANK_ERROR_TOKEN_UNCLOSED_BLOCK_COMMENT = 3,
    PLANK_ERROR_TOKEN_UNCLOSED_STRING = 4,
    PLANK_ERROR_TOKEN_AT_WITHOUT_IDENT = 5
};

/* The refusals (crates/words/src/refusal.rt), with what their place is. */
enum plank_refusals {
    PLANK_REFUSAL_NOT_UTF8_START = 1,   /* a byte starts no sequence of UTF-8; its offset */
    PLANK_REFUSAL_TOO_LONG = 2,         /* the text is over PLANK_MAX_TEXT bytes; PLANK_MAX_TEXT */
    PLANK_REFUSAL_TOO_DEEP = 3,         /* nested too deep; the token that was reached */
    PLANK_REFUSAL_TOKENS_DONT_FIT = 4,  /* the words that are needed, Eof included */
    PLANK_REFUSAL_NODES_DONT_FIT = 5,   /* the token that was reached */
    PLANK_REFUSAL_VALUES_DONT_FIT = 6,  /* the token that was reached */
    PLANK_REFUSAL_REPORTS_DONT_FIT = 7, /* the token that was reached */
    PLANK_REFUSAL_ALTERED_NODES = 8,    /* only from views; the node that was looked at */
    PLANK_REFUSAL_NOT_UTF8_LATER = 9,   /* a later byte of a sequence isn't allowed; offset where the sequence starts */
    PLANK_REFUSAL_NOT_UTF8_CUT = 10     /* the text ends inside a sequence; offset where the sequence starts */
};

/* The accessors (crates/accessors/src/number.rt). */
enum plank_views {
    /* Any node, which node an expression is, and where a node stands. */
    PLANK_VIEW_KIND = 0,
    PLANK_VIEW_SPAN = 1,
    PLANK_VIEW_CHILD = 2,
    PLANK_VIEW_CHILD_COUNT = 3,
    PLANK_VIEW_IDENT = 4,
    PLANK_VIEW_EXPR = 5,
    PLANK_VIEW_STRUCT_BODY = 6,
    PLANK_VIEW_PARENT = 7,
    PLANK_VIEW_ENCLOSING_DECLARATION = 8,
    PLANK_VIEW_NODE_AT_TOKEN = 9,
    /* Files, constants and imports. */
    PLANK_VIEW_FILE = 32,
    PLANK_VIEW_FILE_DEF = 33,
    PLANK_VIEW_FILE_DEF_COUNT = 34,
    PLANK_VIEW_INIT_BLOCK = 35,
    PLANK_VIEW_RUN_BLOCK = 36,
    PLANK_VIEW_CONST_DECL_NAME = 37,
    PLANK_VIEW_CONST_DECL_NAME_SPAN = 38,
    PLANK_VIEW_CONST_DECL_TYPE = 39,
    PLANK_VIEW_CONST_DECL_ASSIGN = 40,
    PLANK_VIEW_CONST_DECL_SPAN = 41,
    PLANK_VIEW_IMPORT_PATH = 42,
    PLANK_VIEW_IMPORT_PUBLIC = 43,
    PLANK_VIEW_IMPORT_GLOB = 44,
    PLANK_VIEW_IMPORT_AS_DECL_NAME = 45,
    PLANK_VIEW_IMPORT_PATH_SEGMENT = 46,
    PLANK_VIEW_IMPORT_PATH_SEGMENT_COUNT = 47,
    PLANK_VIEW_IMPORT_FIRST_PATH_SEGMENT_SPAN = 48,
    PLANK_VIEW_IMPORT_LAST_PATH_SEGMENT_SPAN = 49,
    PLANK_VIEW_IMPORT_FILE_PATH_SPAN = 50,
    PLANK_VIEW_IMPORT_GROUP_PUBLIC = 51,
    PLANK_VIEW_IMPORT_GROUP_PATH_SEGMENT = 52,
    PLANK_VIEW_IMPORT_GROUP_PATH_SEGMENT_COUNT = 53,
    PLANK_VIEW_IMPORT_GROUP_FIRST_PATH_SEGMENT_SPAN = 54,
    PLANK_VIEW_IMPORT_GROUP_FILE_PATH_SPAN = 55,
    PLANK_VIEW_IMPORT_GROUP_ITEM = 56,
    PLANK_VIEW_IMPORT_GROUP_ITEM_COUNT = 57,
    PLANK_VIEW_IMPORT_GROUP_ITEM_NAME = 58,
    PLANK_VIEW_IMPORT_GROUP_ITEM_NAME_SPAN = 59,
    PLANK_VIEW_IMPORT_GROUP_ITEM_ALIAS = 60,
    PLANK_VIEW_IMPORT_GROUP_ITEM_SPAN = 61,
    /* Blocks and statements. */
    PLANK_VIEW_BLOCK = 64,
    PLANK_VIEW_BLOCK_STATEMENT = 65,
    PLANK_VIEW_BLOCK_STATEMENT_COUNT = 66,
    PLANK_VIEW_BLOCK_END_EXPR = 67,
    PLANK_VIEW_LET_STMT_NAME = 68,
    PLANK_VIEW_LET_STMT_NAME_SPAN = 69,
    PLANK_VIEW_LET_STMT_COMPTIME = 70,
    PLANK_VIEW_LET_STMT_MUTABLE = 71,
    PLANK_VIEW_LET_STMT_SPAN = 72,
    PLANK_VIEW_LET_STMT_TYPE_EXPR = 73,
    PLANK_VIEW_LET_STMT_VALUE = 74,
    PLANK_VIEW_LET_STMT = 75,
    PLANK_VIEW_RETURN_STMT_VALUE = 76,
    PLANK_VIEW_ASSIGN_STMT_TARGET = 77,
    PLANK_VIEW_ASSIGN_STMT_VALUE = 78,
    PLANK_VIEW_WHILE_STMT_INLINE = 79,
    PLANK_VIEW_WHILE_STMT_CONDITION = 80,
    PLANK_VIEW_WHILE_STMT_BODY = 81,
    PLANK_VIEW_WHILE_STMT = 82,
    PLANK_VIEW_STATEMENT = 83,
    /* Functions, methods and parameters. */
    PLANK_VIEW_FN_DEF_EAGER = 96,
    PLANK_VIEW_FN_DEF_PARAM_LIST_SPAN = 97,
    PLANK_VIEW_FN_DEF_PARAM = 98,
    PLANK_VIEW_FN_DEF_PARAM_COUNT = 99,
    PLANK_VIEW_FN_DEF_RETURN_TYPE = 100,
    PLANK_VIEW_FN_DEF_BODY = 101,
    PLANK_VIEW_METHOD_DEF_EAGER = 102,
    PLANK_VIEW_METHOD_DEF_NAME = 103,
    PLANK_VIEW_METHOD_DEF_NAME_SPAN = 104,
    PLANK_VIEW_METHOD_DEF_PARAM_LIST_SPAN = 105,
    PLANK_VIEW_METHOD_DEF_PARAM = 106,
    PLANK_VIEW_METHOD_DEF_PARAM_COUNT = 107,
    PLANK_VIEW_METHOD_DEF_RETURN_TYPE = 108,
    PLANK_VIEW_METHOD_DEF_BODY = 109,
    PLANK_VIEW_PARAM_NAME = 110,
    PLANK_VIEW_PARAM_NAME_SPAN = 111,
    PLANK_VIEW_PARAM_IS_COMPTIME = 112,
    PLANK_VIEW_PARAM_TYPE_EXPLICIT = 113,
    PLANK_VIEW_PARAM_TYPE_ANY = 114,
    PLANK_VIEW_PARAM_TYPE_ANY_SPAN = 115,
    /* Operators, calls, members and literals. */
    PLANK_VIEW_BINARY_EXPR_OP = 128,
    PLANK_VIEW_BINARY_EXPR_LHS = 129,
    PLANK_VIEW_BINARY_EXPR_OP_SPAN = 130,
    PLANK_VIEW_BINARY_EXPR_RHS = 131,
    PLANK_VIEW_UNARY_EXPR_OP = 132,
    PLANK_VIEW_UNARY_EXPR_OPERAND = 133,
    PLANK_VIEW_CALL_EXPR_CALLEE = 134,
    PLANK_VIEW_CALL_EXPR_ARG = 135,
    PLANK_VIEW_CALL_EXPR_ARG_COUNT = 136,
    PLANK_VIEW_CALL_EXPR_DIRECT_MEMBER_CALLEE = 137,
    PLANK_VIEW_MEMBER_EXPR_OBJECT = 138,
    PLANK_VIEW_MEMBER_EXPR_MEMBER = 139,
    PLANK_VIEW_MEMBER_EXPR = 140,
    PLANK_VIEW_BOOL_LITERAL_VALUE = 141,
    PLANK_VIEW_NUM_LITERAL_ID = 142,
    PLANK_VIEW_STRING_LITERAL_VALUE = 143,
    PLANK_VIEW_SELF_TYPE = 144,
    PLANK_VIEW_BUILTIN_NAME = 145,
    /* Structs, their literals, and tuples. */
    PLANK_VIEW_STRUCT_DEF_INDEX_EXPR = 160,
    PLANK_VIEW_STRUCT_DEF_FIELD = 161,
    PLANK_VIEW_STRUCT_DEF_FIELD_COUNT = 162,
    PLANK_VIEW_STRUCT_DEF_METHOD = 163,
    PLANK_VIEW_STRUCT_DEF_METHOD_COUNT = 164,
    PLANK_VIEW_FIELD_DEF_NAME = 165,
    PLANK_VIEW_FIELD_DEF_NAME_SPAN = 166,
    PLANK_VIEW_FIELD_DEF_TYPE_EXPR = 167,
    PLANK_VIEW_STRUCT_LIT_TYPE_EXPR = 168,
    PLANK_VIEW_STRUCT_LIT_FIELD = 169,
    PLANK_VIEW_STRUCT_LIT_FIELD_COUNT = 170,
    PLANK_VIEW_FIELD_ASSIGN_NAME = 171,
    PLANK_VIEW_FIELD_ASSIGN_NAME_SPAN = 172,
    PLANK_VIEW_FIELD_ASSIGN_VALUE = 173,
    PLANK_VIEW_TUPLE_TYPE_FIELD = 174,
    PLANK_VIEW_TUPLE_TYPE_FIELD_COUNT = 175,
    PLANK_VIEW_TUPLE_LIT_FIELD = 176,
    PLANK_VIEW_TUPLE_LIT_FIELD_COUNT = 177,
    /* `if` and `match`. */
    PLANK_VIEW_IF_EXPR_CONDITION = 192,
    PLANK_VIEW_IF_EXPR_BODY = 193,
    PLANK_VIEW_IF_EXPR_ELSE_IF_BRANCH = 194,
    PLANK_VIEW_IF_EXPR_ELSE_IF_BRANCH_COUNT = 195,
    PLANK_VIEW_IF_EXPR_ELSE_BODY = 196,
    PLANK_VIEW_ELSE_IF_BRANCH_CONDITION = 197,
    PLANK_VIEW_ELSE_IF_BRANCH_BODY = 198,
    PLANK_VIEW_MATCH_EXPR_SUBJECT = 199,
    PLANK_VIEW_MATCH_EXPR_ARM = 200,
    PLANK_VIEW_MATCH_EXPR_ARM_COUNT = 201,
    PLANK_VIEW_MATCH_ARM_KEY = 202,
    PLANK_VIEW_MATCH_ARM_BODY = 203,
    PLANK_VIEW_MATCH_FALLBACK_ARM_BOUND = 204,
    PLANK_VIEW_MATCH_FALLBACK_ARM_BINDING = 205,
    PLANK_VIEW_MATCH_FALLBACK_ARM_BINDING_SPAN = 206,
    PLANK_VIEW_MATCH_FALLBACK_ARM_BODY = 207
};

/* The bits of each word's low part (crates/words/src/lib.rt). */
#define PLANK_TOKEN_LOW 25
#define PLANK_NODE_LOW 26
#define PLANK_VALUE_LOW 30
#define PLANK_REPORT_LOW 26

/* The words of one node and of one report. */
#define PLANK_NODE_WIDTH 6
#define PLANK_REPORT_WIDTH 3

/* The bytes that a text may have. */
#define PLANK_MAX_TEXT 65536

/* What the checked functions answer, in the place of a refusal's number, where they don't call the library: nothing is
 * written then, and the answer's place says which slice is meant (enum plank_slices). */
enum plank_misuses {
    PLANK_MISUSE_NULL = 256,   /* a null pointer with a length above 0, or no span to write */
    PLANK_MISUSE_LENGTH = 257, /* more words than memory can have */
    PLANK_MISUSE_OVERLAP = 258 /* a slice that is written overlaps one that stands before it in the list */
};

enum plank_slices {
    PLANK_SLICE_TEXT = 0,
    PLANK_SLICE_TOKENS = 1,
    PLANK_SLICE_NODES = 2,
    PLANK_SLICE_VALUES = 3,
    PLANK_SLICE_REPORTS = 4,
    PLANK_SLICE_SPAN = 5
};

/* ---- Answers. One number of 64 bits: a number of 32 bits, PLANK_NONE (only from views), or a refusal's number (or a
 * misuse) times 2 to the 32nd and its place. */

#define PLANK_NONE (UINT64_C(1) << 63)

/* 1 where the answer is a number, which (uint32_t)answer then is. */
static inline int plank_is_number(uint64_t answer) {
    return answer <= UINT32_MAX;
}

static inline int plank_is_none(uint64_t answer) {
    return answer == PLANK_NONE;
}

/* The number of the refusal (enum plank_refusals) or misuse; 0 where the answer is neither. */
static inline uint32_t plank_refusal(uint64_t answer) {
    return plank_is_none(answer) ? 0 : (uint32_t)(answer >> 32);
}

/* The refusal's place: an offset in the text, a number of words, a token or a node (docs/FORMAT.md, "Refusals"). */
static inline uint32_t plank_place(uint64_t answer) {
    return (uint32_t)answer;
}

/* ---- The library's own symbols. Slices are two parameters, pointer and length; see above for what they promise. */

/* Lexes a text. The number of tokens, which stand first in `tokens` with 0 behind them; or refusal 2, 1, 9, 10
 * or 4, which leaves all of `tokens` 0. */
uint64_t plank_lex(const uint8_t *text, size_t text_len, uint32_t *tokens, size_t tokens_len);

/* The same answers by the branching lexer, where plank_lex lexes from tables: for those who compare the two. */
uint64_t plank_lex_branching(const uint8_t *text, size_t text_len, uint32_t *tokens, size_t tokens_len);

/* Reads a text. 0, and the four slices written, each with 0 behind what was made, and in `counts`, if it has four
 * numbers, how many tokens, nodes, value words and reports there are. Or a refusal from 1 to 7, 9 or 10, which
 * leaves all of the four slices 0 and `counts` as it was. */
uint64_t plank_read(const uint8_t *text, size_t text_len, uint32_t *tokens, size_t tokens_len, uint32_t *nodes,
                    size_t nodes_len, uint32_t *values, size_t values_len, uint32_t *reports, size_t reports_len,
                    uint64_t *counts, size_t counts_len);

/* What the accessor `which` tells of node `n`: a number, PLANK_NONE, or refusal 8. Accessors of lists tell their
 * i-th, NODE_AT_TOKEN the node at token i. The nodes are only read. Any words and any numbers may be given: none is
 * told by an accessor that isn't there, by one that tells tokens or counts, of a node of another kind, and of a child
 * that is missing. */
uint64_t plank_view(uint32_t which, const uint32_t *nodes, size_t nodes_len, uint32_t n, uint32_t i);

/* The same of accessors that tell tokens (.._SPAN): 0, and in `span`, if it has two words, the first token and the
 * one past the last; none and a refusal leave `span` as it was. */
uint64_t plank_view_span(uint32_t which, const uint32_t *nodes, size_t nodes_len, uint32_t n, uint32_t *span,
                         size_t span_len);

/* The same of accessors that count (.._COUNT). */
uint64_t plank_view_count(uint32_t which, const uint32_t *nodes, size_t nodes_len, uint32_t n);

/* ---- Lengths that always suffice for a text of so many bytes, in words. A text over PLANK_MAX_TEXT is refused
 * whatever the lengths are. The first is exact at its worst, as every token but Eof has a byte; the others are argued
 * for in bindings/README.md. With less, a text may still fit: refusals 4 to 7 say that it doesn't. */

static inline size_t plank_text_counted(size_t text_len) {
    return text_len < PLANK_MAX_TEXT ? text_len : PLANK_MAX_TEXT;
}

static inline size_t plank_enough_tokens(size_t text_len) {
    return plank_text_counted(text_len) + 1;
}

static inline size_t plank_enough_nodes(size_t text_len) {
    return PLANK_NODE_WIDTH * (3 * plank_text_counted(text_len) + 1);
}

static inline size_t plank_enough_values(size_t text_len) {
    return 2 * plank_text_counted(text_len);
}

static inline size_t plank_enough_reports(size_t text_len) {
    return PLANK_REPORT_WIDTH * (2 * plank_text_counted(text_len) + 1);
}

/* ---- Lexing and reading, checked. */

/* Words that are lent. They stay the caller's, and are the caller's again when the function returns. */
struct plank_words {
    uint32_t *words;
    size_t len;
};

/* How many tokens, nodes, value words and reports a text has. */
struct plank_counts {
    uint64_t tokens;
    uint64_t nodes;
    uint64_t values;
    uint64_t reports;
};

/* Tokens: the first, and the one past the last. */
struct plank_token_span {
    uint32_t start;
    uint32_t end;
};

static inline uint64_t plank_misuse(uint32_t misuse, uint32_t slice) {
    return (uint64_t)misuse << 32 | slice;
}

/* 0 where a pointer and a length of so many items may stand for a slice, else the misuse. */
static inline uint64_t plank_check_slice(const void *start, size_t len, size_t width, uint32_t slice) {
    if (len != 0 && start == NULL) {
        return plank_misuse(PLANK_MISUSE_NULL, slice);
    }
    if (len > (size_t)PTRDIFF_MAX / width) {
        return plank_misuse(PLANK_MISUSE_LENGTH, slice);
    }
    return 0;
}

static inline int plank_overlap(const void *a, size_t a_bytes, const void *b, size_t b_bytes) {
    uintptr_t x = (uintptr_t)a;
    uintptr_t y = (uintptr_t)b;
    if (a_bytes == 0 || b_bytes == 0) {
        return 0;
    }
    return x < y ? y - x < a_bytes : x - y < b_bytes;
}

/* 0 where the text and the words behind it may be lent, else the first misuse. */
static inline uint64_t plank_check_lent(const uint8_t *text, size_t text_len, const struct plank_words *lent,
                                        size_t count) {
    uint64_t misuse = plank_check_slice(text, text_len, 1, PLANK_SLICE_TEXT);
    size_t i, j;
    for (i = 0; misuse == 0 && i < count; i++) {
        uint32_t slice = (uint32_t)(PLANK_SLICE_TOKENS + i);
        size_t bytes = lent[i].len * sizeof(uint32_t);
        misuse = plank_check_slice(lent[i].words, lent[i].len, sizeof(uint32_t), slice);
        if (misuse == 0 && plank_overlap(text, text_len, lent[i].words, bytes)) {
            misuse = plank_misuse(PLANK_MISUSE_OVERLAP, slice);
        }
        for (j = 0; misuse == 0 && j < i; j++) {
            if (plank_overlap(lent[j].words, lent[j].len * sizeof(uint32_t), lent[i].words, bytes)) {
                misuse = plank_misuse(PLANK_MISUSE_OVERLAP, slice);
            }
        }
    }
    return misuse;
}

/* plank_lex or plank_lex_branching. */
typedef uint64_t plank_lexer(const uint8_t *text, size_t text_len, uint32_t *tokens, size_t tokens_len);

static inline uint64_t plank_checked_lex_by(plank_lexer *lexer, const uint8_t *text, size_t text_len,
                                            struct plank_words tokens) {
    uint32_t nowhere = 0; /* stands for a null pointer of length 0 */
    uint64_t misuse = plank_check_lent(text, text_len, &tokens, 1);
    if (misuse != 0) {
        return misuse;
    }
    return lexer(text == NULL ? (const uint8_t *)&nowhere : text, text_len,
                 tokens.words == NULL ? &nowhere : tokens.words, tokens.len);
}

/* plank_lex: the number of tokens, a refusal or a misuse. */
static inline uint64_t plank_checked_lex(const uint8_t *text, size_t text_len, struct plank_words tokens) {
    return plank_checked_lex_by(plank_lex, text, text_len, tokens);
}

/* plank_lex_branching: the same. */
static inline uint64_t plank_checked_lex_branching(const uint8_t *text, size_t text_len, struct plank_words tokens) {
    return plank_checked_lex_by(plank_lex_branching, text, text_len, tokens);
}

/* plank_read: 0, a refusal or a misuse. `counts` may be null; unless the answer is 0 all of its numbers are 0. */
static inline uint64_t plank_checked_read(const uint8_t *text, size_t text_len, struct plank_words tokens,
                                          struct plank_words nodes, struct plank_words values,
                                          struct plank_words reports, struct plank_counts *counts) {
    uint32_t nowhere = 0;
    uint64_t told[4] = {0, 0, 0, 0};
    struct plank_words lent[4];
    uint64_t answer;
    size_t i;
    lent[0] = tokens;
    lent[1] = nodes;
    lent[2] = values;
    lent[3] = reports;
    answer = plank_check_lent(text, text_len, lent, 4);
    if (answer == 0) {
        for (i = 0; i < 4; i++) {
            lent[i].words = lent[i].words == NULL ? &nowhere : lent[i].words;
        }
        answer = plank_read(text == NULL ? (const uint8_t *)&nowhere : text, text_len, lent[0].words, lent[0].len,
                            lent[1].words, lent[1].len, lent[2].words, lent[2].len, lent[3].words, lent[3].len,
                            told, 4);
    }
    if (counts != NULL) {
        counts->tokens = told[0];
        counts->nodes = told[1];
        counts->values = told[2];
        counts->reports = told[3];
    }
    return answer;
}

/* ---- Words taken apart. */

static inline uint32_t plank_token_kind(uint32_t word) {
    return word >> PLANK_TOKEN_LOW;
}

/* The offset just past the token's last byte. */
static inline uint32_t plank_token_end(uint32_t word) {
    return word & ((UINT32_C(1) << PLANK_TOKEN_LOW) - 1);
}

/* A part of a text, which stays the text's owner's. */
struct plank_part {
    const uint8_t *start;
    size_t len;
};

/* The part of the text that token `i` covers. A token number past the words, or ends that fall or pass the text, give
 * the empty part. */
static inline struct plank_part plank_spelling(const uint8_t *text, size_t text_len, const uint32_t *tokens,
                                               size_t tokens_len, size_t i) {
    struct plank_part part = {text, 0};
    if (text != NULL && tokens != NULL && i < tokens_len) {
        size_t start = i == 0 ? 0 : plank_token_end(tokens[i - 1]);
        size_t end = plank_token_end(tokens[i]);
        if (start <= end && end <= text_len) {
            part.start = text + start;
            part.len = end - start;
        }
    }
    return part;
}

struct plank_node {
    uint32_t kind;
    uint32_t payload;
    uint32_t first; /* the first token, and the one past the last */
    uint32_t end;
    uint32_t next; /* the next sibling and the first child; 0 is none */
    uint32_t child;
    uint32_t parent; /* the node whose child it is: 0, the file's number, for its children; 0 for the file too */
};

/* 1, and the fields of node `n`; 0, and nothing written, where there is no such node. Fields are as they stand: to
 * follow links of words that may have been altered, plank_first_child and plank_next_sibling check them. */
static inline int plank_node_at(const uint32_t *nodes, size_t nodes_len, uint32_t n, struct plank_node *node) {
    const uint32_t *words;
    if (nodes == NULL || n >= nodes_len / PLANK_NODE_WIDTH) {
        return 0;
    }
    words = nodes + (size_t)PLANK_NODE_WIDTH * n;
    node->kind = words[0] >> PLANK_NODE_LOW;
    node->payload = words[0] & ((UINT32_C(1) << PLANK_NODE_LOW) - 1);
    node->first = words[1];
    node->end = words[2];
    node->next = words[3];
    node->child = words[4];
    node->parent = words[5];
    return 1;
}

/* ---- Walks. A view that tells a list's i-th goes there from the first: a loop over i takes time that grows with the
 * square of the list (over a second for 32,760 statements). A loop over links takes time that grows with the list:
 *
 *   for (child = plank_first_child(nodes, len, n); plank_is_number(child);
 *        child = plank_next_sibling(nodes, len, (uint32_t)child)) { .. }
 *
 * It goes through all children of `n`, of which plank_child tells the i-th; docs/FORMAT.md ("Children") says what they
 * are. The statements of a block are the children of its first child. Behind it `child` is PLANK_NONE, or the refusal
 * or misuse that ended it. It ends on any words, as a next sibling that isn't above its node is refused. Going down from
 * child to child need not end on altered words, as a first child may be any node: bound its depth. */

/* 0, and the fields of node `n`, or refusal 8, as a view that looks at it: there is no such node, its kind is above
 * PLANK_NODE_ERROR, or its next sibling is neither 0 nor above it. */
static inline uint64_t plank_look(const uint32_t *nodes, size_t nodes_len, uint32_t n, struct plank_node *node) {
    uint64_t misuse = plank_check_slice(nodes, nodes_len, sizeof(uint32_t), PLANK_SLICE_NODES);
    if (misuse != 0) {
        return misuse;
    }
    if (!plank_node_at(nodes, nodes_len, n, node) || node->kind > PLANK_NODE_ERROR ||
        (node->next != 0 && node->next <= n)) {
        return (uint64_t)PLANK_REFUSAL_ALTERED_NODES << 32 | n;
    }
    return 0;
}

/* Where a link leads: the node's number, which can be looked at, PLANK_NONE, or refusal 8. */
static inline uint64_t plank_link(const uint32_t *nodes, size_t nodes_len, uint32_t to) {
    struct plank_node node;
    uint64_t refusal = to == 0 ? PLANK_NONE : plank_look(nodes, nodes_len, to, &node);
    return refusal != 0 ? refusal : to;
}

/* The first child of node `n`, if it has one: what plank_child(nodes, nodes_len, n, 0) answers. */
static inline uint64_t plank_first_child(const uint32_t *nodes, size_t nodes_len, uint32_t n) {
    struct plank_node node;
    uint64_t refusal = plank_look(nodes, nodes_len, n, &node);
    return refusal != 0 ? refusal : plank_link(nodes, nodes_len, node.child);
}

/* The next sibling of node `n`, if it has one. */
static inline uint64_t plank_next_sibling(const uint32_t *nodes, size_t nodes_len, uint32_t n) {
    struct plank_node node;
    uint64_t refusal = plank_look(nodes, nodes_len, n, &node);
    return refusal != 0 ? refusal : plank_link(nodes, nodes_len, node.next);
}

struct plank_report {
    uint32_t kind;
    uint32_t detail;
    uint32_t start; /* offsets in the text */
    uint32_t end;
};

/* 1, and the fields of report `i`; 0, and nothing written, where there is no such report. */
static inline int plank_report_at(const uint32_t *reports, size_t reports_len, size_t i, struct plank_report *report) {
    const uint32_t *words;
    if (reports == NULL || i >= reports_len / PLANK_REPORT_WIDTH) {
        return 0;
    }
    words = reports + PLANK_REPORT_WIDTH * i;
    report->kind = words[0] >> PLANK_REPORT_LOW;
    report->detail = words[0] & ((UINT32_C(1) << PLANK_REPORT_LOW) - 1);
    report->start = words[1];
    report->end = words[2];
    return 1;
}

/* A value, in the value words, whose owner its contents stay. */
struct plank_value {
    uint32_t tag;          /* PLANK_VALUE_NUMBER or PLANK_VALUE_STRING */
    uint32_t count;        /* limbs, or bytes */
    const uint32_t *words; /* limbs, least first; or bytes, four to a word, first lowest */
};

/* 1, and the value at an offset (the payload of a NumLiteral or StringLiteral); 0, and nothing written, where no
 * whole value stands there. */
static inline int plank_value_at(const uint32_t *values, size_t values_len, size_t offset, struct plank_value *value) {
    uint32_t tag, count;
    size_t words;
    if (values == NULL || offset >= values_len) {
        return 0;
    }
    tag = values[offset] >> PLANK_VALUE_LOW;
    count = values[offset] & ((UINT32_C(1) << PLANK_VALUE_LOW) - 1);
    words = tag == PLANK_VALUE_NUMBER ? count : ((size_t)count + 3) / 4;
    if ((tag != PLANK_VALUE_NUMBER && tag != PLANK_VALUE_STRING) || words > values_len - offset - 1) {
        return 0;
    }
    value->tag = tag;
    value->count = count;
    value->words = values + offset + 1;
    return 1;
}

/* Byte `i` of a string; 0 past its bytes and of a number. */
static inline uint8_t plank_value_byte(struct plank_value value, uint32_t i) {
    if (value.tag != PLANK_VALUE_STRING || i >= value.count) {
        return 0;
    }
    return (uint8_t)(value.words[i / 4] >> (8 * (i % 4)));
}

/* ---- Views, checked: plank_view, plank_view_span and plank_view_count, and after them one function for each
 * accessor. All tell a number, PLANK_NONE, refusal 8 or a misuse. What a number is, a node, a name, a flag or an
 * operator, docs/FORMAT.md says ("What views tell"). Those that tell a list's i-th are slow in loops: see "Walks". */

static inline uint64_t plank_checked_view(uint32_t which, const uint32_t *nodes, size_t nodes_len, uint32_t n,
                                          uint32_t i) {
    uint32_t nowhere = 0;
    uint64_t misuse = plank_check_slice(nodes, nodes_len, sizeof(uint32_t), PLANK_SLICE_NODES);
    return misuse != 0 ? misuse : plank_view(which, nodes == NULL ? &nowhere : nodes, nodes_len, n, i);
}

/* `span` is written where the answer is 0; a null pointer is a misuse. */
static inline uint64_t plank_checked_view_span(uint32_t which, const uint32_t *nodes, size_t nodes_len, uint32_t n,
                                               struct plank_token_span *span) {
    uint32_t nowhere = 0;
    uint32_t told[2] = {0, 0};
    uint64_t answer = plank_check_slice(nodes, nodes_len, sizeof(uint32_t), PLANK_SLICE_NODES);
    if (answer != 0) {
        return answer;
    }
    if (span == NULL) {
        return plank_misuse(PLANK_MISUSE_NULL, PLANK_SLICE_SPAN);
    }
    answer = plank_view_span(which, nodes == NULL ? &nowhere : nodes, nodes_len, n, told, 2);
    if (answer == 0) {
        span->start = told[0];
        span->end = told[1];
    }
    return answer;
}

static inline uint64_t plank_checked_view_count(uint32_t which, const uint32_t *nodes, size_t nodes_len, uint32_t n) {
    uint32_t nowhere = 0;
    uint64_t misuse = plank_check_slice(nodes, nodes_len, sizeof(uint32_t), PLANK_SLICE_NODES);
    return misuse != 0 ? misuse : plank_view_count(which, nodes == NULL ? &nowhere : nodes, nodes_len, n);
}

/* uint64_t plank_binary_expr_lhs(nodes, len, n) */
#define PLANK_NUMBER_VIEW(name, NAME)                                                    \
    static inline uint64_t plank_##name(const uint32_t *nodes, size_t len, uint32_t n) { \
        return plank_checked_view(PLANK_VIEW_##NAME, nodes, len, n, 0);                  \
    }
/* uint64_t plank_call_expr_arg(nodes, len, n, i) */
#define PLANK_ITEM_VIEW(name, NAME)                                                                  \
    static inline uint64_t plank_##name(const uint32_t *nodes, size_t len, uint32_t n, uint32_t i) { \
        return plank_checked_view(PLANK_VIEW_##NAME, nodes, len, n, i);                              \
    }
/* uint64_t plank_binary_expr_op_span(nodes, len, n, &span) */
#define PLANK_SPAN_VIEW(name, NAME)                                                    \
    static inline uint64_t plank_##name(const uint32_t *nodes, size_t len, uint32_t n, \
                                        struct plank_token_span *span) {               \
        return plank_checked_view_span(PLANK_VIEW_##NAME, nodes, len, n, span);        \
    }
/* uint64_t plank_call_expr_arg_count(nodes, len, n) */
#define PLANK_COUNT_VIEW(name, NAME)                                                     \
    static inline uint64_t plank_##name(const uint32_t *nodes, size_t len, uint32_t n) { \
        return plank_checked_view_count(PLANK_VIEW_##NAME, nodes, len, n);               \
    }

/* Any node, and which node an expression is. */
PLANK_NUMBER_VIEW(kind, KIND)
PLANK_SPAN_VIEW(span, SPAN)
PLANK_ITEM_VIEW(child, CHILD)
PLANK_COUNT_VIEW(child_count, CHILD_COUNT)
PLANK_NUMBER_VIEW(ident, IDENT)
PLANK_NUMBER_VIEW(expr, EXPR)
PLANK_NUMBER_VIEW(struct_body, STRUCT_BODY)

/* Where a node stands: the node whose child it is, and the declaration that holds it (the child of the file above it,
 * or itself); the file has neither. On altered words a parent may be no node's number, which the next look at it
 * refuses, and going up from parent to parent need not end: bound it. */
PLANK_NUMBER_VIEW(parent, PARENT)
PLANK_NUMBER_VIEW(enclosing_declaration, ENCLOSING_DECLARATION)
/* uint64_t plank_node_at_token(nodes, len, n, i): of node `n` and all below it the innermost that covers token `i`:
 * its first token is not after `i`, and its end is; with n = 0, of all nodes. None where `n` doesn't cover it, and in
 * a ring of altered links. */
PLANK_ITEM_VIEW(node_at_token, NODE_AT_TOKEN)

/* Files, constants and imports. */
PLANK_NUMBER_VIEW(file, FILE)
PLANK_ITEM_VIEW(file_def, FILE_DEF)
PLANK_COUNT_VIEW(file_def_count, FILE_DEF_COUNT)
PLANK_NUMBER_VIEW(init_block, INIT_BLOCK)
PLANK_NUMBER_VIEW(run_block, RUN_BLOCK)
PLANK_NUMBER_VIEW(const_decl_name, CONST_DECL_NAME)
PLANK_SPAN_VIEW(const_decl_name_span, CONST_DECL_NAME_SPAN)
PLANK_NUMBER_VIEW(const_decl_type, CONST_DECL_TYPE)
PLANK_NUMBER_VIEW(const_decl_assign, CONST_DECL_ASSIGN)
PLANK_SPAN_VIEW(const_decl_span, CONST_DECL_SPAN)
PLANK_NUMBER_VIEW(import_path, IMPORT_PATH)
PLANK_NUMBER_VIEW(import_public, IMPORT_PUBLIC)
PLANK_NUMBER_VIEW(import_glob, IMPORT_GLOB)
PLANK_NUMBER_VIEW(import_as_decl_name, IMPORT_AS_DECL_NAME)
/* These two, import_path_segment and import_group_path_segment, tell a node, where collect_path_segments of the Rust
 * parser gives names: plank_ident of the node tells the name. */
PLANK_ITEM_VIEW(import_path_segment, IMPORT_PATH_SEGMENT)
PLANK_COUNT_VIEW(import_path_segment_count, IMPORT_PATH_SEGMENT_COUNT)
PLANK_SPAN_VIEW(import_first_path_segment_span, IMPORT_FIRST_PATH_SEGMENT_SPAN)
PLANK_SPAN_VIEW(import_last_path_segment_span, IMPORT_LAST_PATH_SEGMENT_SPAN)
PLANK_SPAN_VIEW(import_file_path_span, IMPORT_FILE_PATH_SPAN)
PLANK_NUMBER_VIEW(import_group_public, IMPORT_GROUP_PUBLIC)
PLANK_ITEM_VIEW(import_group_path_segment, IMPORT_GROUP_PATH_SEGMENT)
PLANK_COUNT_VIEW(import_group_path_segment_count, IMPORT_GROUP_PATH_SEGMENT_COUNT)
PLANK_SPAN_VIEW(import_group_first_path_segment_span, IMPORT_GROUP_FIRST_PATH_SEGMENT_SPAN)
PLANK_SPAN_VIEW(import_group_file_path_span, IMPORT_GROUP_FILE_PATH_SPAN)
PLANK_ITEM_VIEW(import_group_item, IMPORT_GROUP_ITEM)
PLANK_COUNT_VIEW(import_group_item_count, IMPORT_GROUP_ITEM_COUNT)
PLANK_NUMBER_VIEW(import_group_item_name, IMPORT_GROUP_ITEM_NAME)
PLANK_SPAN_VIEW(import_group_item_name_span, IMPORT_GROUP_ITEM_NAME_SPAN)
PLANK_NUMBER_VIEW(import_group_item_alias, IMPORT_GROUP_ITEM_ALIAS)
PLANK_SPAN_VIEW(import_group_item_span, IMPORT_GROUP_ITEM_SPAN)

/* Blocks and statements. */
PLANK_NUMBER_VIEW(block, BLOCK)
PLANK_ITEM_VIEW(block_statement, BLOCK_STATEMENT)
PLANK_COUNT_VIEW(block_statement_count, BLOCK_STATEMENT_COUNT)
PLANK_NUMBER_VIEW(block_end_expr, BLOCK_END_EXPR)
PLANK_NUMBER_VIEW(let_stmt_name, LET_STMT_NAME)
PLANK_SPAN_VIEW(let_stmt_name_span, LET_STMT_NAME_SPAN)
PLANK_NUMBER_VIEW(let_stmt_comptime, LET_STMT_COMPTIME)
PLANK_NUMBER_VIEW(let_stmt_mutable, LET_STMT_MUTABLE)
PLANK_SPAN_VIEW(let_stmt_span, LET_STMT_SPAN)
PLANK_NUMBER_VIEW(let_stmt_type_expr, LET_STMT_TYPE_EXPR)
PLANK_NUMBER_VIEW(let_stmt_value, LET_STMT_VALUE)
PLANK_NUMBER_VIEW(let_stmt, LET_STMT)
PLANK_NUMBER_VIEW(return_stmt_value, RETURN_STMT_VALUE)
PLANK_NUMBER_VIEW(assign_stmt_target, ASSIGN_STMT_TARGET)
PLANK_NUMBER_VIEW(assign_stmt_value, ASSIGN_STMT_VALUE)
PLANK_NUMBER_VIEW(while_stmt_inline, WHILE_STMT_INLINE)
PLANK_NUMBER_VIEW(while_stmt_condition, WHILE_STMT_CONDITION)
PLANK_NUMBER_VIEW(while_stmt_body, WHILE_STMT_BODY)
PLANK_NUMBER_VIEW(while_stmt, WHILE_STMT)
PLANK_NUMBER_VIEW(statement, STATEMENT)

/* Functions, methods and parameters. */
PLANK_NUMBER_VIEW(fn_def_eager, FN_DEF_EAGER)
PLANK_SPAN_VIEW(fn_def_param_list_span, FN_DEF_PARAM_LIST_SPAN)
PLANK_ITEM_VIEW(fn_def_param, FN_DEF_PARAM)
PLANK_COUNT_VIEW(fn_def_param_count, FN_DEF_PARAM_COUNT)
PLANK_NUMBER_VIEW(fn_def_return_type, FN_DEF_RETURN_TYPE)
PLANK_NUMBER_VIEW(fn_def_body, FN_DEF_BODY)
PLANK_NUMBER_VIEW(method_def_eager, METHOD_DEF_EAGER)
PLANK_NUMBER_VIEW(method_def_name, METHOD_DEF_NAME)
PLANK_SPAN_VIEW(method_def_name_span, METHOD_DEF_NAME_SPAN)
PLANK_SPAN_VIEW(method_def_param_list_span, METHOD_DEF_PARAM_LIST_SPAN)
PLANK_ITEM_VIEW(method_def_param, METHOD_DEF_PARAM)
PLANK_COUNT_VIEW(method_def_param_count, METHOD_DEF_PARAM_COUNT)
PLANK_NUMBER_VIEW(method_def_return_type, METHOD_DEF_RETURN_TYPE)
PLANK_NUMBER_VIEW(method_def_body, METHOD_DEF_BODY)
PLANK_NUMBER_VIEW(param_name, PARAM_NAME)
PLANK_SPAN_VIEW(param_name_span, PARAM_NAME_SPAN)
PLANK_NUMBER_VIEW(param_is_comptime, PARAM_IS_COMPTIME)
PLANK_NUMBER_VIEW(param_type_explicit, PARAM_TYPE_EXPLICIT)
PLANK_NUMBER_VIEW(param_type_any, PARAM_TYPE_ANY)
PLANK_SPAN_VIEW(param_type_any_span, PARAM_TYPE_ANY_SPAN)

/* Operators, calls, members and literals. */
PLANK_NUMBER_VIEW(binary_expr_op, BINARY_EXPR_OP)
PLANK_NUMBER_VIEW(binary_expr_lhs, BINARY_EXPR_LHS)
PLANK_SPAN_VIEW(binary_expr_op_span, BINARY_EXPR_OP_SPAN)
PLANK_NUMBER_VIEW(binary_expr_rhs, BINARY_EXPR_RHS)
PLANK_NUMBER_VIEW(unary_expr_op, UNARY_EXPR_OP)
PLANK_NUMBER_VIEW(unary_expr_operand, UNARY_EXPR_OPERAND)
PLANK_NUMBER_VIEW(call_expr_callee, CALL_EXPR_CALLEE)
PLANK_ITEM_VIEW(call_expr_arg, CALL_EXPR_ARG)
PLANK_COUNT_VIEW(call_expr_arg_count, CALL_EXPR_ARG_COUNT)
PLANK_NUMBER_VIEW(call_expr_direct_member_callee, CALL_EXPR_DIRECT_MEMBER_CALLEE)
PLANK_NUMBER_VIEW(member_expr_object, MEMBER_EXPR_OBJECT)
PLANK_NUMBER_VIEW(member_expr_member, MEMBER_EXPR_MEMBER)
PLANK_NUMBER_VIEW(member_expr, MEMBER_EXPR)
PLANK_NUMBER_VIEW(bool_literal_value, BOOL_LITERAL_VALUE)
PLANK_NUMBER_VIEW(num_literal_id, NUM_LITERAL_ID)
PLANK_NUMBER_VIEW(string_literal_value, STRING_LITERAL_VALUE)
PLANK_NUMBER_VIEW(self_type, SELF_TYPE)
PLANK_NUMBER_VIEW(builtin_name, BUILTIN_NAME)

/* Structs, their literals, and tuples. */
PLANK_NUMBER_VIEW(struct_def_index_expr, STRUCT_DEF_INDEX_EXPR)
PLANK_ITEM_VIEW(struct_def_field, STRUCT_DEF_FIELD)
PLANK_COUNT_VIEW(struct_def_field_count, STRUCT_DEF_FIELD_COUNT)
PLANK_ITEM_VIEW(struct_def_method, STRUCT_DEF_METHOD)
PLANK_COUNT_VIEW(struct_def_method_count, STRUCT_DEF_METHOD_COUNT)
PLANK_NUMBER_VIEW(field_def_name, FIELD_DEF_NAME)
PLANK_SPAN_VIEW(field_def_name_span, FIELD_DEF_NAME_SPAN)
PLANK_NUMBER_VIEW(field_def_type_expr, FIELD_DEF_TYPE_EXPR)
PLANK_NUMBER_VIEW(struct_lit_type_expr, STRUCT_LIT_TYPE_EXPR)
PLANK_ITEM_VIEW(struct_lit_field, STRUCT_LIT_FIELD)
PLANK_COUNT_VIEW(struct_lit_field_count, STRUCT_LIT_FIELD_COUNT)
PLANK_NUMBER_VIEW(field_assign_name, FIELD_ASSIGN_NAME)
PLANK_SPAN_VIEW(field_assign_name_span, FIELD_ASSIGN_NAME_SPAN)
PLANK_NUMBER_VIEW(field_assign_value, FIELD_ASSIGN_VALUE)
PLANK_ITEM_VIEW(tuple_type_field, TUPLE_TYPE_FIELD)
PLANK_COUNT_VIEW(tuple_type_field_count, TUPLE_TYPE_FIELD_COUNT)
PLANK_ITEM_VIEW(tuple_lit_field, TUPLE_LIT_FIELD)
PLANK_COUNT_VIEW(tuple_lit_field_count, TUPLE_LIT_FIELD_COUNT)

/* `if` and `match`. */
PLANK_NUMBER_VIEW(if_expr_condition, IF_EXPR_CONDITION)
PLANK_NUMBER_VIEW(if_expr_body, IF_EXPR_BODY)
PLANK_ITEM_VIEW(if_expr_else_if_branch, IF_EXPR_ELSE_IF_BRANCH)
PLANK_COUNT_VIEW(if_expr_else_if_branch_count, IF_EXPR_ELSE_IF_BRANCH_COUNT)
PLANK_NUMBER_VIEW(if_expr_else_body, IF_EXPR_ELSE_BODY)
PLANK_NUMBER_VIEW(else_if_branch_condition, ELSE_IF_BRANCH_CONDITION)
PLANK_NUMBER_VIEW(else_if_branch_body, ELSE_IF_BRANCH_BODY)
PLANK_NUMBER_VIEW(match_expr_subject, MATCH_EXPR_SUBJECT)
PLANK_ITEM_VIEW(match_expr_arm, MATCH_EXPR_ARM)
PLANK_COUNT_VIEW(match_expr_arm_count, MATCH_EXPR_ARM_COUNT)
PLANK_NUMBER_VIEW(match_arm_key, MATCH_ARM_KEY)
PLANK_NUMBER_VIEW(match_arm_body, MATCH_ARM_BODY)
PLANK_NUMBER_VIEW(match_fallback_arm_bound, MATCH_FALLBACK_ARM_BOUND)
PLANK_NUMBER_VIEW(match_fallback_arm_binding, MATCH_FALLBACK_ARM_BINDING)
PLANK_SPAN_VIEW(match_fallback_arm_binding_span, MATCH_FALLBACK_ARM_BINDING_SPAN)
PLANK_NUMBER_VIEW(match_fallback_arm_body, MATCH_FALLBACK_ARM_BODY)

#undef PLANK_NUMBER_VIEW
#undef PLANK_ITEM_VIEW
#undef PLANK_SPAN_VIEW
#undef PLANK_COUNT_VIEW

#ifdef __cplusplus
}
#endif

#endif
