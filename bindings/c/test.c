/* What plank.h answers, for a good text and for wrong use. Prints nothing and ends with 0, or stops at the line that
 * fails. */
#include "plank.h"

#include <stdio.h>
#include <stdlib.h>
#include <string.h>

#define CHECK(condition)                                                    \
    do {                                                                    \
        if (!(condition)) {                                                 \
            fprintf(stderr, "%s:%d: %s\n", __FILE__, __LINE__, #condition); \
            exit(1);                                                        \
        }                                                                   \
    } while (0)

#define SCRIPT "const a = b - 5 - \"xyzuv\"; const c = f(a, b);"

enum { LEN = sizeof SCRIPT - 1, WORDS = 4000 };

static const uint8_t *const script = (const uint8_t *)SCRIPT;

static uint32_t tokens[WORDS], nodes[WORDS], values[WORDS], reports[WORDS];

static struct plank_words words(uint32_t *start, size_t len) {
    struct plank_words lent;
    lent.words = start;
    lent.len = len;
    return lent;
}

static uint64_t read_script(struct plank_counts *counts) {
    return plank_checked_read(script, LEN, words(tokens, WORDS), words(nodes, WORDS), words(values, WORDS),
                              words(reports, WORDS), counts);
}

/* The spelling of a name, or nothing where the answer is no name. */
static int is_name(uint64_t answer, const char *name) {
    struct plank_part part = plank_spelling(script, LEN, tokens, WORDS, (uint32_t)answer);
    return plank_is_number(answer) && part.len == strlen(name) && memcmp(part.start, name, part.len) == 0;
}

static void test_reading(void) {
    struct plank_counts counts;
    CHECK(LEN <= PLANK_MAX_TEXT && plank_enough_nodes(LEN) <= WORDS);
    CHECK(read_script(&counts) == 0);
    CHECK(counts.reports == 0 && counts.values == 2 + 3);
    CHECK(plank_token_kind(tokens[0]) == PLANK_TOKEN_CONST && plank_token_end(tokens[0]) == 5);
    CHECK(plank_token_kind(tokens[counts.tokens - 1]) == PLANK_TOKEN_EOF);
    CHECK(plank_checked_lex(script, LEN, words(tokens, WORDS)) == counts.tokens);
    CHECK(read_script(NULL) == 0);
}

static void test_views(void) {
    uint32_t def, outer, inner, call;
    struct plank_token_span span;
    struct plank_node node;
    struct plank_value value;
    CHECK(read_script(NULL) == 0);
    CHECK(plank_file_def_count(nodes, WORDS, 0) == 2);
    def = (uint32_t)plank_file_def(nodes, WORDS, 0, 0);
    CHECK(is_name(plank_const_decl_name(nodes, WORDS, def), "a"));
    CHECK(plank_is_none(plank_const_decl_type(nodes, WORDS, def)));
    outer = (uint32_t)plank_const_decl_assign(nodes, WORDS, def);
    CHECK(plank_kind(nodes, WORDS, outer) == PLANK_NODE_BINARY_EXPR);
    CHECK(plank_binary_expr_op(nodes, WORDS, outer) == PLANK_BINARY_OP_MINUS);
    CHECK(plank_binary_expr_op_span(nodes, WORDS, outer, &span) == 0);
    CHECK(plank_token_kind(tokens[span.start]) == PLANK_TOKEN_MINUS && span.end == span.start + 1);
    inner = (uint32_t)plank_binary_expr_lhs(nodes, WORDS, outer);
    CHECK(is_name(plank_ident(nodes, WORDS, (uint32_t)plank_binary_expr_lhs(nodes, WORDS, inner)), "b"));

    CHECK(plank_node_at(nodes, WORDS, (uint32_t)plank_binary_expr_rhs(nodes, WORDS, inner), &node));
    CHECK(node.kind == PLANK_NODE_NUM_LITERAL && plank_value_at(values, WORDS, node.payload, &value));
    CHECK(value.tag == PLANK_VALUE_NUMBER && value.count == 1 && value.words[0] == 5);
    CHECK(plank_node_at(nodes, WORDS, (uint32_t)plank_binary_expr_rhs(nodes, WORDS, outer), &node));
    CHECK(node.kind == PLANK_NODE_STRING_LITERAL && plank_value_at(values, WORDS, node.payload, &value));
    CHECK(value.tag == PLANK_VALUE_STRING && value.count == 5);
    CHECK(plank_value_byte(value, 0) == 'x' && plank_value_byte(value, 4) == 'v' && plank_value_byte(value, 5) == 0);

    call = (uint32_t)plank_const_decl_assign(nodes, WORDS, (uint32_t)plank_file_def(nodes, WORDS, 0, 1));
    CHECK(plank_call_expr_arg_count(nodes, WORDS, call) == 2);
    CHECK(is_name(plank_ident(nodes, WORDS, (uint32_t)plank_call_expr_arg(nodes, WORDS, call, 1)), "b"));
    CHECK(plank_is_none(plank_call_expr_arg(nodes, WORDS, call, 2)));
}

/* The bytes of a string are those of the script, accents too. */
static void test_accents(void) {
    static const char spruce[] = "\xc3\xa9pinette";
    static const char text[] = "const a = \"\xc3\xa9pinette\";";
    struct plank_counts counts;
    struct plank_node node;
    struct plank_value value;
    uint32_t def, i;
    CHECK(plank_checked_read((const uint8_t *)text, sizeof text - 1, words(tokens, WORDS), words(nodes, WORDS),
                             words(values, WORDS), words(reports, WORDS), &counts) == 0);
    CHECK(counts.reports == 0);
    def = (uint32_t)plank_file_def(nodes, WORDS, 0, 0);
    CHECK(plank_node_at(nodes, WORDS, (uint32_t)plank_const_decl_assign(nodes, WORDS, def), &node));
    CHECK(node.kind == PLANK_NODE_STRING_LITERAL && plank_value_at(values, WORDS, node.payload, &value));
    CHECK(value.count == sizeof spruce - 1);
    for (i = 0; i < value.count; i++) {
        CHECK(plank_value_byte(value, i) == (uint8_t)spruce[i]);
    }
}

/* Refusals leave all words 0, and the counts. */
static void test_refusals(void) {
    struct plank_counts counts = {7, 7, 7, 7};
    uint64_t answer;
    size_t i;
    CHECK(read_script(NULL) == 0);
    answer = plank_checked_read(script, LEN, words(tokens, WORDS), words(nodes, PLANK_NODE_WIDTH), words(values, WORDS),
                                words(reports, WORDS), &counts);
    CHECK(plank_refusal(answer) == PLANK_REFUSAL_NODES_DONT_FIT && plank_place(answer) == 1);
    CHECK(counts.tokens == 0 && counts.nodes == 0 && counts.values == 0 && counts.reports == 0);
    for (i = 0; i < WORDS; i++) {
        CHECK(tokens[i] == 0 && values[i] == 0 && reports[i] == 0 && (i >= PLANK_NODE_WIDTH || nodes[i] == 0));
    }
    answer = plank_checked_lex((const uint8_t *)"a\xff", 2, words(tokens, WORDS));
    CHECK(plank_refusal(answer) == PLANK_REFUSAL_NOT_UTF8_START && plank_place(answer) == 1);
    answer = plank_checked_lex((const uint8_t *)"a\xe2\x82" "b", 4, words(tokens, WORDS));
    CHECK(plank_refusal(answer) == PLANK_REFUSAL_NOT_UTF8_LATER && plank_place(answer) == 1);
    answer = plank_checked_lex((const uint8_t *)"a\xe2\x82", 3, words(tokens, WORDS));
    CHECK(plank_refusal(answer) == PLANK_REFUSAL_NOT_UTF8_CUT && plank_place(answer) == 1);
    answer = plank_checked_lex(script, LEN, words(tokens, 3));
    CHECK(plank_refusal(answer) == PLANK_REFUSAL_TOKENS_DONT_FIT && plank_place(answer) > 3);
}

/* Both lexers give the same answer, with this refusal or none (0), and leave the same words. */
static void check_lexers(const char *text, size_t len, size_t lent, uint32_t refusal) {
    static uint32_t others[WORDS];
    uint64_t answer;
    memset(tokens, 0xa5, sizeof tokens);
    memset(others, 0xa5, sizeof others);
    answer = plank_checked_lex((const uint8_t *)text, len, words(tokens, lent));
    CHECK(plank_refusal(answer) == refusal);
    CHECK(plank_checked_lex_branching((const uint8_t *)text, len, words(others, lent)) == answer);
    CHECK(memcmp(tokens, others, sizeof tokens) == 0);
}

static void test_lexers(void) {
    static const char bad_tokens[] = "0xg 1_0 a\xc3\xa9 @ \"a\n/* /* */";
    static char too_long[PLANK_MAX_TEXT + 1];
    check_lexers(SCRIPT, LEN, WORDS, 0);
    check_lexers(bad_tokens, sizeof bad_tokens - 1, WORDS, 0);
    check_lexers("", 0, 1, 0);
    check_lexers("a\xff", 2, WORDS, PLANK_REFUSAL_NOT_UTF8_START);
    check_lexers(too_long, sizeof too_long, WORDS, PLANK_REFUSAL_TOO_LONG);
    check_lexers(SCRIPT, LEN, 3, PLANK_REFUSAL_TOKENS_DONT_FIT);
    check_lexers("", 0, 0, PLANK_REFUSAL_TOKENS_DONT_FIT);
    check_lexers("a\xe2\x82" "b", 4, WORDS, PLANK_REFUSAL_NOT_UTF8_LATER);
    check_lexers("a\xe2\x82", 3, WORDS, PLANK_REFUSAL_NOT_UTF8_CUT);
}

static void test_altered_words(void) {
    uint64_t answer;
    CHECK(read_script(NULL) == 0);
    nodes[0] = UINT32_C(50) << PLANK_NODE_LOW;
    answer = plank_file_def(nodes, WORDS, 0, 0);
    CHECK(plank_refusal(answer) == PLANK_REFUSAL_ALTERED_NODES && plank_place(answer) == 0);
    answer = plank_kind(nodes, WORDS, UINT32_MAX);
    CHECK(plank_refusal(answer) == PLANK_REFUSAL_ALTERED_NODES && plank_place(answer) == UINT32_MAX);
}

/* A walk over links meets what plank_child tells by number: the same children, and at the end none, or the same
 * refusal. */
static void check_walk(uint32_t n) {
    uint64_t child = plank_first_child(nodes, WORDS, n);
    uint32_t i = 0;
    while (plank_is_number(child)) {
        CHECK(child == plank_child(nodes, WORDS, n, i));
        child = plank_next_sibling(nodes, WORDS, (uint32_t)child);
        i++;
    }
    CHECK(child == plank_child(nodes, WORDS, n, i));
    CHECK(!plank_is_none(child) || plank_child_count(nodes, WORDS, n) == i);
}

/* Every node of the script; then every link of it altered, one at a time. */
static void test_walks(void) {
    static const uint32_t altered[] = {0, 1, 2, 3, 7, 665, 666, UINT32_MAX};
    struct plank_counts counts;
    uint32_t n, m;
    size_t i, link;
    CHECK(read_script(&counts) == 0 && counts.nodes > 9 && WORDS / PLANK_NODE_WIDTH == 666);
    for (n = 0; n < counts.nodes; n++) {
        check_walk(n);
    }
    for (m = 0; m < counts.nodes; m++) {
        for (link = 3; link < PLANK_NODE_WIDTH; link++) {
            uint32_t *word = &nodes[PLANK_NODE_WIDTH * m + link];
            uint32_t kept = *word;
            for (i = 0; i < sizeof altered / sizeof *altered; i++) {
                *word = altered[i];
                for (n = 0; n <= counts.nodes; n++) {
                    check_walk(n);
                }
            }
            *word = kept;
        }
    }
    nodes[PLANK_NODE_WIDTH] = UINT32_C(50) << PLANK_NODE_LOW;
    check_walk(0);
    check_walk(1);
    check_walk(UINT32_MAX);
}

/* Each child's parent is the node; a child of the file is its own declaration, any other has its parent's. */
static void check_family(uint32_t n) {
    uint64_t declaration = plank_enclosing_declaration(nodes, WORDS, n);
    uint64_t child = plank_first_child(nodes, WORDS, n);
    while (plank_is_number(child)) {
        CHECK(plank_parent(nodes, WORDS, (uint32_t)child) == n);
        CHECK(plank_enclosing_declaration(nodes, WORDS, (uint32_t)child) == (n == 0 ? child : declaration));
        child = plank_next_sibling(nodes, WORDS, (uint32_t)child);
    }
}

/* The innermost node covers the token, and none of its children does. */
static void check_token(uint32_t t) {
    uint64_t found = plank_node_at_token(nodes, WORDS, 0, t);
    uint64_t child;
    struct plank_node node;
    CHECK(plank_is_number(found) && plank_node_at(nodes, WORDS, (uint32_t)found, &node));
    CHECK(node.first <= t && t < node.end);
    for (child = plank_first_child(nodes, WORDS, (uint32_t)found); plank_is_number(child);
         child = plank_next_sibling(nodes, WORDS, (uint32_t)child)) {
        CHECK(plank_node_at(nodes, WORDS, (uint32_t)child, &node));
        CHECK(t < node.first || node.end <= t);
    }
}

static void test_family(void) {
    struct plank_counts counts;
    struct plank_node file;
    uint64_t answer;
    uint32_t n, t;
    CHECK(read_script(&counts) == 0 && plank_node_at(nodes, WORDS, 0, &file));
    CHECK(plank_is_none(plank_parent(nodes, WORDS, 0)));
    CHECK(plank_is_none(plank_enclosing_declaration(nodes, WORDS, 0)));
    for (n = 0; n < counts.nodes; n++) {
        check_family(n);
    }
    for (t = 0; t < file.end; t++) {
        check_token(t);
    }
    CHECK(plank_is_none(plank_node_at_token(nodes, WORDS, 0, file.end)));
    /* A ring of parents holds no declaration. */
    nodes[PLANK_NODE_WIDTH * 2 + 5] = 2;
    CHECK(plank_is_none(plank_enclosing_declaration(nodes, WORDS, 2)));
    CHECK(plank_refusal(plank_parent(nodes, WORDS, UINT32_MAX)) == PLANK_REFUSAL_ALTERED_NODES);
    /* A parent past the words is told as it stands, and refused where it is looked at. */
    nodes[PLANK_NODE_WIDTH * 2 + 5] = 666;
    CHECK(plank_parent(nodes, WORDS, 2) == 666);
    answer = plank_enclosing_declaration(nodes, WORDS, 2);
    CHECK(plank_refusal(answer) == PLANK_REFUSAL_ALTERED_NODES && plank_place(answer) == 666);
    /* A ring of children has no innermost node. */
    nodes[PLANK_NODE_WIDTH + 4] = 1;
    CHECK(plank_is_none(plank_node_at_token(nodes, WORDS, 0, 0)));
}

/* As many statements as a text may have: a walk over links goes through them at once. */
static void test_long_walk(void) {
    enum { STATEMENTS = 32760, BYTES = 7 + 2 * STATEMENTS };
    static uint8_t text[BYTES];
    static uint32_t all_tokens[BYTES + 1], all_nodes[PLANK_NODE_WIDTH * (3 * BYTES + 1)];
    size_t i, len = sizeof all_nodes / sizeof *all_nodes;
    uint64_t list, child;
    memcpy(text, "init {", 6);
    for (i = 0; i < STATEMENTS; i++) {
        memcpy(text + 6 + 2 * i, "a;", 2);
    }
    text[BYTES - 1] = '}';
    CHECK(plank_checked_read(text, BYTES, words(all_tokens, BYTES + 1), words(all_nodes, len), words(NULL, 0),
                             words(reports, WORDS), NULL) == 0);
    list = plank_first_child(all_nodes, len, (uint32_t)plank_first_child(all_nodes, len, 0));
    CHECK(plank_kind(all_nodes, len, (uint32_t)list) == PLANK_NODE_STATEMENTS_LIST);
    i = 0;
    for (child = plank_first_child(all_nodes, len, (uint32_t)list); plank_is_number(child);
         child = plank_next_sibling(all_nodes, len, (uint32_t)child)) {
        i++;
    }
    CHECK(plank_is_none(child) && i == STATEMENTS);
}

/* A path's segments are nodes; a name is the node's. */
static void test_segments(void) {
    static const char text[] = "use a::b::{c, d};";
    size_t len = sizeof text - 1;
    uint64_t segment;
    struct plank_part part;
    CHECK(plank_checked_read((const uint8_t *)text, len, words(tokens, WORDS), words(nodes, WORDS),
                             words(values, WORDS), words(reports, WORDS), NULL) == 0);
    segment = plank_import_group_path_segment(nodes, WORDS, 1, 1);
    CHECK(plank_kind(nodes, WORDS, (uint32_t)segment) == PLANK_NODE_IDENTIFIER);
    part = plank_spelling((const uint8_t *)text, len, tokens, WORDS,
                          (size_t)plank_ident(nodes, WORDS, (uint32_t)segment));
    CHECK(part.len == 1 && part.start[0] == 'b');
}

/* A null pointer of length 0 is an empty slice. */
static void test_empty(void) {
    struct plank_words none = words(NULL, 0);
    struct plank_node node;
    struct plank_report report;
    struct plank_value value;
    uint64_t answer;
    CHECK(plank_checked_lex(NULL, 0, words(tokens, 1)) == 1);
    CHECK(plank_checked_lex_branching(NULL, 0, words(tokens, 1)) == 1);
    CHECK(plank_checked_read(NULL, 0, words(tokens, 1), words(nodes, PLANK_NODE_WIDTH), none, none, NULL) == 0);
    answer = plank_checked_lex(NULL, 0, none);
    CHECK(plank_refusal(answer) == PLANK_REFUSAL_TOKENS_DONT_FIT && plank_place(answer) == 1);
    answer = plank_checked_read(NULL, 0, none, none, none, none, NULL);
    CHECK(plank_refusal(answer) == PLANK_REFUSAL_TOKENS_DONT_FIT && plank_place(answer) == 1);
    CHECK(plank_refusal(plank_kind(NULL, 0, 0)) == PLANK_REFUSAL_ALTERED_NODES);
    CHECK(plank_refusal(plank_child_count(NULL, 0, 0)) == PLANK_REFUSAL_ALTERED_NODES);
    CHECK(plank_refusal(plank_first_child(NULL, 0, 0)) == PLANK_REFUSAL_ALTERED_NODES);
    CHECK(plank_refusal(plank_next_sibling(NULL, 0, 0)) == PLANK_REFUSAL_ALTERED_NODES);
    CHECK(!plank_node_at(NULL, 0, 0, &node) && !plank_report_at(NULL, 0, 0, &report));
    CHECK(!plank_value_at(NULL, 0, 0, &value) && plank_spelling(NULL, 0, NULL, 0, 0).len == 0);
}

static void test_misuse(void) {
    struct plank_words none = words(NULL, 0);
    struct plank_words null = words(NULL, 1);
    struct plank_token_span span;
    CHECK(plank_checked_lex(NULL, 1, none) == plank_misuse(PLANK_MISUSE_NULL, PLANK_SLICE_TEXT));
    CHECK(plank_checked_lex(script, LEN, null) == plank_misuse(PLANK_MISUSE_NULL, PLANK_SLICE_TOKENS));
    CHECK(plank_checked_lex_branching(script, LEN, null) == plank_misuse(PLANK_MISUSE_NULL, PLANK_SLICE_TOKENS));
    CHECK(plank_checked_read(script, LEN, none, none, none, null, NULL) ==
          plank_misuse(PLANK_MISUSE_NULL, PLANK_SLICE_REPORTS));
    CHECK(plank_checked_read(script, LEN, words(tokens, WORDS), none, words(tokens + 9, 1), none, NULL) ==
          plank_misuse(PLANK_MISUSE_OVERLAP, PLANK_SLICE_VALUES));
    CHECK(plank_checked_lex((const uint8_t *)tokens, 4, words(tokens, 1)) ==
          plank_misuse(PLANK_MISUSE_OVERLAP, PLANK_SLICE_TOKENS));
    CHECK(plank_checked_lex(script, LEN, words(tokens, SIZE_MAX)) ==
          plank_misuse(PLANK_MISUSE_LENGTH, PLANK_SLICE_TOKENS));
    CHECK(plank_kind(NULL, 5, 0) == plank_misuse(PLANK_MISUSE_NULL, PLANK_SLICE_NODES));
    CHECK(plank_first_child(NULL, 5, 0) == plank_misuse(PLANK_MISUSE_NULL, PLANK_SLICE_NODES));
    CHECK(plank_next_sibling(NULL, 5, 0) == plank_misuse(PLANK_MISUSE_NULL, PLANK_SLICE_NODES));
    CHECK(plank_span(NULL, 5, 0, &span) == plank_misuse(PLANK_MISUSE_NULL, PLANK_SLICE_NODES));
    CHECK(plank_span(nodes, WORDS, 0, NULL) == plank_misuse(PLANK_MISUSE_NULL, PLANK_SLICE_SPAN));
}

int main(void) {
    test_reading();
    test_views();
    test_accents();
    test_refusals();
    test_lexers();
    test_altered_words();
    test_walks();
    test_family();
    test_long_walk();
    test_segments();
    test_empty();
    test_misuse();
    return 0;
}
