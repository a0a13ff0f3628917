/* Prints the reports of a script, one to a line, and then the names of its constants.
 *
 *   example [FILE]     standard input without FILE
 *
 * Exit status: 0 read, 1 refused, 2 the file or memory isn't there. */
#include "plank.h"

#include <inttypes.h>
#include <stdio.h>
#include <stdlib.h>

/* One byte more than a text may have, so that a longer one is refused as such. */
static uint8_t text[PLANK_MAX_TEXT + 1];

/* All words are the caller's: four slices of one piece of memory. */
struct words {
    struct plank_words tokens, nodes, values, reports;
};

static int lend(size_t text_len, struct words *lent) {
    size_t tokens = plank_enough_tokens(text_len);
    size_t nodes = plank_enough_nodes(text_len);
    size_t values = plank_enough_values(text_len);
    size_t reports = plank_enough_reports(text_len);
    uint32_t *memory = (uint32_t *)malloc((tokens + nodes + values + reports) * sizeof(uint32_t));
    if (memory == NULL) {
        return 0;
    }
    lent->tokens.words = memory;
    lent->tokens.len = tokens;
    lent->nodes.words = memory + tokens;
    lent->nodes.len = nodes;
    lent->values.words = memory + tokens + nodes;
    lent->values.len = values;
    lent->reports.words = memory + tokens + nodes + values;
    lent->reports.len = reports;
    return 1;
}

static void print_reports(struct plank_words reports, uint64_t count) {
    struct plank_report report;
    size_t i;
    for (i = 0; i < count && plank_report_at(reports.words, reports.len, i, &report); i++) {
        printf("report %" PRIu32 " detail %" PRIu32 " from %" PRIu32 " to %" PRIu32 "\n", report.kind, report.detail,
               report.start, report.end);
    }
}

/* The name of each constant of the file, which is node 0. Declarations that are no constant, or lack a name, tell
 * none. */
static void print_constants(size_t text_len, const struct words *lent) {
    const uint32_t *nodes = lent->nodes.words;
    size_t len = lent->nodes.len;
    uint64_t def;
    for (def = plank_first_child(nodes, len, 0); plank_is_number(def);
         def = plank_next_sibling(nodes, len, (uint32_t)def)) {
        uint64_t name = plank_const_decl_name(nodes, len, (uint32_t)def);
        if (plank_is_number(name)) {
            struct plank_part part =
                plank_spelling(text, text_len, lent->tokens.words, lent->tokens.len, (uint32_t)name);
            printf("const %.*s\n", (int)part.len, (const char *)part.start);
        }
    }
}

int main(int argc, char **argv) {
    FILE *file = argc > 1 ? fopen(argv[1], "rb") : stdin;
    struct words lent;
    struct plank_counts counts;
    uint64_t answer;
    size_t text_len;
    if (file == NULL) {
        perror(argv[1]);
        return 2;
    }
    text_len = fread(text, 1, sizeof text, file);
    if (ferror(file) || !lend(text_len, &lent)) {
        fputs("example: no text or no memory\n", stderr);
        return 2;
    }
    answer = plank_checked_read(text, text_len, lent.tokens, lent.nodes, lent.values, lent.reports, &counts);
    if (answer == 0) {
        print_reports(lent.reports, counts.reports);
        print_constants(text_len, &lent);
    } else {
        printf("refused %" PRIu32 " place %" PRIu32 "\n", plank_refusal(answer), plank_place(answer));
    }
    free(lent.tokens.words);
    return answer == 0 ? 0 : 1;
}
