/* One day through the C interface: two participants, two issues, worked out by hand from document 01. */
#include "allocation.h"

#include <stdio.h>

enum { PARTICIPANTS = 2, ISSUES = 2, TERM = 6, BASKET_C = 2 };

static uint64_t book[ALLOCATION_BOOK];
static uint64_t matches[ALLOCATION_MATCHES];
static uint64_t lines[ALLOCATION_LINES];
static uint64_t receipts[PARTICIPANTS * ISSUES] = {2, 1, 0, 0};
static uint64_t pairs[ALLOCATION_BASKETS * PARTICIPANTS * PARTICIPANTS];

static int failures;

static void expect(const char *what, uint64_t found, uint64_t expected) {
    if (found != expected) {
        fprintf(stderr, "day.c: %s: %llu, not %llu\n", what, (unsigned long long)found, (unsigned long long)expected);
        failures++;
    }
}

static void expect_list(const char *what, const uint64_t *found, const uint64_t *expected, size_t count) {
    for (size_t k = 0; k < count; k++)
        expect(what, found[k], expected[k]);
}

/* where allocation.h has it */
static uint64_t position(unsigned participant) {
    return book[ALLOCATION_POSITIONS + 12 * BASKET_C + participant];
}

static void open_day(void) {
    static const char codes[] = "JP0000000018JP0000000026";
    /* kind 2, at par, no interest, no marks */
    static const uint64_t terms[TERM * ISSUES] = {2, 10000, 0, 0, 0, 0, 2, 10000, 0, 0, 0, 0};
    expect("a book's length", allocation_book_length(), ALLOCATION_BOOK);
    expect("opening with no list", allocation_open(PARTICIPANTS, ISSUES, NULL, 0, NULL, 0, NULL, 0, NULL, 0, NULL, 0), 1);
    expect("opening", allocation_open(PARTICIPANTS, ISSUES, (const uint8_t *)codes, sizeof codes - 1, terms, TERM * ISSUES, receipts,
                                      PARTICIPANTS * ISSUES, pairs, ALLOCATION_BASKETS * PARTICIPANTS * PARTICIPANTS, book, ALLOCATION_BOOK),
           ALLOCATION_ACCEPTED);
}

static uint64_t run_day(uint64_t first, uint64_t second) {
    const uint64_t draw[PARTICIPANTS] = {first, second};
    return allocation_run(book, ALLOCATION_BOOK, draw, PARTICIPANTS, matches, ALLOCATION_MATCHES, lines, ALLOCATION_LINES);
}

/* "notified and scheduled 2 and 1 lots, 120,000 yen: lots 2 and 1" */
static void first_run(void) {
    static const uint64_t issues[ISSUES] = {0, 1}, lots[ISSUES] = {2, 1};
    static const uint64_t match[ALLOCATION_MATCH] = {BASKET_C, 0, 1, 120000, 120000, 0, 0};
    static const uint64_t two_lines[2 * ALLOCATION_LINE] = {0, 0, 2, 0, 1, 1};
    expect("a trade", allocation_trade(book, ALLOCATION_BOOK, 0, 1, BASKET_C, 120000), ALLOCATION_ACCEPTED);
    expect("a trade with oneself", allocation_trade(book, ALLOCATION_BOOK, 1, 1, BASKET_C, 120000), 7);
    expect("the seller's position", position(0), 120000);
    expect("the buyer's position", position(1), (uint64_t)-120000);
    expect("a notice", allocation_notice(book, ALLOCATION_BOOK, 0, issues, ISSUES, lots, ISSUES), ALLOCATION_ACCEPTED);
    expect("a notice of nothing", allocation_notice(book, ALLOCATION_BOOK, 0, NULL, 0, NULL, 0), 12);

    uint64_t returned = run_day(1, 0);
    expect("a run", allocation_ran(returned), 1);
    expect("its matches", allocation_matches_of(returned), 1);
    expect("its lines", allocation_lines_of(returned), 2);
    expect_list("a match", matches, match, ALLOCATION_MATCH);
    expect_list("a line", lines, two_lines, 2 * ALLOCATION_LINE);
    expect("a position that was covered", position(0), 0);
}

/* "Run 3, no notice, 120,000 yen: 3 forced lots of issue 0" */
static void other_runs(void) {
    static const uint64_t carried[ALLOCATION_MATCH] = {BASKET_C, 1, 0, 120000, 0, 0, 0};
    static const uint64_t forced[ALLOCATION_MATCH] = {BASKET_C, 1, 0, 120000, 120000, 0, 3};
    static const uint64_t line[ALLOCATION_LINE] = {0, 0, 3};
    expect("a trade back", allocation_trade(book, ALLOCATION_BOOK, 1, 0, BASKET_C, 120000), ALLOCATION_ACCEPTED);
    uint64_t returned = run_day(0, 1);
    expect("the second run's matches", allocation_matches_of(returned), 1);
    expect("its lines", allocation_lines_of(returned), 0);
    expect_list("a match without cover", matches, carried, ALLOCATION_MATCH);
    returned = run_day(0, 1);
    expect("the third run's lines", allocation_lines_of(returned), 1);
    expect_list("a forced match", matches, forced, ALLOCATION_MATCH);
    expect_list("its line", lines, line, ALLOCATION_LINE);
    expect("a fourth run", run_day(0, 1), 6);
}

static void close_day(void) {
    /* 0 gave 2 and 1 lots and got 3 of issue 0 back */
    static const uint64_t tomorrow[PARTICIPANTS * ISSUES] = {0, 1, 1, 0};
    uint64_t marks[ALLOCATION_BASKETS * PARTICIPANTS * PARTICIPANTS] = {0};
    marks[BASKET_C * 4 + 1] = marks[BASKET_C * 4 + 2] = 1;
    expect("a close that is lent nothing", allocation_close(book, ALLOCATION_BOOK, NULL, 0, NULL, 0), 15);
    expect("a close", allocation_close(book, ALLOCATION_BOOK, receipts, PARTICIPANTS * ISSUES, pairs, ALLOCATION_BASKETS * 4), ALLOCATION_ACCEPTED);
    expect_list("tomorrow's receipts", receipts, tomorrow, PARTICIPANTS * ISSUES);
    expect_list("tomorrow's pairs", pairs, marks, ALLOCATION_BASKETS * 4);
}

int main(void) {
    open_day();
    first_run();
    other_runs();
    close_day();
    if (failures == 0)
        puts("C: a day from opening to close, as worked out by hand");
    return failures != 0;
}
