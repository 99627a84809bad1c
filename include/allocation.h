/* Subsequent collateral allocation for government bond repo: the calls of document 01, for C.
 *
 * Link crates/c_api/out/libc_api.a, which `rt lib` writes there after every function in it is proved.
 *
 * Every call answers for all arguments: no number and no content of the memory that is lent is out of bounds for it. It returns
 *     ALLOCATION_ACCEPTED    it was done
 *     1 to 16                the number that the check table of document 01 gives the refusal; nothing was written
 * and an accepted run returns its two counts in one number, see allocation_run.
 *
 * A list is a pointer and a count of its numbers (of bytes, for codes). Any count is taken, and a count of 0 with any pointer.
 *
 * What the caller owes, since no proof reaches it:
 *   - a pointer leads to as many numbers as the count beside it says, aligned as its type is
 *   - what a call writes overlaps with nothing else that is lent to the call
 *   - while a call runs no one else writes what is lent to it, and no one else reads what it writes
 * A call keeps no pointer and has no memory of its own, so calls on different books may run at the same time.
 *
 * Participants, issues and baskets are numbered from 0; baskets A to G are 0 to 6. A lot is 50,000 yen of face value.
 */
#ifndef ALLOCATION_H
#define ALLOCATION_H

#include <stddef.h>
#include <stdint.h>

#ifdef __cplusplus
extern "C" {
#endif

enum {
    ALLOCATION_ACCEPTED = 0,
    ALLOCATION_BASKETS = 7,
    /* the numbers of an entry, and the numbers that a run asks of the two lists: 77 matches, 2,464 lines */
    ALLOCATION_MATCH = 7,
    ALLOCATION_LINE = 3,
    ALLOCATION_MATCHES = 77 * ALLOCATION_MATCH,
    ALLOCATION_LINES = 2464 * ALLOCATION_LINE,
    /* the numbers of a book, and where it has what a reader may want; rows are as far apart as in the largest day */
    ALLOCATION_BOOK = 3832,
    ALLOCATION_RUNS = 2,         /* runs done */
    ALLOCATION_TRADES = 3,       /* trades accepted */
    ALLOCATION_POSITIONS = 1972, /* + 12 * basket + participant: yen owed to the clearing house, below 0 due from it; read as int64_t */
    ALLOCATION_NOTICES = 2056,   /* + 32 * participant + issue: lots notified for the coming run */
    ALLOCATION_TODAY = 2440,     /* + 144 * basket + 12 * deliverer + receiver: 1 where something was covered today */
    ALLOCATION_TALLY = 3448      /* + 32 * participant + issue: lots delivered less lots received; read as int64_t */
};

/* The numbers that a book has: ALLOCATION_BOOK. */
uint64_t allocation_book_length(void);

/* Opens a day in the book, whatever the book held.
 * Reads   codes: an ISIN of 12 bytes for each issue, rising.
 *         terms: 6 for each issue: kind, price, coupon, days of accrued interest, redeemed on the following day (0 or 1), interest paid
 *         on the following day (0 or 1).
 *         receipts: scheduled lots, by participant, then issue.
 *         pairs: 1 where something was covered yesterday, by basket, deliverer, receiver.
 * Writes  the whole book.
 * Refuses 1 a size, a count or the book's count is wrong; 2 a code; 3 a term; 4 a receipt or a pair mark.
 */
uint64_t allocation_open(uint64_t participants, uint64_t issues,
                         const uint8_t *codes, size_t codes_count, const uint64_t *terms, size_t terms_count,
                         const uint64_t *receipts, size_t receipts_count, const uint64_t *pairs, size_t pairs_count,
                         uint64_t *book, size_t book_count);

/* Adds yen to the seller's position in a basket and takes them from the buyer's.
 * Reads   the book.
 * Writes  two positions and the count of trades.
 * Refuses 5 unsound book; 6 three runs done; 7 participant or basket not of this day, or seller is buyer; 8 amount 0 or above 10^12 yen;
 *         9 the basket has no unmarked issue; 10 a position would pass 10^13 yen either way; 11 10,000 trades accepted already.
 */
uint64_t allocation_trade(uint64_t *book, size_t book_count,
                          uint64_t seller, uint64_t buyer, uint64_t basket, uint64_t yen);

/* Replaces the participant's notice for the coming run: lots[k] of issues[k], and 0 of every issue that is not named.
 * Reads   the book, issues, lots.
 * Writes  the participant's notified lots.
 * Refuses 5; 6; 7; 12 no entry, two counts, an issue not of the day, or one twice; 13 lots above 200,000,000.
 */
uint64_t allocation_notice(uint64_t *book, size_t book_count, uint64_t participant,
                           const uint64_t *issues, size_t issues_count, const uint64_t *lots, size_t lots_count);

/* Does the next run. The draw names each participant once.
 * Reads   the book, the draw.
 * Writes  matches: basket, deliverer, receiver, matched yen, covered yen, forced issue, forced lots (both 0 if none), in the order filled;
 *         lines: match number, issue, lots with forced ones; entries past the counts stay;
 *         of the book positions, tally, today's pairs, notices (cleared) and runs done.
 * Refuses 5; 6; 14 the draw does not name each participant once; 15 a list is shorter than ALLOCATION_MATCHES or ALLOCATION_LINES.
 * Returns 2^32 + matches * 2^16 + lines if accepted: see the three functions below.
 */
uint64_t allocation_run(uint64_t *book, size_t book_count, const uint64_t *draw, size_t draw_count,
                        uint64_t *matches, size_t matches_count, uint64_t *lines, size_t lines_count);

static inline int allocation_ran(uint64_t returned) { return returned >> 32 == 1; }
static inline size_t allocation_matches_of(uint64_t returned) { return (size_t)(returned >> 16 & 0xffff); }
static inline size_t allocation_lines_of(uint64_t returned) { return (size_t)(returned & 0xffff); }

/* Writes what tomorrow's opening reads, after three runs; may be repeated.
 * Reads   the book.
 * Writes  receipts (participants * issues of them) and pairs (7 * participants * participants); what is lent past those stays.
 * Refuses 5; 16 fewer than three runs; 15 a list is shorter than that.
 */
uint64_t allocation_close(const uint64_t *book, size_t book_count,
                          uint64_t *receipts, size_t receipts_count, uint64_t *pairs, size_t pairs_count);

#ifdef __cplusplus
}
#endif

#endif
