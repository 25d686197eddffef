/*
 * Golavimes: PBN (Portable Bridge Notation) for C and C++.
 *
 * Link with libgolavimes.a, which tools/archive writes to
 * target/staticlib. It is for Linux on x86-64 processors of level v2 or above
 * (SSE4.2, POPCNT). docs/FORMAT.md says what every answer means. Here are
 *   - reading: golavimes_read;
 *   - writing, an edition read and written again with every comment beside its
 *     tag, or at its board's end: golavimes_write;
 *   - planning, what is left to be solved in a new edition when an old one is
 *     at hand: golavimes_plan, golavimes_boards, golavimes_searches,
 *     golavimes_state, golavimes_record_behind;
 *   - finishing, the new edition written with a table for every whole deal:
 *     golavimes_finish;
 *   - LIN, a collection saved in that format converted to a page of PBN:
 *     golavimes_lin_to_pbn;
 *   - tables: five functions on double-dummy tables.
 *
 * Every function
 *   - returns the refusal number, 0 for none, and puts it into answer[0] too;
 *   - takes any bytes and any lengths: no input is a fault, and each function
 *     says below what it refuses;
 *   - reads only what it is lent to read and what it has written itself, writes
 *     only what it is lent to be written, and all of that, whatever stood there
 *     before;
 *   - allocates nothing, keeps nothing between calls and has no global state. It
 *     needs about 6 KiB of stack (measured; lend 16), whatever it is given, since
 *     no function calls itself.
 *     Calls that write different memory may run on several threads at once; they
 *     may read the same texts.
 *
 * What the caller sees to, since no function can test it:
 *   - Pointers are not null, also where the length is 0. With length 0 nothing
 *     is read or written there, so any aligned pointer that is not null will do.
 *   - The length of a text, a value, a page or the answers to slips is a number
 *     of bytes; that of cards or entries is a number of uint32_t words, not of
 *     bytes and not of cards or entries; that of slips, boards or searches is a
 *     number of uint64_t numbers, not of bytes and not of slips or boards. That
 *     many are there. A table has exactly 20 bytes, an answer array 3 to 10
 *     numbers as declared.
 *   - An answer array, slips, boards and searches are aligned as uint64_t is;
 *     cards and entries as uint32_t is, also where their length is 0. Bytes, the
 *     answers to slips too, need no alignment.
 *   - What is lent to be written (page, table, cards, entries, slips, boards,
 *     searches, answer) overlaps nothing else that is lent to the same call, so
 *     the boxes of the old and of the new edition are apart. The two texts and
 *     the answers to slips are only read and may be the same memory. No other
 *     thread reads or writes what is lent to be written, or writes what is lent
 *     to be read, until the call returns.
 *
 * How Rattle's types are passed: a slice, `&[u8]` or `&mut [u32]`, is a pointer
 * and then its length, in elements, in two parameters; an array, `&[u8; 20]` or
 * `&mut [u64; 4]`, is a pointer alone, since its length is fixed; a number is
 * itself.
 *
 * A table has twenty cells, a byte each: the tricks of the declarers N, S, E, W
 * in this order, each in NT, S, H, D, C. So cell = 5 * row + column.
 *
 * The answer array
 *   answer[0]  the refusal number, 0 for none
 *   answer[1]  the edition that the refusal is about: planning and finishing
 *              give 1 for the old one and 2 for the new one with refusals 1 to
 *              3; else 0
 *   answer[2]  the number that the refusal carries, 0 without a refusal
 *   answer[3]  and what follows: what the function answers, as said at each
 *              function; 0 after a refusal
 */
#ifndef GOLAVIMES_H
#define GOLAVIMES_H

#include <stddef.h>
#include <stdint.h>

#ifdef __cplusplus
extern "C" {
#endif

/* Refusals, and what answer[2] then carries. Each is given on its condition
 * and on no other. */
enum {
    GOLAVIMES_OVERLONG = 1,      /* the text has more than 16777215 bytes; its length */
    GOLAVIMES_BOX_FULL = 2,      /* it has more boards than cards were lent; all its boards */
    GOLAVIMES_LIST_FULL = 3,     /* it has more entries than were lent; all its entries */
    GOLAVIMES_SLIPS_SHORT = 4,   /* fewer slips were lent than there are deals to solve; those */
    GOLAVIMES_ANSWERS = 5,       /* the answers are not 20 bytes a slip; the deals to solve */
    GOLAVIMES_IMPOSSIBLE = 6,    /* a byte of the answers is above 13; the index of the first */
    GOLAVIMES_PAGE_FULL = 7,     /* the text is longer than the page; its length in bytes */
    GOLAVIMES_LENGTH = 8,        /* the trimmed value is not 20 characters; how many it is */
    GOLAVIMES_DIGIT = 9,         /* a character is no digit; the index of the first, from 0 */
    GOLAVIMES_FIELDS = 10,       /* a row is not of three fields; the row, from 0 */
    GOLAVIMES_DECLARER = 11,     /* a row's first field does not start with a seat; the row */
    GOLAVIMES_DENOMINATION = 12, /* a row's second field is no strain; the row */
    GOLAVIMES_RESULT = 13,       /* a row's third field is no number 0 to 255; the row */
    GOLAVIMES_OVER = 14,         /* a row's number is above 13; the row */
    GOLAVIMES_MISSING = 15,      /* cells have no row; how many */
    GOLAVIMES_NO_DEAL = 16       /* a LIN text gives no deal, or a faulty one; 0 */
};

/* Lengths in bytes. The last three are pages that are never refused. */
enum {
    GOLAVIMES_TABLE = 20,
    GOLAVIMES_DIGITS_PAGE = 20,
    GOLAVIMES_HEADER_PAGE = 34,
    GOLAVIMES_ROWS_PAGE = 180 /* 160 with cells below 100, 140 with cells below 10 */
};

/* The most bytes that a text may have. */
enum {
    GOLAVIMES_TEXT_LIMIT = 16777215
};

/* The uint32_t words of a card and of an entry, the uint64_t numbers of a slip,
 * of a board in golavimes_boards and of one in golavimes_searches. */
enum {
    GOLAVIMES_CARD_WORDS = 64,
    GOLAVIMES_ENTRY_WORDS = 4,
    GOLAVIMES_SLIP_NUMBERS = 5,
    GOLAVIMES_BOARD_NUMBERS = 5,
    GOLAVIMES_SEARCH_NUMBERS = 5
};

/* The words of a card, from 0. Seats N, E, S, W are 0 to 3, none is 4. Suits C,
 * D, H, S are 0 to 3. Words 39 to 50 are the place of an entry plus 1, 0 for
 * none; the entry is a tag value. Words 62 and 63 are 0. */
enum {
    GOLAVIMES_WORD_FIRST_ENTRY = 0,
    GOLAVIMES_WORD_ENTRIES = 1,
    GOLAVIMES_WORD_HAS_NUMBER = 2,   /* 1 if there is a board number */
    GOLAVIMES_WORD_NUMBER = 3,
    GOLAVIMES_WORD_DEALER = 4,
    GOLAVIMES_WORD_VULNERABLE = 5,   /* 0 None, 1 NS, 2 EW, 3 All */
    GOLAVIMES_WORD_DECLARER = 6,
    GOLAVIMES_WORD_HAS_RESULT = 7,   /* 1 if there is a result */
    GOLAVIMES_WORD_RESULT = 8,       /* the result plus 128 */
    GOLAVIMES_WORD_DEAL = 9,         /* 0 none, 1 parsed, 2 kept unparsed */
    GOLAVIMES_WORD_HANDS = 10,       /* N, E, S, W, two words each, the low one first */
    GOLAVIMES_WORD_CELLS = 18,       /* 20 words, in the order of the cells */
    GOLAVIMES_WORD_TABLE = 38,       /* 0 none, 1 DoubleDummyTricks, 2 OptimumResultTable */
    GOLAVIMES_WORD_BOARD_ID = 39,
    GOLAVIMES_WORD_EVENT = 40,
    GOLAVIMES_WORD_SITE = 41,
    GOLAVIMES_WORD_DATE = 42,
    GOLAVIMES_WORD_CONTRACT = 43,
    GOLAVIMES_WORD_NAMES = 44,       /* of the players N, E, S, W, a word each */
    GOLAVIMES_WORD_UNPARSED_DEAL = 48,
    GOLAVIMES_WORD_OPTIMUM_SCORE = 49,
    GOLAVIMES_WORD_PAR_CONTRACT = 50,
    GOLAVIMES_WORD_AUCTION = 51,     /* its first entry plus 1; 52 its entries, 53 its dealer, */
                                     /* 54 its end: 0 none, 1 +, 2 * */
    GOLAVIMES_WORD_PLAY = 55,        /* its first entry plus 1; 56 its entries, 57 its leader, */
                                     /* 58 its end, 59 its trump suit, 4 for none */
    GOLAVIMES_WORD_RECORD_START = 60, /* the record's first byte in the text */
    GOLAVIMES_WORD_RECORD_END = 61    /* the byte after its last */
};

/* The kinds of an entry, its word 0. But for a trick, word 1 is the start in the
 * text, word 2 the length in bytes, and word 3 what is said here, else 0. */
enum {
    GOLAVIMES_KIND_NAME = 1,       /* of a tag; its value is the next entry */
    GOLAVIMES_KIND_VALUE = 2,
    GOLAVIMES_KIND_DIRECTIVE = 3,  /* the tags before it in its record */
    GOLAVIMES_KIND_COMMENTARY = 4, /* the tags before it in its record */
    GOLAVIMES_KIND_DATA = 5,       /* a data line: 1 auction, 2 play, 3 optimum */
    GOLAVIMES_KIND_CALL = 6,       /* the code of the call */
    GOLAVIMES_KIND_ANNOTATION = 7, /* of the call before it */
    GOLAVIMES_KIND_TRICK = 8       /* leader, winner or 4, four slots, a byte each, lowest first: */
                                   /* 255 empty, else the number of the card's bit in a hand */
};

/*
 * Reading. The text of a collection becomes a card for each board and entries
 * for what the boards hold: tags, directives, commentary, data lines, calls,
 * annotations, tricks. docs/FORMAT.md has the words of a card in section 6 and
 * those of an entry in section 7. Neither holds text: an entry, tricks apart,
 * says where its bytes start in the text and how many they are, so keep the
 * text.
 *
 * Card k, from 0, is the 64 words from cards[64 * k] on; entry k is the 4 words
 * from entries[4 * k] on. Card words that name an entry hold its k plus 1, and
 * 0 for none; word 0, where the board's entries begin, holds k itself.
 *
 * A hand is a number of 52 bits: bit 13 * suit + rank is 1 for each of its
 * cards, with suits C, D, H, S from 0, and rank 0 for the 2, up to 12 for the
 * ace. North's is card[10] + ((uint64_t)card[11] << 32); East's, South's and
 * West's follow. A card's words 10 to 17 hold the last deal that parsed even
 * where word 9 is 2.
 *
 * answer[3] is the boards of the text, answer[4] their entries.
 *
 * cards_length and entries_length are words, so that 64 * b words lend b cards
 * and 4 * m words lend m entries. Words left over at the end, too few for a card
 * or an entry, count as none; they are zeroed too.
 *
 * Any bytes are read. A text may have no boards: it is taken, with 0 boards and
 * 0 entries.
 *
 * Refusals, in the order tested:
 *   1  the text has more than 16777215 bytes; answer[2] is its length
 *   2  it has more boards than cards are lent; answer[2] is all its boards
 *   3  they have more entries than are lent; answer[2] is all their entries
 * After a refusal every word of cards and entries is 0. After success the words
 * after the last card and after the last entry are 0.
 *
 * Counting goes on past what is lent, so the carried number is the whole need,
 * and a call with that much is never refused for it again. A host that does not
 * know the sizes calls
 *   - first with both lengths 0: refusal 2 carries the boards, b (a text without
 *     boards is taken at once);
 *   - then with 64 * b words of cards and no entries: refusal 3 carries the
 *     entries, m;
 *   - then with 64 * b and 4 * m words, which is taken.
 * Each call reads the whole text. A host that lends a guess first often needs
 * one call alone.
 *
 * A text of n bytes has at most n boards and at most 4 * n entries; both are
 * proved. So 64 * n words of cards and 16 * n words of entries are never too
 * few. They take 320 bytes of memory for each byte of the text, far more than
 * real collections need, so this is for short texts; else ask.
 *
 * How long it takes. Reading is linear in the text and in what is lent: texts of
 * 16777215 bytes, of six shapes, took 0.26 to 0.68 s (docs/SPEED.md has these
 * measurements and those below).
 */
uint64_t golavimes_read(const uint8_t *text, size_t text_length, uint32_t *cards,
                        size_t cards_length, uint32_t *entries, size_t entries_length,
                        uint64_t answer[5]);

/*
 * Example, in C: the number and the event of each board, in memory from malloc.
 *
 *     uint64_t read[5];
 *     size_t cards_length = 0, entries_length = 0, k;
 *     uint32_t *cards = malloc(sizeof *cards), *entries = malloc(sizeof *entries);
 *     while (cards != NULL && entries != NULL
 *            && golavimes_read(text, text_length, cards, cards_length, entries, entries_length,
 *                              read) != 0) {
 *         if (read[0] == GOLAVIMES_BOX_FULL) {
 *             cards_length = GOLAVIMES_CARD_WORDS * read[2];
 *             free(cards);
 *             cards = malloc(cards_length * sizeof *cards);
 *         } else if (read[0] == GOLAVIMES_LIST_FULL) {
 *             entries_length = GOLAVIMES_ENTRY_WORDS * read[2];
 *             free(entries);
 *             entries = malloc(entries_length * sizeof *entries);
 *         } else {
 *             break;
 *         }
 *     }
 *     if (cards == NULL || entries == NULL) {
 *         printf("no memory\n");
 *     } else if (read[0] != 0) {
 *         printf("refusal %d, %lu\n", (int)read[0], (unsigned long)read[2]);
 *     } else {
 *         for (k = 0; k < read[3]; k++) {
 *             const uint32_t *card = cards + GOLAVIMES_CARD_WORDS * k;
 *             uint32_t event_place = card[GOLAVIMES_WORD_EVENT];
 *             printf("board %lu:", (unsigned long)card[GOLAVIMES_WORD_NUMBER]);
 *             if (event_place != 0) {
 *                 const uint32_t *event = entries + GOLAVIMES_ENTRY_WORDS * (event_place - 1);
 *                 printf(" %.*s", (int)event[2], (const char *)text + event[1]);
 *             }
 *             printf("\n");
 *         }
 *     }
 *     free(cards);
 *     free(entries);
 */

/*
 * Writing. The text of a collection is read, as golavimes_read reads it, and
 * written on the page: its boards in order, the tags of each in a fixed order,
 * and every directive and every block of commentary, each once, after the tag
 * that it followed, or at the board's end where no tag of that name is written.
 * Among several Notes a directive stays with the one that has the value it
 * followed, else with the first. docs/FORMAT.md section 14 says what is written,
 * line by line.
 *
 * The written text stands at the start of the page, with zeros after it to the
 * page's end. It does not end in a zero byte: its length is answer[3], 0 after a
 * refusal. Lines end in LF. A text without boards is written as a header of 20
 * bytes.
 *
 * cards_length and entries_length are words, as for golavimes_read, and after
 * success cards and entries hold what golavimes_read leaves. Nothing that stood
 * in them is believed. page_length is bytes.
 *
 * Refusals, in the order tested:
 *   1  the text has more than 16777215 bytes; answer[2] is its length
 *   2  it has more boards than cards are lent; answer[2] is all its boards
 *   3  they have more entries than are lent; answer[2] is all their entries
 *   7  the written text is longer than the page; answer[2] is its length
 * answer[1] is always 0. After a refusal, 7 too, every byte of the page and every
 * word of cards and entries is 0.
 *
 * How much to lend. The bounds of golavimes_read hold for cards and entries. The
 * page never needs more than 177 * text_length + 20 bytes, which is below 2^32;
 * it is proved. The most is needed by records of a few bytes, since each board is
 * written with thirteen tags or more. So a host asks rather than
 * lends the bound: with page_length 0 (and page any pointer that is not null)
 * refusal 7 carries the need, and a page of that length is never refused. A host
 * that knows no size lends nothing at first, and after each refusal 2, 3 or 7
 * lends the carried number to what the refusal is about; the fourth call at the
 * latest is taken, unless the text is refused with 1.
 *
 * How long it takes. Each call reads the text once and goes over its boards once.
 * That is linear in the text and in what is lent, but for the tags of one record
 * times its entries: after each written tag the entries of its record are looked
 * through for comments, if there are any, and for each supplemental tag those
 * before it for its name. 40000 supplemental tags of different names in one record
 * took 2.6 s, 200000 took 66 s; with a directive after each, 10000 took 1.4 s and
 * 40000 took 19 s. A host that takes texts from strangers bounds their length. A
 * call that is refused with 7 does the same work as one that is not.
 */
uint64_t golavimes_write(const uint8_t *text, size_t text_length, uint32_t *cards,
                         size_t cards_length, uint32_t *entries, size_t entries_length,
                         uint8_t *page, size_t page_length, uint64_t answer[4]);

/*
 * Example, in C: a text that golavimes_read has just taken, with these cards and
 * entries, is written to standard output. The page's length is asked for first.
 *
 *     uint8_t none[1], *page;
 *     uint64_t written[4];
 *     golavimes_write(text, text_length, cards, cards_length, entries, entries_length, none, 0,
 *                     written);
 *     page = malloc(written[2]);
 *     if (page == NULL) {
 *         printf("no memory\n");
 *     } else if (golavimes_write(text, text_length, cards, cards_length, entries,
 *                                entries_length, page, written[2], written)
 *                != 0) {
 *         printf("refusal %d, %lu\n", (int)written[0], (unsigned long)written[2]);
 *     } else {
 *         fwrite(page, 1, written[3], stdout);
 *     }
 *     free(page);
 */

/*
 * Planning. An old and a new edition of a collection go in as text. Each board
 * of the new edition gets a state that says where its double-dummy table comes
 * from, and the deals that still need solving are listed.
 *
 * A board has a deal if word 9 of its card is 1 and each hand has 13 cards; no
 * other board has one. Deals are the same if the four hands are. A board has a
 * table if word 38 is not 0.
 *
 * The state is the first that fits:
 *   blank  the board has no deal
 *   own    it has a table
 *   old    a board of the old edition has the same deal and a table
 *   near   a board of the new edition has the same deal and a table
 *   twin   an earlier board of the new edition has the same deal
 *   solve  none of these
 * `from` is the first board that makes it old, near or twin, counted from 1 in
 * its own edition; 0 for blank, own and solve. That of near may stand after the
 * board; that of twin is always a solve board.
 *
 * A deal is listed exactly when a board of the new edition has it and no board
 * of either edition that has it has a table; and it is listed once.
 *
 * The record behind a board is a part of one of the texts: the record of board
 * `from` of the old edition for old, that of board `from` of the new edition for
 * near and twin, else the board's own. A record is never empty.
 *
 * Every planning function takes the same two texts and four boxes: cards and
 * entries of the old edition, cards and entries of the new one, in words. They
 * are written as golavimes_read writes them, each for its text, and nothing that
 * stood in them is believed: each call reads both texts anew.
 *
 * Refusals, in the order tested:
 *   1, 2, 3  of the old edition, as golavimes_read gives them; answer[1] is 1
 *   1, 2, 3  of the new edition; answer[1] is 2
 *   4        golavimes_plan alone: fewer slips are lent than boards have the
 *            state solve; answer[1] is 0 and answer[2] is solve
 * After a refusal every word of the four boxes, every slip and every number of
 * boards or searches is 0, also those of the edition that the refusal is not
 * about. After success what is not used is 0.
 *
 * How much to lend. The bounds of golavimes_read hold for each edition's boxes,
 * and slips are never more than the new edition's boards. A host that does not
 * know the sizes asks: it lends nothing at first, and after each refusal 2, 3 or
 * 4 lends the carried number to what the refusal is about, 64 words a card, 4 an
 * entry, 5 numbers a slip. What was lent so is never too little again, so the
 * sixth call at the latest is taken (the fifth where no slips are lent), unless
 * a text is refused with 1. golavimes_boards and golavimes_searches need 5
 * numbers a board: with length 0 they tell the boards in answer[3].
 *
 * How long it takes. Each text is read once a call. Each board without a table
 * is then sought among the boards of both editions, so the time of
 * golavimes_plan, golavimes_boards and golavimes_searches grows with the square
 * of the boards: 3000 boards without tables, all deals different, take
 * hundredths of a second, 10000 took 1 s, 30000 took 10 s and 100000 took 122 s
 * to plan. golavimes_searches makes each search twice and counts cards, and takes
 * up to some three times as long.
 */

/* The editions, in answer[1] and for the record behind a board. */
enum {
    GOLAVIMES_EDITION_NONE = 0,
    GOLAVIMES_EDITION_OLD = 1,
    GOLAVIMES_EDITION_NEW = 2
};

/* The states. */
enum {
    GOLAVIMES_STATE_BLANK = 0,
    GOLAVIMES_STATE_OWN = 1,
    GOLAVIMES_STATE_OLD = 2,
    GOLAVIMES_STATE_NEAR = 3,
    GOLAVIMES_STATE_TWIN = 4,
    GOLAVIMES_STATE_SOLVE = 5
};

/*
 * The totals, and the list of deals to solve.
 *
 * answer[3] is the boards of the new edition. Those of each state follow:
 * answer[4] blank, [5] own, [6] old, [7] near, [8] twin, [9] solve; so
 * answer[4 + s] is that of state s, and answer[3] is the sum of the six.
 *
 * slips_length is a number of uint64_t, so that 5 * s lend s slips; numbers left
 * over at the end count as none and are zeroed too. Slip k, from 0, is the 5
 * numbers from slips[5 * k] on: the position of a solve board in the new
 * edition, from 1, and its hands N, E, S, W, with the bits said above. Slips
 * stand in the order of the boards, answer[9] of them.
 */
uint64_t golavimes_plan(const uint8_t *old_text, size_t old_text_length,
                        const uint8_t *new_text, size_t new_text_length,
                        uint32_t *old_cards, size_t old_cards_length,
                        uint32_t *old_entries, size_t old_entries_length,
                        uint32_t *new_cards, size_t new_cards_length,
                        uint32_t *new_entries, size_t new_entries_length,
                        uint64_t *slips, size_t slips_length, uint64_t answer[10]);

/*
 * All boards of the new edition at once.
 *
 * answer[3] is the boards of the new edition. boards_length is a number of
 * uint64_t, so that 5 * b lend b boards. Board k, from 0, is the 5 numbers from
 * boards[5 * k] on: its state, its `from`, and the record behind it as edition
 * (1 old, 2 new), start and end, places in that edition's text; the end is the
 * byte after its last.
 *
 * Too few numbers are no refusal: as many boards are written as fit whole, the
 * first ones, and zeros after them. Compare answer[3] with what was lent.
 */
uint64_t golavimes_boards(const uint8_t *old_text, size_t old_text_length,
                          const uint8_t *new_text, size_t new_text_length,
                          uint32_t *old_cards, size_t old_cards_length,
                          uint32_t *old_entries, size_t old_entries_length,
                          uint32_t *new_cards, size_t new_cards_length,
                          uint32_t *new_entries, size_t new_entries_length,
                          uint64_t *boards, size_t boards_length, uint64_t answer[4]);

/*
 * What the searches for each board's deal compare, for traces of a plan.
 *
 * The deal of a board without a table is sought up to three times: for old among
 * all boards of the old edition and for near among all boards of the new one,
 * each time with a table; then for twin among the new boards before it. Each
 * search is made where those before it found no board. It goes from the first
 * board on, passes over a board without a deal or without a table that it seeks,
 * compares words 10 to 17 of any other in order and leaves it at the first that
 * differs; where all eight are equal the board is found and the search ends. A
 * board that is passed over counts 0 words, one that is found 8, any other its
 * equal ones from the front and the one that differs, 1 to 6.
 *
 * answer[3] is the boards of the new edition, answer[4] the words compared for
 * all of them. searches_length is a number of uint64_t, so that 5 * b lend b
 * boards. Board k, from 0, is the 5 numbers from searches[5 * k] on: its state
 * and its `from`, as golavimes_boards gives them, and the words compared in the
 * searches for old, for near and for twin, 0 for one that is not made.
 *
 * Too few numbers are no refusal: as many boards are written as fit whole, the
 * first ones, and zeros after them; answer[4] counts all boards all the same.
 */
uint64_t golavimes_searches(const uint8_t *old_text, size_t old_text_length,
                            const uint8_t *new_text, size_t new_text_length,
                            uint32_t *old_cards, size_t old_cards_length,
                            uint32_t *old_entries, size_t old_entries_length,
                            uint32_t *new_cards, size_t new_cards_length,
                            uint32_t *new_entries, size_t new_entries_length,
                            uint64_t *searches, size_t searches_length,
                            uint64_t answer[5]);

/*
 * One board of the new edition by its position, from 1. answer[3] is its state,
 * answer[4] its `from`. At a position outside 1 to the number of boards, which
 * is no refusal, both are 0. A blank board answers the same; the number of
 * boards is answer[3] of golavimes_plan or of golavimes_boards.
 *
 * A call reads both texts; for many boards golavimes_boards is the quicker way.
 */
uint64_t golavimes_state(const uint8_t *old_text, size_t old_text_length,
                         const uint8_t *new_text, size_t new_text_length,
                         uint32_t *old_cards, size_t old_cards_length,
                         uint32_t *old_entries, size_t old_entries_length,
                         uint32_t *new_cards, size_t new_cards_length,
                         uint32_t *new_entries, size_t new_entries_length,
                         uint64_t position, uint64_t answer[5]);

/*
 * The record behind one board of the new edition by its position, from 1.
 * answer[3] is its edition (1 old, 2 new), answer[4] its start in that edition's
 * text, answer[5] its length in bytes. At a position outside 1 to the number of
 * boards, which is no refusal, all three are 0.
 */
uint64_t golavimes_record_behind(const uint8_t *old_text, size_t old_text_length,
                                 const uint8_t *new_text, size_t new_text_length,
                                 uint32_t *old_cards, size_t old_cards_length,
                                 uint32_t *old_entries, size_t old_entries_length,
                                 uint32_t *new_cards, size_t new_cards_length,
                                 uint32_t *new_entries, size_t new_entries_length,
                                 uint64_t position, uint64_t answer[6]);

/*
 * Example, in C: each deal to solve is handed to a solver. The texts are short,
 * so their bounds are lent at once; n and m are their lengths. (One more word is
 * asked of malloc, since it may give a null pointer for 0 bytes.)
 *
 *     uint64_t plan[10], k;
 *     uint32_t *old_cards = malloc((64 * n + 1) * sizeof(uint32_t));
 *     uint32_t *old_entries = malloc((16 * n + 1) * sizeof(uint32_t));
 *     uint32_t *new_cards = malloc((64 * m + 1) * sizeof(uint32_t));
 *     uint32_t *new_entries = malloc((16 * m + 1) * sizeof(uint32_t));
 *     uint64_t *slips = malloc((5 * m + 1) * sizeof(uint64_t));
 *     if (!old_cards || !old_entries || !new_cards || !new_entries || !slips) {
 *         printf("no memory\n");
 *     } else if (golavimes_plan(old_text, n, new_text, m, old_cards, 64 * n, old_entries, 16 * n,
 *                               new_cards, 64 * m, new_entries, 16 * m, slips, 5 * m, plan)
 *                != 0) {
 *         printf("refusal %d, edition %d, %lu\n", (int)plan[0], (int)plan[1],
 *                (unsigned long)plan[2]);
 *     } else {
 *         for (k = 0; k < plan[4 + GOLAVIMES_STATE_SOLVE]; k++) {
 *             const uint64_t *slip = slips + GOLAVIMES_SLIP_NUMBERS * k;
 *             solve(slip[0], slip[1], slip[2], slip[3], slip[4]);
 *         }
 *     }
 *     free(old_cards);
 *     free(old_entries);
 *     free(new_cards);
 *     free(new_entries);
 *     free(slips);
 *
 * examples/host is a whole program, with texts of any length and a real solver.
 */

/*
 * Finishing. An old and a new edition go in as text, with the answers to the
 * slips of golavimes_plan. The new edition is written as golavimes_write writes
 * it, once every board with a deal has a table. By its state, a board has
 *   blank  what it has itself: its own table, or none
 *   own    its own table
 *   old    the cells of board `from` of the old edition
 *   near   the cells of board `from` of the new edition
 *   solve  the answer to its slip
 *   twin   the answer to the slip of board `from`
 * A table that is given is written as any table is, as a DoubleDummyTricks tag.
 * Where no board wants one, the page is that of golavimes_write.
 *
 * The answers are 20 bytes for each slip that golavimes_plan lists for the same
 * two texts, in the order of the slips, and 20 * answer[9] of golavimes_plan in
 * all: answers[20 * k] to answers[20 * k + 19] are the cells of slip k, from 0,
 * each from 0 to 13. Slips are not lent. Where there are none, answers_length is
 * 0, and answers is any pointer that is not null.
 *
 * The finished text stands at the start of the page, with zeros after it to the
 * page's end. It does not end in a zero byte: its length is answer[3], 0 after a
 * refusal.
 *
 * The lengths of the four boxes are words, as for golavimes_plan, and nothing
 * that stood in them is believed. After success they hold what golavimes_plan
 * leaves: cards and entries as read, and zeros after them. The cards do not show
 * the tables that were given: words 18 to 38 of such a board are 0. Read the page
 * to have them.
 *
 * Refusals, in the order tested:
 *   1, 2, 3  of the old edition, as golavimes_read gives them; answer[1] is 1
 *   1, 2, 3  of the new edition; answer[1] is 2
 *   5        answers_length is not 20 for each board with the state solve;
 *            answer[2] is solve
 *   6        a byte of the answers is above 13; answer[2] is the index of the
 *            first, from 0
 *   7        the finished text is longer than the page; answer[2] is its length
 * With 5, 6 and 7 answer[1] is 0. After a refusal every byte of the page and every
 * word of the four boxes is 0.
 *
 * How much to lend. The boxes need what golavimes_plan needs, so those that it
 * took are enough. The page needs at most 177 bytes for each byte of the new
 * edition, and 20, which is proved. A host asks rather than lends that: with
 * page_length 0 (and page any pointer that is not null) refusal 7 carries the
 * need, since no finished text is empty. The need is the same whatever the
 * answers are, and a page of that length is never refused.
 *
 * How long it takes. Each text is read once a call, each board without a table is
 * sought as golavimes_plan seeks it, and the new edition is written once. A call
 * that is refused with 7 does the same work as one that is not.
 */
uint64_t golavimes_finish(const uint8_t *old_text, size_t old_text_length,
                          const uint8_t *new_text, size_t new_text_length,
                          uint32_t *old_cards, size_t old_cards_length,
                          uint32_t *old_entries, size_t old_entries_length,
                          uint32_t *new_cards, size_t new_cards_length,
                          uint32_t *new_entries, size_t new_entries_length,
                          const uint8_t *answers, size_t answers_length,
                          uint8_t *page, size_t page_length, uint64_t answer[4]);

/*
 * Example, in C: after golavimes_plan has taken the texts with these boxes, as
 * above, and the tables of its slips stand in answers, the finished edition is
 * written to standard output.
 *
 *     uint8_t none[1], *page;
 *     uint64_t finished[4];
 *     size_t answers_length = GOLAVIMES_TABLE * plan[4 + GOLAVIMES_STATE_SOLVE];
 *     golavimes_finish(old_text, n, new_text, m, old_cards, 64 * n, old_entries, 16 * n, new_cards,
 *                      64 * m, new_entries, 16 * m, answers, answers_length, none, 0, finished);
 *     page = malloc(finished[2] + 1);
 *     if (page == NULL) {
 *         printf("no memory\n");
 *     } else if (golavimes_finish(old_text, n, new_text, m, old_cards, 64 * n, old_entries, 16 * n,
 *                                 new_cards, 64 * m, new_entries, 16 * m, answers, answers_length,
 *                                 page, finished[2], finished)
 *                != 0) {
 *         printf("refusal %d, %lu\n", (int)finished[0], (unsigned long)finished[2]);
 *     } else {
 *         fwrite(page, 1, finished[3], stdout);
 *     }
 *     free(page);
 */

/*
 * LIN. A collection saved as LIN, the format of Bridge Base Online, is converted
 * to PBN and written on the page. docs/FORMAT.md section 18 says what is read and
 * what is written.
 *
 * A LIN text is a run of pairs, command|value|. Where a command is qx, the text is
 * split at each qx, and the parts with an md are the boards; else every line that
 * is not blank is a board. Of a board are read
 *   md  the dealer and the hands; the last one with a dealer counts
 *   sv  the vulnerability; the last one counts
 *   mb  the calls
 *   pc  the cards played
 * and written, each in the tags of PBN: dealer, vulnerability, deal, the calls as
 * an auction; the contract, which is the last bid with the last X or XX after it,
 * and its declarer; and, where there was a bid, the cards as a play, trick by
 * trick, by seat from the opening leader on, with - for a seat without a card.
 *
 * Nothing else is carried over: no names and titles, no board headers and numbers
 * (no Board tag is written, and boards keep their order), no alerts and
 * annotations, no claims and results, no comments, and no cards played where there
 * was no bid. A value that is no call or no card is dropped. Whether calls and
 * cards are legal is not looked at.
 *
 * A board without cards in its hands is written too, with four empty hands, if
 * another board has some. In a text without a qx each line of text that is no
 * record, such as a heading, is such a board; planning calls it blank.
 *
 * The converted text stands at the start of the page, with zeros after it to the
 * page's end. It does not end in a zero byte: its length is answer[3]. answer[4] is
 * its boards. Both are 0 after a refusal. Nothing but the page is lent.
 *
 * The page is an edition. Its first answer[3] bytes go to golavimes_read,
 * golavimes_plan and all others as a text does, and what is read there are the
 * hands, the dealer, the vulnerability, the declarer, the calls and, where there
 * was a bid, the cards of the LIN text; it is proved. It is written with the
 * built-in letters (seats N E S W, suits S H D C, honours A K Q J T), as the LIN
 * text is read with them, and must be read with the built-in letters too, which
 * every function here does. A page of more than 16777215 bytes is not read: split
 * the LIN text.
 *
 * Refusals, in the order tested:
 *   1   the text has more than 16777215 bytes; answer[2] is its length
 *   16  no board has a card in its hands, or some board has a card twice or more
 *       than 13 cards in a hand; answer[2] is 0
 *   7   the converted text is longer than the page; answer[2] is its length
 * answer[1] is always 0. After a refusal every byte of the page is 0. Any bytes are
 * read; what is no LIN is passed over, up to refusal 16.
 *
 * How much to lend. The page never needs more than 256 * text_length + 20 bytes,
 * which is below 2^32; it is proved. The most is needed by boards of a few bytes,
 * since each is written with fourteen tags. So a host asks rather than lends the
 * bound: with page_length 0 (and page any pointer that is not null) refusal 7
 * carries the need, since no converted text is empty, and a page of that length is
 * never refused. Refusals 1 and 16 are given first, whatever the page's length.
 *
 * How long it takes. Each call goes over the text a fixed number of times, so the
 * time is linear in the text and in what is lent. A call that is refused with 7
 * does the same work as one that is not.
 */
uint64_t golavimes_lin_to_pbn(const uint8_t *text, size_t text_length, uint8_t *page,
                              size_t page_length, uint64_t answer[5]);

/*
 * Example, in C: a LIN text is written to standard output as PBN. The page's
 * length is asked for first.
 *
 *     uint8_t none[1], *page;
 *     uint64_t converted[5];
 *     if (golavimes_lin_to_pbn(text, text_length, none, 0, converted) != GOLAVIMES_PAGE_FULL) {
 *         printf("refusal %d, %lu\n", (int)converted[0], (unsigned long)converted[2]);
 *     } else if ((page = malloc(converted[2])) == NULL) {
 *         printf("no memory\n");
 *     } else {
 *         golavimes_lin_to_pbn(text, text_length, page, converted[2], converted);
 *         fwrite(page, 1, converted[3], stdout);
 *         free(page);
 *     }
 *
 * examples/lin is a whole program. With the text md|3SA|mb|1S|pc|D2| the page has
 * 241 bytes: the header of 20 bytes, the fourteen tags, and
 *
 *     [Auction "N"]
 *     1S
 *     [Play "E"]
 *     D2 - - -
 */

/*
 * Writers of tables. They write the text of a table to the start of the page
 * and zeros after it, to the page's end. Where the page is shorter than the
 * text, the whole page is zeroed, refusal 7 is given, and answer[2] is the
 * length that is needed; a page of that length is enough. The text does not end
 * in a zero byte: its length is answer[3], 0 after a refusal. Cells may hold any
 * byte.
 */

/* The value of a DoubleDummyTricks tag: 20 digits, 0 to 9 and a to d. A cell
 * above 13 is written as d. */
uint64_t golavimes_dd_table_to_pbn(const uint8_t table[20], uint8_t *page, size_t page_length,
                                   uint64_t answer[4]);

/* The value of an OptimumResultTable tag: 34 bytes. The width that it gives the
 * results is 2 where a cell exceeds 9, else 1. */
uint64_t golavimes_optimum_result_table_header(const uint8_t table[20], uint8_t *page,
                                               size_t page_length, uint64_t answer[4]);

/* The rows of an OptimumResultTable section: twenty lines in the order of the
 * cells, an LF after each. A row has 7 bytes, or 8 where a cell of the table
 * exceeds 9, with its LF; a row with a cell above 99 has 9. */
uint64_t golavimes_optimum_result_table_rows(const uint8_t table[20], uint8_t *page,
                                             size_t page_length, uint64_t answer[4]);

/*
 * Readers of tables. They fill the table, with twenty zeros after a refusal.
 * White space is the bytes 9 to 13 and 32.
 */

/* Reads the value of a DoubleDummyTricks tag: 20 digits, a to d in either case,
 * with white space around them. Refusals 8 and 9, in this order. A character is
 * a byte with the bytes 0x80 to 0xBF that follow it. */
uint64_t golavimes_dd_table_from_pbn(const uint8_t *value, size_t value_length, uint8_t table[20],
                                     uint64_t answer[3]);

/* Reads the rows of an OptimumResultTable section: a text cut at each LF. Rows
 * stand in any order, the last for a cell counts, blank ones are skipped. The
 * first row with a fault is refused, with 10, 11, 12, 13 or 14, whichever comes
 * first; 15 where no row has a fault and cells are left. */
uint64_t golavimes_optimum_result_table_from_rows(const uint8_t *rows, size_t rows_length,
                                                  uint8_t table[20], uint64_t answer[3]);

/*
 * Example: the rows of a table that is given in digits.
 *
 *     uint8_t table[GOLAVIMES_TABLE], page[GOLAVIMES_ROWS_PAGE];
 *     uint64_t read[3], written[4];
 *     if (golavimes_dd_table_from_pbn(value, value_length, table, read) != 0) {
 *         printf("refusal %d, %d\n", (int)read[0], (int)read[2]);
 *     } else {
 *         golavimes_optimum_result_table_rows(table, page, sizeof page, written);
 *         fwrite(page, 1, written[3], stdout);
 *     }
 *
 * examples/tables.c is a whole program.
 */

#ifdef __cplusplus
}
#endif

#endif
