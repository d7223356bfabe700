/*
 * The yard planner: blocks to keep clear of, and shortest conduit runs around them.
 *
 * The archive is for x86-64 with what its level v2 adds (SSE4.2, POPCNT), which no call looks for, and for its System V
 * calling convention (Linux). It calls memcpy, memmove and memset and nothing else.
 *
 * The caller owns five tables, best in a struct yard, and lends them to every call but yard_read and the two that
 * convert a yard file, each as a pointer and a length in elements; the quote of a run is lent blocks and runs alone.
 * The lengths must be exactly those below. Together the tables take 48,750 bytes. No table or list that a call is lent
 * may overlap another, be it corners, holders, shares, ceilings, a file, an item, answers, an end, a quote, a kind,
 * points, a buffer or a length. Every pointer must be valid for its length and aligned for its element type; NULL is
 * allowed with length 0 alone, and is then an empty list.
 *
 * A call keeps nothing: there is no hidden state, no heap and no I/O. Calls on different tables may run at the same
 * time; calls on the same tables must not, except those that take them const beside each other. A call uses about 11 KiB
 * of stack (11,264 bytes at most where it was measured, on x86-64), yard_quote_route about 4 KiB (4,496 bytes),
 * yard_replay about 12.5 KiB (12,800 bytes) and a conversion of a yard file about 6 KiB (6,344 bytes): reserve 13 KiB. Only
 * yard_quote_duct takes more, about 19 KB.
 *
 * East is the first coordinate, north the second, from 0 to 32,767; lengths are in centimetres.
 *
 * A refused call (any answer but 0) changes nothing in any table or list. Only a yard_replay that answers 9, 10 or 22
 * has done something, and a conversion that is refused sets its length to 0: see there.
 */
#ifndef YARD_H
#define YARD_H

#include <stddef.h>
#include <stdint.h>

#ifdef __cplusplus
extern "C" {
#endif

/*
 * blocks: 24 records of 17 words. Word 0 is the count of corners (0 = absent, else 3 to 8), then eight corners, east
 * then north, anticlockwise; unused words are 0.
 */
#define YARD_BLOCKS_LEN 408

/*
 * runs: 24 records of 5 words, then one word. Word 0 of a record is 1, or 0 if absent; then the first end and the
 * second end, east then north. The word after the records is the least charge of a straight, from 0 to 1,000: a
 * straight is charged its length, rounded up to a whole centimetre, or the least charge where that is more; one of
 * length 0 is free.
 */
#define YARD_RUNS_LEN 121

/*
 * pairs: one byte for each two marks. Corner k of block n is mark 8 * n + k; the ends of run m are marks 192 + 2 * m
 * and 193 + 2 * m. The byte of marks i < j is at j * (j - 1) / 2 + i: 255 if either mark is absent, else the lowest
 * number of a block that hides the straight between them, else 253 if the straight is in a seam, else 254.
 *
 * A block hides a straight that has a point inside it; touching a side or a corner hides nothing. A straight is in a
 * seam if some point of it belongs to two different blocks, sides and corners included. A straight is clear if no block
 * hides it and it is in no seam: only then may a run take it. So a run with an end on a seam has no way.
 */
#define YARD_PAIRS_LEN 28680

/*
 * routes: 24 records of 197 words. Word 0 is the state (YARD_ROUTE_..), word 1 the length, word 2 the count of marks,
 * then the marks from the first end to the second; unused words are 0. The length is the sum of what the straights are
 * charged. A route is the chain of clear straights of least length, then of the fewest straights, then of the lowest
 * marks.
 */
#define YARD_ROUTES_LEN 4728

/*
 * totals: 25 words. Word n below 24 is how many bytes of pairs are n, and so name block n. The last, YARD_TOTALS_SUM,
 * is the sum of the lengths of found runs: it fits, for 24 runs of 193 straights of 46,340 are 214,646,880. An accepted
 * edit makes all words anew from pairs and routes as it leaves them, right or wrong, whatever totals held: wrong totals
 * do not refuse an edit, and do not outlast one.
 */
#define YARD_TOTALS_LEN 25

/* The five tables in one piece. */
struct yard {
    uint16_t blocks[YARD_BLOCKS_LEN];
    uint16_t runs[YARD_RUNS_LEN];
    uint8_t pairs[YARD_PAIRS_LEN];
    uint32_t routes[YARD_ROUTES_LEN];
    uint32_t totals[YARD_TOTALS_LEN];
};

/*
 * The tables of a struct yard, const or not, as the calls take them: yard_remove_block(YARD_TABLES(&yard), 3) and
 * yard_quote_duct(YARD_RECORDS(&yard), 3, ..). The argument is a pointer, and is written out several times.
 */
#define YARD_RECORDS(yard) (yard)->blocks, YARD_BLOCKS_LEN, (yard)->runs, YARD_RUNS_LEN
#define YARD_TABLES(yard)                                                                                              \
    YARD_RECORDS(yard), (yard)->pairs, YARD_PAIRS_LEN, (yard)->routes, YARD_ROUTES_LEN, (yard)->totals, YARD_TOTALS_LEN

#define YARD_BLOCK_WORDS 17
#define YARD_RUN_WORDS 5
#define YARD_CHARGE_AT 120 /* of runs: the least charge */
#define YARD_ROUTE_WORDS 197
#define YARD_TOTALS_SUM 24 /* of totals: the sum of the lengths of found runs */

#define YARD_ROUTE_ABSENT 0
#define YARD_ROUTE_FOUND 1
#define YARD_ROUTE_NO_WAY 2

/*
 * Answers. The questions are asked in this order but where another place is told, and the first that fails is the
 * answer.
 */
#define YARD_DONE 0             /* done; of yard_check: pairs, routes and totals are right */
#define YARD_WRONG_LENGTH 1     /* a table or list is not as long as stated */
#define YARD_WRONG_RECORD 2     /* a stored block, run or least charge is not one that these calls write */
#define YARD_WRONG_NUMBER 3     /* the number is not below 24, or the contractor not below 4 */
#define YARD_NOT_FREE 4         /* adding: the number is taken */
#define YARD_NOT_TAKEN 5        /* removing, moving, quoting or drawing: the number is free, or another contractor's */
#define YARD_WRONG_COUNT 6      /* adding a block: not 3 to 8 whole corners */
#define YARD_WRONG_COORDINATE 7 /* a new or moved coordinate, of a quoted move too, is not from 0 to 32,767 */
#define YARD_NOT_CONVEX 8       /* adding a block: some corner is not strictly left of every side that it is not on */
#define YARD_NOT_A_FILE 9       /* a yard file: not 5 to 8,192 bytes, the letters YRD and a version that is taken */
#define YARD_NOT_A_RECORD 10    /* a yard file: outside of it, the kind unknown or the record cut off */
#define YARD_NOT_DRAWN 11       /* checking or drawing: pairs, routes or totals are not what blocks and runs require */
#define YARD_TOO_MANY_BLOCKS 12 /* yard_quote_duct: more than 8 blocks stand */
#define YARD_WRONG_CHARGE 13    /* yard_set_charge: the least charge is above 1,000 */
#define YARD_WRONG_SHARES 18    /* in a contractor's name, after 2: shares, ceilings and holders do not fit together */
#define YARD_AT_CEILING 19      /* adding for a contractor, after 4: it holds as many runs as it may */
#define YARD_PROMISED 20        /* adding for a contractor, after 19: the free numbers are promised to the others */
#define YARD_TOO_FAR 21         /* yard_file_shorten: a step from a corner to the next is not from -128 to 127 */
#define YARD_OUTSIDE 22         /* a block of version 2, read, shortened or lengthened: a corner not from 0 to 32,767 */

/* An empty yard with least charge 0 and totals all 0, whatever the tables held. Answers 0 or 1. */
uint32_t yard_start(uint16_t *blocks, size_t blocks_len, uint16_t *runs, size_t runs_len, uint8_t *pairs,
                    size_t pairs_len, uint32_t *routes, size_t routes_len, uint32_t *totals, size_t totals_len);

/* corners: east then north of each corner, anticlockwise; corners_len counts words, 6 to 16. Answers 0 to 4, 6 to 8. */
uint32_t yard_add_block(uint16_t *blocks, size_t blocks_len, const uint16_t *runs, size_t runs_len, uint8_t *pairs,
                        size_t pairs_len, uint32_t *routes, size_t routes_len, uint32_t *totals, size_t totals_len,
                        uint32_t number, const uint16_t *corners, size_t corners_len);

/* Answers 0 to 3 and 5. */
uint32_t yard_remove_block(uint16_t *blocks, size_t blocks_len, const uint16_t *runs, size_t runs_len, uint8_t *pairs,
                           size_t pairs_len, uint32_t *routes, size_t routes_len, uint32_t *totals, size_t totals_len,
                           uint32_t number);

/* Move every corner by a displacement. Answers 0 to 3, 5 and 7. */
uint32_t yard_move_block(uint16_t *blocks, size_t blocks_len, const uint16_t *runs, size_t runs_len, uint8_t *pairs,
                         size_t pairs_len, uint32_t *routes, size_t routes_len, uint32_t *totals, size_t totals_len,
                         uint32_t number, int16_t east, int16_t north);

/* Answers 0 to 4 and 7. */
uint32_t yard_add_run(const uint16_t *blocks, size_t blocks_len, uint16_t *runs, size_t runs_len, uint8_t *pairs,
                      size_t pairs_len, uint32_t *routes, size_t routes_len, uint32_t *totals, size_t totals_len,
                      uint32_t number, uint16_t first_east, uint16_t first_north, uint16_t second_east,
                      uint16_t second_north);

/* Answers 0 to 3 and 5. */
uint32_t yard_remove_run(const uint16_t *blocks, size_t blocks_len, uint16_t *runs, size_t runs_len, uint8_t *pairs,
                         size_t pairs_len, uint32_t *routes, size_t routes_len, uint32_t *totals, size_t totals_len,
                         uint32_t number);

/* Both ends new. Answers 0 to 3, 5 and 7. */
uint32_t yard_move_run(const uint16_t *blocks, size_t blocks_len, uint16_t *runs, size_t runs_len, uint8_t *pairs,
                       size_t pairs_len, uint32_t *routes, size_t routes_len, uint32_t *totals, size_t totals_len,
                       uint32_t number, uint16_t first_east, uint16_t first_north, uint16_t second_east,
                       uint16_t second_north);

/*
 * Set the least charge of a straight, from 0 to 1,000. Every route is made anew by pairs as they stand, right or wrong,
 * and totals with them; pairs are kept. Answers 0 to 2 and 13.
 */
uint32_t yard_set_charge(const uint16_t *blocks, size_t blocks_len, uint16_t *runs, size_t runs_len,
                         const uint8_t *pairs, size_t pairs_len, uint32_t *routes, size_t routes_len, uint32_t *totals,
                         size_t totals_len, uint16_t figure);

/*
 * Shares among contractors. Up to four contractors, 0 to 3, draw on one yard, so that none takes all 24 run numbers.
 * shares has exactly YARD_CONTRACTORS bytes: how many runs each is promised. ceilings has as many: how many each may
 * hold at the most, also above 24. Both are only read. holders has exactly YARD_HOLDERS_LEN bytes: run m's is the
 * contractor that it was added for, or YARD_NOBODY where the run is absent. It is no table of the yard: the caller
 * keeps it beside the tables, sets it to YARD_NOBODY for a yard without runs, and lends it to the calls below, which
 * keep it true. The calls above know no holders: a run that they add or remove makes the calls below answer 18.
 *
 * Each call asks 1, 2, 18 and 3; adding then 4, 19, 20 and 7, removing 5, moving 5 and 7. 18 fails where a share is
 * above its ceiling; the shares sum to more than 24; a run that is there has no contractor as its holder, or one that
 * is not there has any but YARD_NOBODY; a contractor holds more runs than its ceiling; or there are fewer free numbers
 * than are left of all shares. 19 fails where the contractor holds as many runs as its ceiling, 20 where with one free
 * number fewer there would be fewer than are left of the others' shares.
 *
 * Answer 0 leaves the tables as the same edit in nobody's name does, and the holder of the run the contractor, after a
 * removal YARD_NOBODY; moving only reads holders. Any other answer changes nothing.
 *
 * So from a yard without runs that yard_check answers 0, with all holders YARD_NOBODY, after any list of these calls
 * and of edits of blocks and of the least charge, shares and ceilings the same in all and within the rules: a
 * contractor that holds fewer runs than its share finds a free number, and adding there with right coordinates
 * answers 0.
 */
#define YARD_CONTRACTORS 4
#define YARD_HOLDERS_LEN 24
#define YARD_NOBODY 255

/* Who holds which run, and what is promised. */
struct yard_shares {
    uint8_t holders[YARD_HOLDERS_LEN];
    uint8_t shares[YARD_CONTRACTORS];
    uint8_t ceilings[YARD_CONTRACTORS];
};

/* The lists of a struct yard_shares: yard_remove_run_for(YARD_TABLES(&yard), YARD_SHARES(&all), 2, 5). */
#define YARD_SHARES(all)                                                                                               \
    (all)->holders, YARD_HOLDERS_LEN, (all)->shares, YARD_CONTRACTORS, (all)->ceilings, YARD_CONTRACTORS

/* Answers 0 to 4, 7 and 18 to 20. */
uint32_t yard_add_run_for(const uint16_t *blocks, size_t blocks_len, uint16_t *runs, size_t runs_len, uint8_t *pairs,
                          size_t pairs_len, uint32_t *routes, size_t routes_len, uint32_t *totals, size_t totals_len,
                          uint8_t *holders, size_t holders_len, const uint8_t *shares, size_t shares_len,
                          const uint8_t *ceilings, size_t ceilings_len, uint32_t contractor, uint32_t number,
                          uint16_t first_east, uint16_t first_north, uint16_t second_east, uint16_t second_north);

/* Answers 0 to 3, 5 and 18. */
uint32_t yard_remove_run_for(const uint16_t *blocks, size_t blocks_len, uint16_t *runs, size_t runs_len, uint8_t *pairs,
                             size_t pairs_len, uint32_t *routes, size_t routes_len, uint32_t *totals, size_t totals_len,
                             uint8_t *holders, size_t holders_len, const uint8_t *shares, size_t shares_len,
                             const uint8_t *ceilings, size_t ceilings_len, uint32_t contractor, uint32_t number);

/* Answers 0 to 3, 5, 7 and 18. */
uint32_t yard_move_run_for(const uint16_t *blocks, size_t blocks_len, uint16_t *runs, size_t runs_len, uint8_t *pairs,
                           size_t pairs_len, uint32_t *routes, size_t routes_len, uint32_t *totals, size_t totals_len,
                           const uint8_t *holders, size_t holders_len, const uint8_t *shares, size_t shares_len,
                           const uint8_t *ceilings, size_t ceilings_len, uint32_t contractor, uint32_t number,
                           uint16_t first_east, uint16_t first_north, uint16_t second_east, uint16_t second_north);

/* Are pairs, routes and totals what blocks and runs require? Changes nothing. Answers 0, 1, 2 or 11. */
uint32_t yard_check(const uint16_t *blocks, size_t blocks_len, const uint16_t *runs, size_t runs_len,
                    const uint8_t *pairs, size_t pairs_len, const uint32_t *routes, size_t routes_len,
                    const uint32_t *totals, size_t totals_len);

/*
 * How a run's route is drawn: as pieces, straight and bend in turn, numbered from 0. A route with k marks between its
 * ends has pieces 0 to 2 * k, and those with odd numbers are bends; a run with no way has none. At a mark P between
 * marks A and C the bend starts at P + (A - P) / 8 and finishes at P + (C - P) / 8; its corner is P. The straights go
 * from the first end to the first start, from each finish to the next start, and from the last finish to the second
 * end. A bend is the cubic Bezier curve from its start to its finish with both control points at its corner, shown at
 * nine points, t = 0 to 8 eighths. A point is two doubles, east then north; each is exact, a whole number of 4,096ths.
 *
 * kind has exactly YARD_KIND_LEN words and is set to YARD_PIECE_.. . yard_piece fills points, which has exactly
 * YARD_PIECE_POINTS_LEN doubles, with the two points of a straight or with start, corner and finish of a bend.
 * yard_bend fills points, which has exactly YARD_BEND_POINTS_LEN doubles, with the nine points of a bend in order of t;
 * for any other number its kind is YARD_PIECE_NONE. Every double that is not filled is 0. Where there is no such piece,
 * the answer is 0 too, with YARD_PIECE_NONE and points all 0.
 *
 * The tables are only read. Each call asks of all of them what yard_check asks, and costs as much as one. A run is
 * priced by the marks in routes, never by its drawing. Both answer 0 to 3, 5 and 11.
 */
#define YARD_KIND_LEN 1
#define YARD_PIECE_POINTS_LEN 6
#define YARD_BEND_POINTS_LEN 18

#define YARD_PIECE_NONE 0
#define YARD_PIECE_STRAIGHT 1
#define YARD_PIECE_BEND 2

uint32_t yard_piece(const uint16_t *blocks, size_t blocks_len, const uint16_t *runs, size_t runs_len,
                    const uint8_t *pairs, size_t pairs_len, const uint32_t *routes, size_t routes_len,
                    const uint32_t *totals, size_t totals_len, uint32_t run, uint32_t piece, uint32_t *kind,
                    size_t kind_len, double *points, size_t points_len);

uint32_t yard_bend(const uint16_t *blocks, size_t blocks_len, const uint16_t *runs, size_t runs_len,
                   const uint8_t *pairs, size_t pairs_len, const uint32_t *routes, size_t routes_len,
                   const uint32_t *totals, size_t totals_len, uint32_t run, uint32_t piece, uint32_t *kind,
                   size_t kind_len, double *points, size_t points_len);

/*
 * The route of a run from blocks and runs alone, where there is no memory for pairs: whether a straight is clear is
 * tested only where the best route so far goes. route has exactly YARD_ROUTE_WORDS words, and is filled with the
 * record that blocks and runs require, the least charge in runs too: what right tables hold for the run in routes.
 * Blocks and runs are only read. Answers 0 to 3 and 5.
 */
uint32_t yard_quote_route(const uint16_t *blocks, size_t blocks_len, const uint16_t *runs, size_t runs_len,
                          uint32_t run, uint32_t *route, size_t route_len);

/*
 * The price of every run after a move of a block, before the move is made. quote has exactly YARD_MOVE_QUOTE_LEN words:
 * the state (YARD_ROUTE_..) of each of the 24 runs, then, from YARD_MOVE_QUOTE_LENGTHS on, the length of each, 0 where
 * the run is absent or has no way. They are those that blocks and runs, the least charge in runs too, require with
 * every corner of the block moved by the displacement, whatever pairs, routes and totals hold: over right tables, what
 * yard_move_block then leaves in routes. The answer is that of yard_move_block, but that question 1 is asked of quote
 * too. The tables are only read. The call uses about 11 KiB of stack (11,264 bytes at most where it was measured):
 * reserve 13 KiB. Answers 0 to 3, 5 and 7.
 */
#define YARD_MOVE_QUOTE_LEN 48
#define YARD_MOVE_QUOTE_LENGTHS 24 /* of quote: the first length */

uint32_t yard_quote_move(const uint16_t *blocks, size_t blocks_len, const uint16_t *runs, size_t runs_len,
                         const uint8_t *pairs, size_t pairs_len, const uint32_t *routes, size_t routes_len,
                         const uint32_t *totals, size_t totals_len, uint32_t number, int16_t east, int16_t north,
                         uint32_t *quote, size_t quote_len);

/*
 * The duct of a run: a way that is laid only east-west and north-south, along the lines through every corner of a
 * standing block and through the run's two ends. It goes from crossing to neighbouring crossing of these lines by
 * straights that are clear. Its cost is its plain length, whatever the least charge, and 25 for each change of
 * direction; the least cost is taken, then the fewest changes, then the first list of crossings, compared east before
 * north. Ends in one place are a duct of that one crossing, cost 0, where the place is clear.
 *
 * quote has exactly YARD_DUCT_QUOTE_LEN words: the state (YARD_ROUTE_FOUND or YARD_ROUTE_NO_WAY), the cost and the
 * count of crossings, both 0 where there is no way. crossings has exactly YARD_DUCT_CROSSINGS_LEN words: east and
 * north of every crossing on the way, bends or not, from the first end to the second; all other words are 0. It is
 * scratch during a call that is accepted, so nobody else may look at it meanwhile. Blocks and runs are only read. The
 * call uses about 19 KB of stack (18,992 bytes where it was measured): reserve 24 KiB. Answers 0 to 3, 5 and 12.
 */
#define YARD_DUCT_QUOTE_LEN 3
#define YARD_DUCT_CROSSINGS_LEN 8712

uint32_t yard_quote_duct(const uint16_t *blocks, size_t blocks_len, const uint16_t *runs, size_t runs_len, uint32_t run,
                         uint32_t *quote, size_t quote_len, uint16_t *crossings, size_t crossings_len);

/*
 * A yard file is the letters YRD, a 16-bit version, 1 or 2, low byte first, then records from position 5 on: a kind
 * byte, a number byte, and fields of 16 bits, low byte first. It has at most YARD_FILE_LEN bytes. Kinds: 1 add block (a
 * count byte c, then c corners), 2 remove block, 3 move block (two displacements, two's complement), 4 add run and 6
 * move run (four coordinates), 5 remove run, 7 set the least charge (one field; the number byte is ignored, and may be
 * any).
 *
 * The versions differ in kind 1. In version 1 each corner is two fields, east and north: 3 + 4 * c bytes with kind,
 * number and count. In version 2 the first corner is two fields, and each later one two signed bytes, how far east and
 * how far north it lies from the corner before: 5 + 2 * c bytes, or 3 where c is 0. There every corner, whatever the
 * count, must be from 0 to 32,767, or the record is refused with 22; in version 1 the edit itself refuses it, with 7.
 *
 * yard_read looks at the record at a position. item has room for exactly YARD_ITEM_LEN words; answer 0 fills it with
 * the record's kind, its number, the position of its fields (of kind 1: of the count byte) and the position of the next
 * record. At the end of the file the kind is 0. Answers 0, 9, 10 or 22, or 1 if item has another length; item is then
 * kept. Positions are the file's own, so a program that wants a block's corners looks at the version; yard_replay takes
 * both.
 */
#define YARD_FILE_LEN 8192
#define YARD_ITEM_LEN 4

uint32_t yard_read(const uint8_t *file, size_t file_len, size_t at, uint64_t *item, size_t item_len);

/*
 * yard_replay calls the edits of a yard file in order, on the tables as they are. answers has at least YARD_ANSWERS_LEN
 * words, since a file has up to 4,093 records: the answer of each edit is put there, from the first word on, and the
 * words after them are kept. A refused edit does not stop it; where the tables are not as long as stated, each edit
 * answers 1. end has exactly YARD_END_LEN words: how many edits were called, and the position where the file ended or
 * stopped.
 *
 * Answers 0 at the end of the file; 10 or 22 at a record that cannot be read, and the edits before it stand; 9 where it
 * is no yard file, and then no edit is called and the position is 0. Answers 1 if answers is shorter or end has another
 * length; then nothing is changed, end neither.
 */
#define YARD_ANSWERS_LEN 4096
#define YARD_END_LEN 2

uint32_t yard_replay(uint16_t *blocks, size_t blocks_len, uint16_t *runs, size_t runs_len, uint8_t *pairs,
                     size_t pairs_len, uint32_t *routes, size_t routes_len, uint32_t *totals, size_t totals_len,
                     const uint8_t *file, size_t file_len, uint32_t *answers, size_t answers_len, uint64_t *end,
                     size_t end_len);

/*
 * yard_file_shorten turns a file of version 1 into one of version 2, yard_file_lengthen one of version 2 into one of
 * version 1: the same records, so the same edits. There and back gives the same bytes, from either version. buffer has
 * exactly YARD_FILE_LEN bytes, and length exactly one word: answer 0 fills buffer with the result and zeros after it,
 * and length with the result's length. Any other answer keeps buffer; it sets length to 0, but 1, where a list has
 * another length, keeps length too.
 *
 * Each question is put to all records before the next: 9, also for a file of the other version; 10; shortening, 21; 22,
 * of the corners of blocks; and last 9 again, for a result of more than YARD_FILE_LEN bytes.
 */
uint32_t yard_file_shorten(const uint8_t *file, size_t file_len, uint8_t *buffer, size_t buffer_len, uint32_t *length,
                           size_t length_len);

uint32_t yard_file_lengthen(const uint8_t *file, size_t file_len, uint8_t *buffer, size_t buffer_len, uint32_t *length,
                            size_t length_len);

#ifdef __cplusplus
}
#endif

#endif
