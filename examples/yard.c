/* Yards over the library's C interface: one that is edited call by call, and one that a yard file describes. */
#include <inttypes.h>
#include <stdio.h>
#include <string.h>

#include "yard.h"

#define LENGTH(list) (sizeof(list) / sizeof(list)[0])

static struct yard yard;

static void answer(const char *call, uint32_t number) { printf("%s: answer %" PRIu32 "\n", call, number); }

static void print_route(unsigned m) {
    const uint32_t *route = yard.routes + YARD_ROUTE_WORDS * m;
    if (route[0] == YARD_ROUTE_NO_WAY) {
        printf("run %u no way\n", m);
    } else if (route[0] == YARD_ROUTE_FOUND) {
        printf("run %u length %" PRIu32 " marks", m, route[1]);
        for (uint32_t k = 0; k < route[2]; k++) printf(" %" PRIu32, route[3 + k]);
        printf("\n");
    }
}

/* What a panel's front page shows and need not add up: the length of all runs, and the block that most pairs name. */
static void print_totals(void) {
    unsigned most = 0;
    for (unsigned n = 1; n < YARD_TOTALS_SUM; n++) {
        if (yard.totals[n] > yard.totals[most]) most = n;
    }
    printf("runs of %" PRIu32 " cm in all", yard.totals[YARD_TOTALS_SUM]);
    if (yard.totals[most] > 0) printf(", %" PRIu32 " pairs name block %u", yard.totals[most], most);
    printf("\n");
}

static void edit_by_calls(void) {
    static const uint16_t square[] = {10, 10, 20, 10, 20, 20, 10, 20};
    static const uint16_t star[] = {10, 0, 16, 20, 0, 8, 20, 8, 4, 20};

    answer("start", yard_start(YARD_TABLES(&yard)));
    answer("add block 0", yard_add_block(YARD_TABLES(&yard), 0, square, LENGTH(square)));
    answer("add run 0", yard_add_run(YARD_TABLES(&yard), 0, 0, 15, 30, 15));
    print_route(0);
    answer("add run 1", yard_add_run(YARD_TABLES(&yard), 1, 0, 0, 3, 4));
    print_totals();
    answer("remove run 1", yard_remove_run(YARD_TABLES(&yard), 1));
    print_totals();

    /* Fitters charge each straight as at least so many centimetres. */
    answer("set the least charge to 15", yard_set_charge(YARD_TABLES(&yard), 15));
    print_route(0);
    print_totals();
    answer("set the least charge to 1001", yard_set_charge(YARD_TABLES(&yard), 1001));
    printf("the least charge is %u\n", yard.runs[YARD_CHARGE_AT]);
    answer("set the least charge to 0", yard_set_charge(YARD_TABLES(&yard), 0));

    answer("move block 0 north by 3", yard_move_block(YARD_TABLES(&yard), 0, 0, 3));
    print_route(0);

    /* Refused calls change nothing. */
    answer("move block 0 west by 11", yard_move_block(YARD_TABLES(&yard), 0, -11, 0));
    answer("add block 0 again", yard_add_block(YARD_TABLES(&yard), 0, square, LENGTH(square)));
    answer("add block 1, a star", yard_add_block(YARD_TABLES(&yard), 1, star, LENGTH(star)));
    answer("add block 1, no corners", yard_add_block(YARD_TABLES(&yard), 1, NULL, 0));
    answer("remove run 24", yard_remove_run(YARD_TABLES(&yard), 24));
    print_route(0);

    answer("move run 0 to start inside the block", yard_move_run(YARD_TABLES(&yard), 0, 15, 18, 30, 15));
    print_route(0);
    print_totals();
    answer("remove block 0", yard_remove_block(YARD_TABLES(&yard), 0));
    print_route(0);
    print_totals();
    answer("check", yard_check(YARD_TABLES(&yard)));

    /* Wrong totals are told by the check, and made right by the next edit, whatever it is. */
    yard.totals[YARD_TOTALS_SUM]++;
    answer("check after a total was changed", yard_check(YARD_TABLES(&yard)));
    answer("set the least charge to 0", yard_set_charge(YARD_TABLES(&yard), 0));
    answer("check", yard_check(YARD_TABLES(&yard)));

    yard.pairs[0] = 0;
    answer("check after a byte was changed", yard_check(YARD_TABLES(&yard)));
    answer("check with a short table",
           yard_check(yard.blocks, YARD_BLOCKS_LEN - 1, yard.runs, YARD_RUNS_LEN, yard.pairs, YARD_PAIRS_LEN,
                      yard.routes, YARD_ROUTES_LEN, yard.totals, YARD_TOTALS_LEN));
}

static const uint8_t file[] = {
    'Y', 'R', 'D', 1, 0,                                           /* a yard file, version 1 */
    1, 0, 4, 10, 0, 6, 0, 14, 0, 7, 0, 14, 0, 40, 0, 10, 0, 40, 0, /* add block 0, 4 corners */
    4, 0, 0, 0, 10, 0, 27, 0, 13, 0,                               /* add run 0 */
    2, 7,                                                          /* remove block 7, which is not there */
    1, 1, 3, 11, 0, 1, 0, 13, 0, 1, 0, 12, 0, 5, 0,                /* add block 1, 3 corners */
};

/* Each record of the file, from position 5 to its end. */
static void print_records(void) {
    uint64_t item[YARD_ITEM_LEN];
    size_t at = 5;
    while (yard_read(file, sizeof file, at, item, YARD_ITEM_LEN) == YARD_DONE && item[0] != 0) {
        printf("at %zu kind %" PRIu64 " number %" PRIu64 " fields at %" PRIu64 "\n", at, item[0], item[1], item[2]);
        at = (size_t)item[3];
    }
    printf("at %zu the end\n", at);
}

static void replay(const char *what, const uint8_t *bytes, size_t len) {
    static uint32_t answers[YARD_ANSWERS_LEN];
    uint64_t end[YARD_END_LEN];

    yard_start(YARD_TABLES(&yard));
    answer(what, yard_replay(YARD_TABLES(&yard), bytes, len, answers, YARD_ANSWERS_LEN, end, YARD_END_LEN));
    printf("%" PRIu64 " edits, up to position %" PRIu64 "\n", end[0], end[1]);
    for (uint64_t k = 0; k < end[0]; k++) printf("edit %" PRIu64 " answer %" PRIu32 "\n", k + 1, answers[k]);
    print_route(0);
}

static void print_points(const char *what, const double *points, size_t len) {
    printf("%s", what);
    for (size_t k = 0; k < len; k += 2) printf(" (%g,%g)", points[k], points[k + 1]);
    printf("\n");
}

/* How run 0 is drawn: straights by their two points and bends by start, corner and finish, until no piece is left. */
static void print_pieces(void) {
    uint32_t kind, piece = 0;
    double points[YARD_PIECE_POINTS_LEN];

    while (yard_piece(YARD_TABLES(&yard), 0, piece, &kind, YARD_KIND_LEN, points, YARD_PIECE_POINTS_LEN) == YARD_DONE &&
           kind != YARD_PIECE_NONE) {
        if (kind == YARD_PIECE_STRAIGHT) print_points("straight", points, 4);
        if (kind == YARD_PIECE_BEND) print_points("bend", points, 6);
        piece++;
    }
    printf("%" PRIu32 " pieces\n", piece);
}

/* The nine points of its bend, counted in 4,096ths and so in whole numbers. */
static void print_bend(void) {
    uint32_t kind;
    double points[YARD_BEND_POINTS_LEN];

    answer("bend", yard_bend(YARD_TABLES(&yard), 0, 1, &kind, YARD_KIND_LEN, points, YARD_BEND_POINTS_LEN));
    for (size_t k = 0; k < LENGTH(points); k++) points[k] *= 4096;
    print_points("in 4,096ths", points, LENGTH(points));
}

/* The route of run 0 as a till asks for it, with no pairs and no routes. */
static void quote_route(void) {
    uint32_t route[YARD_ROUTE_WORDS];

    answer("route of run 0", yard_quote_route(YARD_RECORDS(&yard), 0, route, YARD_ROUTE_WORDS));
    printf("length %" PRIu32 ", %sas stored\n", route[1], memcmp(route, yard.routes, sizeof route) == 0 ? "" : "not ");
}

static void print_duct(void) {
    static uint16_t crossings[YARD_DUCT_CROSSINGS_LEN];
    uint32_t quote[YARD_DUCT_QUOTE_LEN];

    answer("duct of run 0", yard_quote_duct(YARD_RECORDS(&yard), 0, quote, YARD_DUCT_QUOTE_LEN, crossings,
                                            YARD_DUCT_CROSSINGS_LEN));
    printf("cost %" PRIu32 " crossings", quote[1]);
    for (uint32_t k = 0; k < quote[2]; k++) printf(" (%u,%u)", crossings[2 * k], crossings[2 * k + 1]);
    printf("\n");
}

/* The file for a slow link: shortened, replayed as it is, and lengthened again. */
static void send_short(void) {
    static uint8_t small[YARD_FILE_LEN], again[YARD_FILE_LEN];
    uint32_t length, back;

    answer("shorten the file", yard_file_shorten(file, sizeof file, small, YARD_FILE_LEN, &length, 1));
    printf("%zu bytes to %" PRIu32 "\n", sizeof file, length);
    replay("replay the short file", small, length);
    answer("lengthen it", yard_file_lengthen(small, length, again, YARD_FILE_LEN, &back, 1));
    printf("%" PRIu32 " bytes, %sas sent\n", back, back == sizeof file && memcmp(again, file, back) == 0 ? "" : "not ");
}

int main(void) {
    edit_by_calls();
    print_records();
    replay("replay the file", file, sizeof file);
    print_pieces();
    print_bend();
    quote_route();
    print_duct();
    replay("replay it with its last byte cut off", file, sizeof file - 1);
    replay("replay no file", NULL, 0);
    send_short();
    return 0;
}
