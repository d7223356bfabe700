/* The price of a move before the finger lifts: what each run costs now and would cost with the tank pit elsewhere. */
#include <inttypes.h>
#include <stdio.h>
#include <string.h>

#include "yard.h"

#define LENGTH(list) (sizeof(list) / sizeof(list)[0])

enum { SHOP, PIT };

static struct yard yard;
static uint32_t quote[YARD_MOVE_QUOTE_LEN];

static void answer(const char *call, uint32_t number) { printf("%s: answer %" PRIu32 "\n", call, number); }

static void print_price(const char *when, uint32_t state, uint32_t length) {
    if (state == YARD_ROUTE_FOUND) {
        printf(" %s %" PRIu32, when, length);
    } else {
        printf(" %s no way", when);
    }
}

/* Each run's stored price beside the quoted one. */
static void print_quote(void) {
    for (unsigned m = 0; m < YARD_MOVE_QUOTE_LENGTHS; m++) {
        const uint32_t *route = yard.routes + YARD_ROUTE_WORDS * m;
        if (quote[m] == YARD_ROUTE_ABSENT) continue;
        printf("run %u", m);
        print_price("now", route[0], route[1]);
        print_price("then", quote[m], quote[YARD_MOVE_QUOTE_LENGTHS + m]);
        printf("\n");
    }
}

/* How many runs have the state and the length that were quoted. */
static unsigned as_quoted(void) {
    unsigned count = 0;
    for (unsigned m = 0; m < YARD_MOVE_QUOTE_LENGTHS; m++) {
        const uint32_t *route = yard.routes + YARD_ROUTE_WORDS * m;
        count += route[0] == quote[m] && route[1] == quote[YARD_MOVE_QUOTE_LENGTHS + m];
    }
    return count;
}

static uint32_t quote_pit(int16_t east, int16_t north) {
    return yard_quote_move(YARD_TABLES(&yard), PIT, east, north, quote, YARD_MOVE_QUOTE_LEN);
}

int main(void) {
    static const uint16_t shop[] = {1000, 500, 1400, 500, 1400, 900, 1000, 900};
    static const uint16_t pit[] = {1700, 200, 2100, 200, 2100, 1000, 1700, 1000};
    static struct yard before;
    static uint32_t kept[YARD_MOVE_QUOTE_LEN];

    answer("start", yard_start(YARD_TABLES(&yard)));
    answer("add block 0, the shop", yard_add_block(YARD_TABLES(&yard), SHOP, shop, LENGTH(shop)));
    answer("add block 1, the pit", yard_add_block(YARD_TABLES(&yard), PIT, pit, LENGTH(pit)));
    answer("add run 0", yard_add_run(YARD_TABLES(&yard), 0, 0, 700, 3000, 700));
    answer("add run 2", yard_add_run(YARD_TABLES(&yard), 2, 0, 100, 3000, 100));
    answer("add run 5", yard_add_run(YARD_TABLES(&yard), 5, 1500, 1500, 1600, 0));
    before = yard;

    /* The finger drags the pit about; nothing is moved yet. */
    answer("quote the pit west by 300, against the shop", quote_pit(-300, 0));
    print_quote();
    answer("quote the pit east by 1000, onto an end of run 0", quote_pit(1000, 0));
    print_quote();
    answer("quote the pit south by 200", quote_pit(0, -200));
    print_quote();

    /* A refused quote keeps its words. */
    memcpy(kept, quote, sizeof kept);
    answer("quote the pit south by 201", quote_pit(0, -201));
    printf("the last quote is %s\n", memcmp(kept, quote, sizeof kept) == 0 ? "kept" : "lost");
    printf("the yard is %s\n", memcmp(&before, &yard, sizeof yard) == 0 ? "as it was" : "another");

    /* The finger lifts. */
    answer("move the pit south by 200", yard_move_block(YARD_TABLES(&yard), PIT, 0, -200));
    printf("%u of %u runs as quoted\n", as_quoted(), YARD_MOVE_QUOTE_LENGTHS);
    printf("runs of %" PRIu32 " cm in all, before %" PRIu32 "\n", yard.totals[YARD_TOTALS_SUM],
           before.totals[YARD_TOTALS_SUM]);
    answer("check", yard_check(YARD_TABLES(&yard)));
    return 0;
}
