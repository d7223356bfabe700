/* Two contractors on one yard: the lighting firm would take every run number, the pump firm was promised four. */
#include <inttypes.h>
#include <stdio.h>
#include <string.h>

#include "yard.h"

#define LENGTH(list) (sizeof(list) / sizeof(list)[0])

enum { LIGHTS, PUMPS };

static struct yard yard;

/* The lighting firm is promised 16 of the 24 numbers and the pump firm 4; four numbers are promised to nobody. */
static struct yard_shares all = {.shares = {[LIGHTS] = 16, [PUMPS] = 4}, .ceilings = {[LIGHTS] = 24, [PUMPS] = 6}};

static void answer(const char *call, uint32_t number) { printf("%s: answer %" PRIu32 "\n", call, number); }

static uint32_t add(uint32_t contractor, uint32_t number) {
    uint16_t north = (uint16_t)(100 * number);
    return yard_add_run_for(YARD_TABLES(&yard), YARD_SHARES(&all), contractor, number, 0, north, 3000, north);
}

static uint32_t remove_run(uint32_t contractor, uint32_t number) {
    return yard_remove_run_for(YARD_TABLES(&yard), YARD_SHARES(&all), contractor, number);
}

static uint32_t lowest_free(void) {
    uint32_t m = 0;
    while (m < YARD_HOLDERS_LEN && yard.runs[YARD_RUN_WORDS * m] != 0) m++;
    return m;
}

/* One run after the other, until a call is refused or no number is free. */
static void add_all(const char *name, uint32_t contractor) {
    uint32_t refused = YARD_DONE, count = 0;
    while (lowest_free() < YARD_HOLDERS_LEN && (refused = add(contractor, lowest_free())) == YARD_DONE) count++;
    printf("%s add %" PRIu32 " runs, then ", name, count);
    if (refused == YARD_DONE) {
        printf("no number is free\n");
    } else {
        printf("answer %" PRIu32 "\n", refused);
    }
}

static void print_holders(void) {
    printf("held by 0 or 1:");
    for (size_t m = 0; m < LENGTH(all.holders); m++) {
        if (all.holders[m] == YARD_NOBODY) {
            printf(" -");
        } else {
            printf(" %u", all.holders[m]);
        }
    }
    printf("\n");
}

int main(void) {
    static const uint16_t shop[] = {1000, 500, 1400, 500, 1400, 900, 1000, 900};

    answer("start", yard_start(YARD_TABLES(&yard)));
    answer("add block 0", yard_add_block(YARD_TABLES(&yard), 0, shop, LENGTH(shop)));
    memset(all.holders, YARD_NOBODY, sizeof all.holders);

    /* The last four numbers are the pump firm's, whoever comes first. */
    add_all("lights", LIGHTS);
    add_all("pumps", PUMPS);
    print_holders();

    /* A run is its holder's alone. */
    answer("pumps remove run 5", remove_run(PUMPS, 5));
    answer("lights remove run 5", remove_run(LIGHTS, 5));
    answer("lights move run 5", yard_move_run_for(YARD_TABLES(&yard), YARD_SHARES(&all), LIGHTS, 5, 0, 700, 3000, 700));
    answer("lights move run 6", yard_move_run_for(YARD_TABLES(&yard), YARD_SHARES(&all), LIGHTS, 6, 0, 700, 3000, 700));
    printf("run 6 length %" PRIu32 "\n", yard.routes[YARD_ROUTE_WORDS * 6 + 1]);

    /* A number that is promised to nobody goes to the first who asks, up to its ceiling. */
    answer("pumps add run 5", add(PUMPS, 5));
    answer("lights remove run 7", remove_run(LIGHTS, 7));
    answer("pumps add run 7", add(PUMPS, 7));
    answer("lights remove run 8", remove_run(LIGHTS, 8));
    answer("pumps add run 8", add(PUMPS, 8));
    print_holders();

    /* Holders that do not fit the runs are told, and nothing is done. */
    all.holders[8] = PUMPS;
    answer("lights add run 8 over a wrong holder", add(LIGHTS, 8));
    all.holders[8] = YARD_NOBODY;
    answer("lights add run 8", add(LIGHTS, 8));
    answer("contractor 4 adds run 8", add(4, 8));

    /* The tables are those of the same runs in nobody's name. */
    answer("check", yard_check(YARD_TABLES(&yard)));
    return 0;
}
