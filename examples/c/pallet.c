/* A pallet slides off a pile, and is cut off from it so that it may sleep: the calls of a frame, from C. */
#include <inttypes.h>
#include <stdio.h>
#include <stdlib.h>

#include "ashwoodrung.h"

static uint32_t tables[ASHWOODRUNG_WORDS];

/* Any answer above 1 is a refusal, and nothing was changed. */
static void must(const char *what, uint32_t answer) {
    if (answer > ASHWOODRUNG_NOTHING) {
        fprintf(stderr, "%s: answer %" PRIu32 "\n", what, answer);
        exit(1);
    }
}

static uint32_t island_of(uint32_t slot) {
    uint64_t both = ashwoodrung_island(tables, ASHWOODRUNG_WORDS, slot, 0);
    must("island", ASHWOODRUNG_ANSWER(both));
    return ASHWOODRUNG_VALUE(both);
}

static void show(const char *when) {
    printf("%s:", when);
    for (uint32_t slot = 1; slot <= 4; slot++) printf(" body %" PRIu32 " in island %" PRIu32, slot, island_of(slot));
    printf("\n");
}

int main(void) {
    const size_t words = ASHWOODRUNG_WORDS;
    must("reset", ashwoodrung_reset(tables, words));

    /* The ground is slot 0, fixed: it is in no island. Three crates, and the pallet, slot 4. */
    must("put", ashwoodrung_put(tables, words, 0, 0, 1, 1, 0));
    for (uint32_t slot = 1; slot <= 4; slot++) {
        must("put", ashwoodrung_put(tables, words, slot, 0, 0, 1, 0));
        must("ensure", ashwoodrung_ensure(tables, words, slot, 0));
    }
    show("apart");

    /* Each stands on the one before. Edge numbers are the caller's. */
    for (uint32_t slot = 1; slot <= 4; slot++)
        must("contact", ashwoodrung_contact(tables, words, slot - 1, slot - 1, 0, slot, 0));
    show("piled");

    /* The pallet slides off: its contact ends, and the resolver counts the removal. */
    must("uncontact", ashwoodrung_uncontact(tables, words, 3));
    must("resolve", ashwoodrung_resolve(tables, words));

    /* The island bids for a split, which runs in a quiet frame. */
    uint64_t bid = ashwoodrung_may_bid(tables, words, island_of(4));
    must("may_bid", ASHWOODRUNG_ANSWER(bid));
    printf("may bid: %s\n", ASHWOODRUNG_VALUE(bid) ? "yes" : "no");
    must("schedule", ashwoodrung_schedule(tables, words, island_of(4)));
    must("run", ashwoodrung_run(tables, words));
    show("cut");

    /* A sleep scan: every body lies still. */
    must("begin", ashwoodrung_begin(tables, words));
    for (uint32_t slot = 1; slot <= 4; slot++)
        must("observe", ashwoodrung_observe(tables, words, island_of(slot), 1));
    uint32_t sleepers[ASHWOODRUNG_ISLANDS];
    uint64_t listed = ashwoodrung_finish(tables, words, sleepers, ASHWOODRUNG_ISLANDS);
    must("finish", ASHWOODRUNG_ANSWER(listed));
    printf("may sleep:");
    for (uint32_t k = 0; k < ASHWOODRUNG_VALUE(listed); k++) {
        printf(" island %" PRIu32, sleepers[k]);
        must("sleep", ashwoodrung_sleep(tables, words, sleepers[k]));
    }
    printf("\n");

    /* Words that are not well formed are refused, and left as they are. */
    tables[ASHWOODRUNG_AT_SLOTS_USED] = 5000;
    printf("damaged tables: answer %" PRIu32 "\n", ashwoodrung_resolve(tables, words));
    return 0;
}
