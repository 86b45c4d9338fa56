#include "judge.h"

#include <stddef.h>
#include <string.h>

#include "ashwoodrung.h"

#define NONE ASHWOODRUNG_NONE

enum {
    SLOTS = ASHWOODRUNG_SLOTS,
    ISLANDS = ASHWOODRUNG_ISLANDS,
    EDGES = ASHWOODRUNG_EDGES,
    JOINTS = ASHWOODRUNG_JOINTS,
    JOURNAL = ASHWOODRUNG_JOURNAL
};

/* A chain table: room for `room` elements, `n` elements and `m` lists in use. */
struct Chains {
    uint32_t at, room, n, m;
};

enum { HOME, PLACE, PREV, NEXT };

static uint32_t elem(const uint32_t *t, struct Chains c, uint32_t e, int word) { return t[c.at + 4 * e + (uint32_t)word]; }

static uint32_t count(const uint32_t *t, struct Chains c, uint32_t list) { return t[c.at + 4 * c.room + 2 * list]; }

static uint32_t last(const uint32_t *t, struct Chains c, uint32_t list) { return t[c.at + 4 * c.room + 2 * list + 1]; }

/* Walks every list from its last element, then asks that whoever was not met is blank. */
static int lists_hold(const uint32_t *t, struct Chains c) {
    static unsigned char is_met[EDGES];
    memset(is_met, 0, c.n);
    for (uint32_t list = 0; list < c.m; list++) {
        uint32_t left = count(t, c, list), at = last(t, c, list), behind = NONE;
        if (left > c.n) return 0;
        for (; left > 0; left--) {
            if (at >= c.n || is_met[at]) return 0;
            is_met[at] = 1;
            if (elem(t, c, at, HOME) != list || elem(t, c, at, PLACE) != left - 1 || elem(t, c, at, NEXT) != behind) return 0;
            behind = at;
            at = elem(t, c, at, PREV);
        }
        if (at != NONE) return 0;
    }
    for (uint32_t e = 0; e < c.n; e++)
        for (int word = HOME; word <= NEXT && !is_met[e]; word++)
            if (elem(t, c, e, word) != NONE) return 0;
    return 1;
}

struct Extents {
    uint32_t slots, islands, edges, joints, journal;
};

static struct Extents extents(const uint32_t *t) { return (struct Extents){t[0], t[1], t[2], t[3], t[4]}; }

enum { MEMBERS, FREED, CONTACTS, LINKED, SPARE, SCAN, CHAINS };

static void chains(struct Extents x, struct Chains out[CHAINS]) {
    out[MEMBERS] = (struct Chains){ASHWOODRUNG_AT_MEMBERS, SLOTS, x.slots, x.islands};
    out[FREED] = (struct Chains){ASHWOODRUNG_AT_FREED, ISLANDS, x.islands, 1};
    out[CONTACTS] = (struct Chains){ASHWOODRUNG_AT_CONTACTS, EDGES, x.edges, x.islands};
    out[LINKED] = (struct Chains){ASHWOODRUNG_AT_JOINTS, JOINTS, x.joints, x.islands};
    out[SPARE] = (struct Chains){ASHWOODRUNG_AT_SPARE, JOINTS, x.joints, 1};
    out[SCAN] = (struct Chains){ASHWOODRUNG_AT_SCAN, ISLANDS, x.islands, 1};
}

static int all_none(const uint32_t *words, uint32_t n) {
    for (uint32_t i = 0; i < n; i++)
        if (words[i] != NONE) return 0;
    return 1;
}

int judge(const uint32_t *t) {
    struct Extents x = extents(t);
    if (x.slots > SLOTS || x.islands > ISLANDS || x.edges > EDGES || x.joints > JOINTS || x.journal > JOURNAL) return 0;
    struct Chains c[CHAINS];
    chains(x, c);
    for (int k = 0; k < CHAINS; k++)
        if (!lists_hold(t, c[k])) return 0;

    /* the head: a pending split is any number, none is 0; a closed scan has no list */
    if (t[5] > 1 || (t[5] == 0 && t[6] != 0) || t[8] > 1 || (t[8] == 0 && count(t, c[SCAN], 0) != 0)) return 0;

    for (uint32_t s = 0; s < x.slots; s++) {
        const uint32_t *slot = t + ASHWOODRUNG_AT_BODIES + 5 * s;
        uint32_t most = slot[0] == NONE ? 0 : 1;
        if (slot[2] > most || slot[3] > most || slot[4] > most) return 0;
        if (slot[0] == NONE && elem(t, c[MEMBERS], s, HOME) != NONE) return 0;
    }
    for (uint32_t i = 0; i < x.islands; i++) {
        const uint32_t *row = t + ASHWOODRUNG_AT_ROWS + 3 * i;
        int is_live = count(t, c[MEMBERS], i) > 0, is_freed = elem(t, c[FREED], i, HOME) != NONE;
        if (is_live == is_freed || row[2] > 1) return 0;
        if (!is_live && (count(t, c[CONTACTS], i) || count(t, c[LINKED], i) || row[0] || row[1] || row[2])) return 0;
        uint32_t fit = t[ASHWOODRUNG_AT_FIT + i], is_seen = elem(t, c[SCAN], i, HOME) != NONE;
        if (fit > is_seen) return 0;
    }
    for (uint32_t e = 0; e < x.edges; e++)
        if (elem(t, c[CONTACTS], e, HOME) == NONE && !all_none(t + ASHWOODRUNG_AT_TOUCHES + 4 * e, 4)) return 0;
    for (uint32_t p = 0; p < x.joints; p++) {
        const uint32_t *key = t + ASHWOODRUNG_AT_KEYS + 8 * p;
        int is_linked = elem(t, c[LINKED], p, HOME) != NONE, is_spare = elem(t, c[SPARE], p, HOME) != NONE;
        if (is_linked == is_spare) return 0;
        if (!is_linked && !all_none(key, 8)) return 0;
        if (is_linked && (key[0] > 1 || (key[0] == 0 && key[3] != 0))) return 0;
        for (uint32_t q = 0; q < p && is_linked; q++)
            if (elem(t, c[LINKED], q, HOME) != NONE && memcmp(key, t + ASHWOODRUNG_AT_KEYS + 8 * q, 4 * sizeof *key) == 0) return 0;
    }
    return 1;
}

/* The tables, each as a run of words of which the first are in use. */
struct Run {
    const char *behind;
    uint32_t at, used, length;
};

enum { RUNS = 19 };

static void runs(struct Extents x, struct Run out[RUNS]) {
    struct Chains c[CHAINS];
    static const char *const NAMES[CHAINS] = {"it wrote behind the members in use", "it wrote behind the free stack in use",
                                              "it wrote behind the contact links in use", "it wrote behind the joint links in use",
                                              "it wrote behind the free joint places in use", "it wrote behind the scan in use"};
    static const uint32_t LISTS[CHAINS] = {ISLANDS, 1, ISLANDS, ISLANDS, 1, 1};
    int k = 0;
    chains(x, c);
    for (int j = 0; j < CHAINS; j++) {
        out[k++] = (struct Run){NAMES[j], c[j].at, 4 * c[j].n, 4 * c[j].room};
        out[k++] = (struct Run){NAMES[j], c[j].at + 4 * c[j].room, 2 * c[j].m, 2 * LISTS[j]};
    }
    out[k++] = (struct Run){"", 0, 9, 9};
    out[k++] = (struct Run){"it wrote behind the slots in use", ASHWOODRUNG_AT_BODIES, 5 * x.slots, 5 * SLOTS};
    out[k++] = (struct Run){"it wrote behind the islands in use", ASHWOODRUNG_AT_ROWS, 3 * x.islands, 3 * ISLANDS};
    out[k++] = (struct Run){"it wrote behind the edges in use", ASHWOODRUNG_AT_TOUCHES, 4 * x.edges, 4 * EDGES};
    out[k++] = (struct Run){"it wrote behind the joint places in use", ASHWOODRUNG_AT_KEYS, 8 * x.joints, 8 * JOINTS};
    out[k++] = (struct Run){"it wrote behind the journal in use", ASHWOODRUNG_AT_JOURNAL, 4 * x.journal, 4 * JOURNAL};
    out[k++] = (struct Run){"it wrote behind the observations in use", ASHWOODRUNG_AT_FIT, x.islands, ISLANDS};
}

const char *judge_frame(const uint32_t *was, const uint32_t *now) {
    struct Run r[RUNS];
    runs(extents(now), r);
    for (int k = 0; k < RUNS; k++) {
        if (r[k].used > r[k].length) return "it left an extent over its size";
        size_t from = r[k].at + r[k].used;
        if (memcmp(was + from, now + from, (r[k].length - r[k].used) * sizeof *was) != 0) return r[k].behind;
    }
    return NULL;
}

void judge_copy(uint32_t *to, const uint32_t *from, const uint32_t *head) {
    struct Run r[RUNS];
    runs(extents(head), r);
    for (int k = 0; k < RUNS; k++) {
        uint32_t used = r[k].used < r[k].length ? r[k].used : r[k].length;
        memcpy(to + r[k].at, from + r[k].at, used * sizeof *to);
    }
}

uint32_t judge_word_in_use(const uint32_t *t, uint32_t pick) {
    struct Run r[RUNS];
    uint32_t sum = 0;
    runs(extents(t), r);
    for (int k = 0; k < RUNS; k++) sum += r[k].used;
    pick %= sum;
    for (int k = 0;; k++) {
        if (pick < r[k].used) return r[k].at + pick;
        pick -= r[k].used;
    }
}
