/*
 * Damage tests on the compiled library, not on its proof.
 *
 *     damage [CALLS [SEED]]      at least CALLS calls (1000000) on damaged tables; ends with `N calls, 0 failures`
 *     damage fresh [CALLS [SEED]]  well-formed tables in memory that was never written, for valgrind: nobody may read behind what is in use
 *     damage stack [CALLS [SEED]]  how deep a stack the calls take, against the header's ASHWOODRUNG_STACK_BYTES
 *
 * Every lent slice lies between two pages that nobody may touch, flush against one of them, with marks in what is left of its pages. Checked
 * after each call: it returned (a watch of 60 s), its answer is 9 or one that the paper has for it, nothing outside was touched, every word is
 * as it was on an answer above 1, the questions and the read-only lists changed nothing on any answer, no word behind what is in use was
 * changed, 9 comes for every wrong length, and 9 comes exactly where an audit written anew in this file (judge.c) finds the tables not well
 * formed.
 */
#define _GNU_SOURCE
#include <inttypes.h>
#include <pthread.h>
#include <setjmp.h>
#include <signal.h>
#include <stdio.h>
#include <stdlib.h>
#include <string.h>
#include <sys/mman.h>
#include <time.h>
#include <unistd.h>

#include "ashwoodrung.h"
#include "judge.h"

enum { WORDS = ASHWOODRUNG_WORDS };
#define NONE ASHWOODRUNG_NONE

/* ---- chance ---- */

static uint64_t seed = 1;

static uint64_t chance(void) { /* SplitMix64 */
    uint64_t z = seed += UINT64_C(0x9e3779b97f4a7c15);
    z = (z ^ (z >> 30)) * UINT64_C(0xbf58476d1ce4e5b9);
    z = (z ^ (z >> 27)) * UINT64_C(0x94d049bb133111eb);
    return z ^ (z >> 31);
}

static uint32_t below(uint32_t end) { return (uint32_t)(((unsigned __int128)chance() * end) >> 64); }

/* ---- slices between guards ---- */

struct Slice {
    uint32_t *words;
    size_t length;
    unsigned char *pages, *marks[2];
    size_t page_bytes, mark_bytes[2];
};

enum { MARK = 0xa5 };

static size_t page(void) { return (size_t)sysconf(_SC_PAGESIZE); }

/* A slice of `length` words, its end (or its start, where `is_low`) against a page that faults. */
static struct Slice lend(size_t length, int is_low) {
    size_t bytes = length * sizeof(uint32_t), whole = (bytes + page() - 1) / page() * page();
    if (whole == 0) whole = page();
    unsigned char *all = mmap(NULL, whole + 2 * page(), PROT_NONE, MAP_PRIVATE | MAP_ANONYMOUS, -1, 0);
    if (all == MAP_FAILED || mprotect(all + page(), whole, PROT_READ | PROT_WRITE) != 0) {
        perror("damage: memory");
        exit(2);
    }
    struct Slice s = {.length = length, .pages = all + page(), .page_bytes = whole};
    size_t before = is_low ? 0 : whole - bytes;
    s.words = (uint32_t *)(void *)(s.pages + before);
    s.marks[0] = s.pages;
    s.mark_bytes[0] = before;
    s.marks[1] = s.pages + before + bytes;
    s.mark_bytes[1] = whole - before - bytes;
    for (int k = 0; k < 2; k++) memset(s.marks[k], MARK, s.mark_bytes[k]);
    return s;
}

static void give_back(struct Slice s) { munmap(s.pages - page(), s.page_bytes + 2 * page()); }

static void only_read(struct Slice s, int is_so) {
    if (mprotect(s.pages, s.page_bytes, is_so ? PROT_READ : PROT_READ | PROT_WRITE) != 0) {
        perror("damage: mprotect");
        exit(2);
    }
}

static int marks_stand(struct Slice s) {
    for (int k = 0; k < 2; k++)
        for (size_t i = 0; i < s.mark_bytes[k]; i++)
            if (s.marks[k][i] != MARK) return 0;
    return 1;
}

/* ---- the calls ---- */

enum Kind {
    RESET, PUT, FLAGS, RETIRE, ISLAND, ENSURE, REMOVE, CONTACT, UNCONTACT, RENUMBER, JOINT_IMPULSE, JOINT_CHAIN, UNJOINT_IMPULSE,
    UNJOINT_CHAIN, CHAIN, RESOLVE, SPLIT, SCHEDULE, RUN, MAY_BID, BEGIN, OBSERVE, FINISH, SLEEP, WAKE, KINDS
};

static const char *const NAMES[KINDS] = {
    "reset", "put", "flags", "retire", "island", "ensure", "remove", "contact", "uncontact", "renumber", "joint_impulse", "joint_chain",
    "unjoint_impulse", "unjoint_chain", "chain", "resolve", "split", "schedule", "run", "may_bid", "begin", "observe", "finish", "sleep", "wake"
};

/* Which answers each has, as bits. */
#define A(n) (1u << (n))
static const uint32_t LEGAL[KINDS] = {
    [RESET] = A(0) | A(9),
    [PUT] = A(0) | A(2) | A(9) | A(10) | A(11),
    [FLAGS] = A(0) | A(1) | A(9),
    [RETIRE] = A(0) | A(1) | A(9),
    [ISLAND] = A(0) | A(9),
    [ENSURE] = A(0) | A(1) | A(9),
    [REMOVE] = A(0) | A(1) | A(9),
    [CONTACT] = A(0) | A(1) | A(2) | A(9),
    [UNCONTACT] = A(0) | A(1) | A(5) | A(9),
    [RENUMBER] = A(0) | A(1) | A(3) | A(9),
    [JOINT_IMPULSE] = A(0) | A(1) | A(4) | A(9),
    [JOINT_CHAIN] = A(0) | A(1) | A(4) | A(9),
    [UNJOINT_IMPULSE] = A(0) | A(1) | A(5) | A(9),
    [UNJOINT_CHAIN] = A(0) | A(1) | A(5) | A(9),
    [CHAIN] = A(0) | A(4) | A(5) | A(9),
    [RESOLVE] = A(0) | A(1) | A(9),
    [SPLIT] = A(0) | A(6) | A(9),
    [SCHEDULE] = A(0) | A(9),
    [RUN] = A(0) | A(1) | A(9),
    [MAY_BID] = A(0) | A(9),
    [BEGIN] = A(0) | A(9),
    [OBSERVE] = A(0) | A(6) | A(7) | A(9),
    [FINISH] = A(0) | A(7) | A(8) | A(9),
    [SLEEP] = A(0) | A(6) | A(9),
    [WAKE] = A(0) | A(6) | A(9),
};

/* Does its kind only ask? */
static int asks(enum Kind k) { return k == ISLAND || k == MAY_BID; }

struct Call {
    enum Kind kind;
    uint32_t n[6];
    uint64_t multibody;
    uint32_t list_length; /* of the chain's list, or of finish's output */
};

static struct Call current;
static const char *phase = "start";
static uint64_t calls, failures, told[12], by_kind[KINDS];
static int is_changed; /* did the last call change a word */

static void show_call(struct Call c) {
    fprintf(stderr, "%s(", NAMES[c.kind]);
    for (int i = 0; i < 6; i++) fprintf(stderr, "%" PRIu32 " ", c.n[i]);
    fprintf(stderr, "multibody %" PRIu64 " list %" PRIu32 ")", c.multibody, c.list_length);
}

static void fail(const char *why) {
    failures++;
    fprintf(stderr, "\nFAILURE: call %" PRIu64 ", phase %s, seed now %" PRIu64 ": %s: ", calls, phase, seed, why);
    show_call(current);
    fprintf(stderr, "\n");
    if (failures >= 20) {
        fprintf(stderr, "damage: too many failures\n");
        exit(1);
    }
}

static sigjmp_buf back;

static void caught(int number) { siglongjmp(back, number); }

static uint64_t make(struct Call c, uint32_t *t, size_t n, uint32_t *list) {
    const uint32_t *a = c.n;
    uint64_t m = c.multibody;
    switch (c.kind) {
    case RESET: return (uint64_t)ashwoodrung_reset(t, n) << 32;
    case PUT: return (uint64_t)ashwoodrung_put(t, n, a[0], a[1], a[2], a[3], a[4]) << 32;
    case FLAGS: return (uint64_t)ashwoodrung_flags(t, n, a[0], a[1], a[2], a[3], a[4]) << 32;
    case RETIRE: return (uint64_t)ashwoodrung_retire(t, n, a[0], a[1]) << 32;
    case ISLAND: return ashwoodrung_island(t, n, a[0], a[1]);
    case ENSURE: return (uint64_t)ashwoodrung_ensure(t, n, a[0], a[1]) << 32;
    case REMOVE: return (uint64_t)ashwoodrung_remove(t, n, a[0], a[1]) << 32;
    case CONTACT: return (uint64_t)ashwoodrung_contact(t, n, a[4], a[0], a[1], a[2], a[3]) << 32;
    case UNCONTACT: return (uint64_t)ashwoodrung_uncontact(t, n, a[4]) << 32;
    case RENUMBER: return (uint64_t)ashwoodrung_renumber(t, n, a[4], a[5]) << 32;
    case JOINT_IMPULSE: return (uint64_t)ashwoodrung_joint_impulse(t, n, a[4], a[5], a[0], a[1], a[2], a[3]) << 32;
    case JOINT_CHAIN: return (uint64_t)ashwoodrung_joint_chain(t, n, m, a[4], a[0], a[1], a[2], a[3]) << 32;
    case UNJOINT_IMPULSE: return (uint64_t)ashwoodrung_unjoint_impulse(t, n, a[4], a[5]) << 32;
    case UNJOINT_CHAIN: return (uint64_t)ashwoodrung_unjoint_chain(t, n, m, a[4]) << 32;
    case CHAIN: return (uint64_t)ashwoodrung_chain(t, n, m, list, c.list_length) << 32;
    case RESOLVE: return (uint64_t)ashwoodrung_resolve(t, n) << 32;
    case SPLIT: return (uint64_t)ashwoodrung_split(t, n, a[5]) << 32;
    case SCHEDULE: return (uint64_t)ashwoodrung_schedule(t, n, a[5]) << 32;
    case RUN: return (uint64_t)ashwoodrung_run(t, n) << 32;
    case MAY_BID: return ashwoodrung_may_bid(t, n, a[5]);
    case BEGIN: return (uint64_t)ashwoodrung_begin(t, n) << 32;
    case OBSERVE: return (uint64_t)ashwoodrung_observe(t, n, a[5], a[0]) << 32;
    case FINISH: return ashwoodrung_finish(t, n, list, c.list_length);
    case SLEEP: return (uint64_t)ashwoodrung_sleep(t, n, a[5]) << 32;
    case WAKE: return (uint64_t)ashwoodrung_wake(t, n, a[5]) << 32;
    case KINDS: break;
    }
    return 0;
}

/* A number near something: in use, at an end, beyond it, or any. */
static uint32_t number(uint32_t small) {
    static const uint32_t ENDS[] = {0, 1, 2, 4094, 4095, 4096, 4097, 8191, 8192, 16382, 16383, 16384, 16385, 65535, 65536,
                                    339982, 339983, 0x7fffffff, 0x80000000, 4294967279u, 4294967293u, 4294967294u, 4294967295u};
    uint32_t kind = below(16);
    if (kind < 11) return below(small);
    if (kind < 15) return ENDS[below(sizeof ENDS / sizeof *ENDS)];
    return (uint32_t)chance();
}

enum { LONGEST_LIST = 8200 };
static struct Slice lists[64]; /* kept open, by length below 32, low and high */

static struct Slice list_of(uint32_t length) {
    if (length < 32) {
        struct Slice *kept = &lists[2 * length + below(2)];
        if (kept->words == NULL) *kept = lend(length, (int)((kept - lists) & 1));
        return *kept;
    }
    return lend(length, (int)below(2));
}

static struct Call any_call(enum Kind kind, uint32_t slots, uint32_t edges) {
    struct Call c = {.kind = kind, .multibody = below(3)};
    c.n[0] = number(slots);
    c.n[1] = below(4) ? 0 : number(3);
    c.n[2] = number(slots);
    c.n[3] = below(4) ? 0 : number(3);
    c.n[4] = number(edges);
    c.n[5] = number(slots);
    if (kind == PUT || kind == FLAGS) {
        c.n[2] = below(5) == 0;
        c.n[3] = below(5) != 0;
        c.n[4] = below(3) ? 0 : number(4);
    }
    if (kind == JOINT_IMPULSE || kind == UNJOINT_IMPULSE) c.n[5] = number(2);
    if (kind == OBSERVE) c.n[0] = below(8) ? 1 : number(2);
    if (below(20) == 0) c.multibody = chance() >> below(64);
    if (kind == CHAIN || kind == FINISH) c.list_length = below(2000) == 0 ? 8186 + below(LONGEST_LIST - 8186) : below(4) ? below(32) : below(3);
    return c;
}

/* ---- one call, checked ----
 * `t` lends the words, `was` is a copy of them before the call (both updated by it). `length_is_right` says whether they are the tables'. */

static uint32_t checked(struct Call c, struct Slice t, uint32_t *was, int length_is_right) {
    current = c;
    struct Slice list = {0};
    static uint32_t list_was[LONGEST_LIST];
    int has_list = c.kind == CHAIN || c.kind == FINISH;
    if (has_list) {
        list = list_of(c.list_length);
        for (uint32_t i = 0; i < c.list_length; i++) list_was[i] = list.words[i] = i % 2 ? number(2) : number(24);
        if (c.kind == CHAIN) only_read(list, 1);
    }
    int is_good = length_is_right && judge(was);
    if (asks(c.kind)) only_read(t, 1);

    alarm(60);
    int number = sigsetjmp(back, 1);
    if (number != 0) {
        fail(number == SIGALRM ? "it did not return in 60 s" : "it touched a page outside, or wrote where it may only read");
        exit(1);
    }
    uint64_t both = make(c, t.words, t.length, list.words);
    uint32_t answer = ASHWOODRUNG_ANSWER(both), value = ASHWOODRUNG_VALUE(both);
    calls++;
    by_kind[c.kind]++;

    if (asks(c.kind)) only_read(t, 0);
    if (answer > 11 || !(LEGAL[c.kind] & A(answer))) {
        fail("an answer that it never gives");
        return answer;
    }
    told[answer]++;
    if (!marks_stand(t)) fail("it wrote beside the tables");
    if (c.kind == RESET) {
        if ((answer == 9) != !length_is_right) fail("reset: 9 exactly for a wrong length");
    } else if ((answer == 9) != !is_good) {
        fail(is_good ? "9 for well-formed tables" : "no 9 for tables that are not well formed");
    }

    int is_same = memcmp(t.words, was, t.length * sizeof *was) == 0;
    is_changed = !is_same;
    if ((answer > 1 || asks(c.kind)) && !is_same) fail("it changed a word that it may not");
    if (answer <= 1 && !is_same) {
        const char *why = judge_frame(was, t.words);
        if (why != NULL) fail(why);
        if (!judge(t.words)) fail("it left tables that are not well formed");
    }

    if (c.kind == ISLAND && answer != 0 && value != NONE) fail("island: a value with a refusal");
    if (c.kind == ISLAND && answer == 0 && value != NONE && value >= ASHWOODRUNG_ISLANDS) fail("island: a number over its size");
    if (c.kind == MAY_BID && (value > 1 || (answer != 0 && value != 0))) fail("may_bid: the value");
    if (c.kind == FINISH && (value > c.list_length || (answer != 0 && value != 0))) fail("finish: the length");
    if (has_list) {
        if (c.kind == CHAIN) only_read(list, 0);
        uint32_t from = c.kind == FINISH ? value : 0;
        if (c.list_length > from && memcmp(list.words + from, list_was + from, (c.list_length - from) * sizeof *list_was) != 0)
            fail("it changed the list, or wrote behind it");
        if (!marks_stand(list)) fail("it wrote beside the list");
        if (c.list_length >= 32) give_back(list);
    }
    return answer;
}

/* ---- progress ---- */

static uint64_t goal = 1000000;
static struct timespec began;

static double seconds(void) {
    struct timespec now;
    clock_gettime(CLOCK_MONOTONIC, &now);
    return (double)(now.tv_sec - began.tv_sec) + (double)(now.tv_nsec - began.tv_nsec) / 1e9;
}

static void progress(int is_forced) {
    static uint64_t next = 20000;
    if (calls < next && !is_forced) return;
    next = calls + 20000;
    fprintf(stderr, "\r%10" PRIu64 " calls of %" PRIu64 ", %s, %" PRIu64 " failures, %.0f calls/s   %s", calls, goal, phase, failures,
            (double)calls / seconds(), is_forced ? "\n" : "");
}

/* ---- well-formed tables to start from ---- */

/* How many slots and edges the calls go for, which bounds what is in use. */
static const uint32_t SIZES[][2] = {{4, 4}, {8, 12}, {24, 40}, {64, 200}, {300, 900}};
enum { SIZE_KINDS = sizeof SIZES / sizeof *SIZES };

/* A call that mostly does something. */
static struct Call sensible(uint32_t slots, uint32_t edges) {
    static const enum Kind OFTEN[] = {PUT, PUT, PUT, ENSURE, ENSURE, ENSURE, CONTACT, CONTACT, CONTACT, JOINT_IMPULSE, JOINT_CHAIN, CHAIN, UNCONTACT, BEGIN, OBSERVE, OBSERVE};
    enum Kind kind = below(3) ? OFTEN[below(sizeof OFTEN / sizeof *OFTEN)] : 1 + below(KINDS - 1);
    struct Call c = any_call(kind, slots, edges);
    if (kind == PUT || kind == ENSURE || kind == CONTACT || kind == JOINT_IMPULSE || kind == JOINT_CHAIN) {
        c.n[0] = below(slots);
        c.n[1] = 0;
        if (kind != PUT) {
            c.n[2] = below(slots);
            c.n[3] = 0;
            c.n[4] = below(edges);
        }
    }
    return c;
}

/* Well-formed tables made by calls on `t`, checked as any others. */
static void build(struct Slice t, uint32_t *was, uint32_t turns, uint32_t slots, uint32_t edges) {
    phase = "building";
    checked((struct Call){.kind = RESET}, t, was, 1);
    memcpy(was, t.words, WORDS * sizeof *was);
    for (uint32_t i = 0; i < turns; i++) {
        checked(sensible(slots, edges), t, was, 1);
        if (is_changed) judge_copy(was, t.words, t.words);
        progress(0);
    }
    for (uint32_t i = 0; i < slots && (i == 0 || below(20)); i++) { /* most have an open scan */
        struct Call c = {.kind = i == 0 ? BEGIN : OBSERVE, .n = {1, 0, 0, 0, 0, i}};
        checked(c, t, was, 1);
        if (is_changed) judge_copy(was, t.words, t.words);
    }
}

/* ---- the phases ---- */

static uint32_t damaged(uint32_t x) {
    switch (below(8)) {
    case 0: return x == 0 ? 1 : 0;
    case 1: return x == NONE ? 0 : NONE;
    case 2: return x + 1;
    case 3: return x - 1;
    case 4: return x ^ (1u << below(32));
    case 5: { uint32_t y = below(24); return y == x ? y + 1 : y; }
    case 6: { uint32_t y = below(20000); return y == x ? y + 1 : y; }
    default: { uint32_t y = (uint32_t)chance(); return y == x ? y + 1 : y; }
    }
}

static enum Kind turn(void) { /* every kind in turn */
    static unsigned next;
    return (enum Kind)(next++ % KINDS);
}

/* Words of well-formed tables changed, one at a time, and a call made. */
static void each_word(struct Slice t, uint32_t *was, uint32_t *base, uint32_t slots, uint32_t edges, uint32_t from, uint32_t to) {
    phase = "each word changed";
    memcpy(base, was, WORDS * sizeof *base);
    for (uint32_t w = from; w < to && w < WORDS; w++) {
        t.words[w] = was[w] = damaged(base[w]);
        checked(any_call(turn(), slots, edges), t, was, 1);
        if (is_changed) judge_copy(t.words, was, t.words);
        t.words[w] = was[w] = base[w];
        progress(0);
    }
}

/* A few words in use changed at once, or none. */
static void some_words(struct Slice t, uint32_t *was, uint32_t *base, uint32_t slots, uint32_t edges, uint32_t turns) {
    phase = "several words changed";
    memcpy(base, was, WORDS * sizeof *base);
    for (uint32_t i = 0; i < turns; i++) {
        uint32_t changed = below(5); /* none, now and then */
        for (uint32_t k = 0; k < changed; k++) {
            uint32_t w = judge_word_in_use(base, (uint32_t)chance());
            t.words[w] = was[w] = below(3) ? damaged(base[w]) : base[judge_word_in_use(base, (uint32_t)chance())];
        }
        checked(any_call(turn(), slots, edges), t, was, 1);
        if (is_changed) judge_copy(t.words, was, t.words);
        judge_copy(was, base, base);
        judge_copy(t.words, base, base);
        progress(0);
    }
}

/* Full tables: journal and joint places. */
static void full(struct Slice t, uint32_t *was, uint32_t *base) {
    static uint32_t list[2 * ASHWOODRUNG_SLOTS];
    phase = "full tables";
    uint32_t *w = t.words;
    ashwoodrung_reset(w, WORDS);
    for (uint32_t s = 0; s < 24; s++) {
        ashwoodrung_put(w, WORDS, s, 0, 0, 1, 0);
        ashwoodrung_ensure(w, WORDS, s, 0);
    }
    for (uint32_t k = 0; k < ASHWOODRUNG_JOURNAL; k++) {
        ashwoodrung_contact(w, WORDS, k % 40, k % 24, 0, (k + 1) % 24, 0);
        ashwoodrung_uncontact(w, WORDS, k % 40);
    }
    for (uint32_t k = 0; k < 24; k++) ashwoodrung_contact(w, WORDS, k, k, 0, (k + 5) % 24, 0);
    memcpy(was, w, WORDS * sizeof *was);
    some_words(t, was, base, 24, 40, 4000);

    phase = "full tables";
    for (uint32_t k = 0; k < ASHWOODRUNG_SLOTS; k++) list[2 * k] = k % 24;
    ashwoodrung_reset(w, WORDS);
    for (uint32_t s = 0; s < 24; s++) {
        ashwoodrung_put(w, WORDS, s, 0, 0, 1, 0);
        ashwoodrung_ensure(w, WORDS, s, 0);
    }
    ashwoodrung_chain(w, WORDS, 1, list, 2 * ASHWOODRUNG_SLOTS);
    ashwoodrung_joint_impulse(w, WORDS, 0, 0, 0, 0, 1, 0);
    memcpy(was, w, WORDS * sizeof *was);
    some_words(t, was, base, 24, 40, 300);
}

/* Any words, and heads that look right over any words. */
static void any_words(struct Slice t, uint32_t *was, uint32_t turns) {
    static const uint32_t FULL[5] = {4096, 4096, 16384, 4096, 8192};
    phase = "any words";
    for (uint32_t i = 0; i < turns; i++) {
        if (i % 100 == 0) {
            uint32_t kind = below(6), small = 1 + below(40);
            for (uint32_t w = 0; w < WORDS; w++) {
                uint32_t x = (uint32_t)chance();
                was[w] = kind == 0 ? 0 : kind == 1 ? NONE : kind == 2 ? x : kind == 3 ? x % small : kind == 4 ? (x & 1 ? NONE : x % small) : (w & 1 ? NONE : 0);
            }
        }
        for (uint32_t k = 0; k < 5; k++) /* extents: none, few, all, one over, any */
            was[k] = (uint32_t[]){0, below(20), FULL[k], FULL[k] + 1, (uint32_t)chance()}[below(100) ? below(3) : below(5)];
        was[5] = below(3);
        was[6] = was[5] == 1 ? number(20) : below(10) == 0;
        was[7] = number(20);
        was[8] = below(3);
        if (below(50) == 0) memset(was, below(2) ? 0xff : 0, 9 * sizeof *was);
        memcpy(t.words, was, WORDS * sizeof *was);
        checked(any_call(turn(), 24, 40), t, was, 1);
        memcpy(was, t.words, WORDS * sizeof *was);
        progress(0);
    }
}

/* Lengths that are not the tables'. */
static void wrong_lengths(uint32_t turns) {
    static const uint32_t LENGTHS[] = {0, 1, 2, 8, 9, 10, 4096, 20489, WORDS - 4096, WORDS - 1, WORDS + 1, WORDS + 4096, 2 * WORDS};
    phase = "wrong lengths";
    for (uint32_t i = 0; i < turns; i++) {
        uint32_t length = below(2) ? LENGTHS[i % (sizeof LENGTHS / sizeof *LENGTHS)] : below(400000);
        if (length == WORDS) continue;
        struct Slice t = lend(length, (int)below(2));
        uint32_t *was = malloc((length + 1) * sizeof *was), kind = below(3);
        if (was == NULL) exit(2);
        for (uint32_t w = 0; w < length; w++) was[w] = kind == 0 ? 0 : kind == 1 ? NONE : (uint32_t)chance() % 50;
        memcpy(t.words, was, length * sizeof *was);
        for (int k = 0; k < 2 * KINDS; k++) checked(any_call(turn(), 24, 40), t, was, 0);
        free(was);
        give_back(t);
        progress(0);
    }
}

/* ---- memory that was never written ---- */

static int fresh(uint64_t turns) {
    uint32_t *t = malloc(WORDS * sizeof *t);
    static uint32_t list[LONGEST_LIST];
    if (t == NULL || ashwoodrung_reset(t, WORDS) != 0) return 2;
    for (uint64_t i = 0; i < turns; i++) {
        struct Call c = sensible(24, 40);
        for (uint32_t k = 0; k < c.list_length; k++) list[k] = k % 2 ? 0 : number(24);
        uint32_t answer = ASHWOODRUNG_ANSWER(make(c, t, WORDS, list));
        if (answer > 11 || answer == 9) { printf("fresh: answer %" PRIu32 "\n", answer); return 1; }
        calls++;
    }
    free(t);
    printf("fresh: %" PRIu64 " calls on memory that was never written, no 9\n", calls);
    return 0;
}

/* ---- how deep the stack goes ---- */

enum { STACK = 4 << 20 };

static uint32_t stack_tables[WORDS];
static unsigned char *deepest; /* where the thread stood when it began to call */

static void *deep(void *unused) {
    (void)unused;
    static uint32_t list[LONGEST_LIST];
    unsigned char here;
    deepest = &here;
    ashwoodrung_reset(stack_tables, WORDS);
    for (uint64_t i = 0; i < goal; i++) {
        struct Call c = sensible(300, 900);
        for (uint32_t k = 0; k < c.list_length; k++) list[k] = k % 2 ? 0 : number(24);
        make(c, stack_tables, WORDS, list);
        calls++;
    }
    return NULL;
}

static int stack(void) {
    pthread_attr_t how;
    pthread_t thread;
    unsigned char *low = mmap(NULL, STACK, PROT_READ | PROT_WRITE, MAP_PRIVATE | MAP_ANONYMOUS, -1, 0), *touched = low;
    if (low == MAP_FAILED) return 2;
    memset(low, MARK, STACK);
    if (pthread_attr_init(&how) || pthread_attr_setstack(&how, low, STACK) || pthread_create(&thread, &how, deep, NULL) || pthread_join(thread, NULL)) return 2;
    while (touched < low + STACK && *touched == MARK) touched++;
    long bytes = deepest - touched;
    printf("stack: %" PRIu64 " calls took at most %ld bytes; the header says %d\n", calls, bytes, (int)ASHWOODRUNG_STACK_BYTES);
    return bytes > ASHWOODRUNG_STACK_BYTES;
}

int main(int count, char **words) {
    int is_fresh = count > 1 && strcmp(words[1], "fresh") == 0, is_stack = count > 1 && strcmp(words[1], "stack") == 0;
    if (is_fresh || is_stack) { count--; words++; goal = 20000; }
    if (count > 1) goal = strtoull(words[1], NULL, 10);
    if (count > 2) seed = strtoull(words[2], NULL, 10);
    if (is_fresh) return fresh(goal);
    if (is_stack) return stack();

    struct sigaction act = {.sa_handler = caught};
    sigaction(SIGSEGV, &act, NULL);
    sigaction(SIGBUS, &act, NULL);
    sigaction(SIGALRM, &act, NULL);
    clock_gettime(CLOCK_MONOTONIC, &began);

    struct Slice both[2] = {lend(WORDS, 0), lend(WORDS, 1)};
    uint32_t *was = calloc(WORDS, sizeof *was), *base = calloc(WORDS, sizeof *base);
    if (was == NULL || base == NULL) return 2;

    uint32_t from = 0; /* the next word to change; all are changed before the run ends */
    for (uint32_t round = 0; calls < goal || from < WORDS; round++) {
        struct Slice t = both[round % 2];
        uint32_t slots = SIZES[round % SIZE_KINDS][0], edges = SIZES[round % SIZE_KINDS][1];
        if (round % 8 == 0) full(t, was, base);
        memcpy(was, t.words, WORDS * sizeof *was);
        build(t, was, 20 * slots < 3000 ? 20 * slots : 3000, slots, edges);
        each_word(t, was, base, slots, edges, from, from + 20000);
        from += 20000;
        build(t, was, 10 * slots < 1500 ? 10 * slots : 1500, slots, edges);
        some_words(t, was, base, slots, edges, 20000);
        any_words(t, was, 3000);
        wrong_lengths(40);
    }
    progress(1);
    printf("answers:");
    for (int k = 0; k < 12; k++) printf(" %d:%" PRIu64, k, told[k]);
    printf("\ncalls:");
    for (int k = 0; k < KINDS; k++) printf(" %s:%" PRIu64, NAMES[k], by_kind[k]);
    printf("\n%" PRIu64 " calls, %" PRIu64 " failures, %.0f calls/s\n", calls, failures, (double)calls / seconds());
    return failures != 0;
}
