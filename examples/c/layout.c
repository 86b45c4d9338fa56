/* Where the header says that each table lies, against the sums that crates/table_meaning/specs/Layout.antt says. Nothing runs: it compiles or not. */
#include "ashwoodrung.h"

#ifdef __cplusplus
#define SAME(a, b) static_assert((a) == (b), #a " is " #b)
#else
#define SAME(a, b) _Static_assert((a) == (b), #a " is " #b)
#endif

enum {
    S = ASHWOODRUNG_SLOTS,
    I = ASHWOODRUNG_ISLANDS,
    E = ASHWOODRUNG_EDGES,
    J = ASHWOODRUNG_JOINTS,
    L = ASHWOODRUNG_JOURNAL
};

SAME(ASHWOODRUNG_AT_BODIES, 9);
SAME(ASHWOODRUNG_AT_MEMBERS, 9 + 5 * S);
SAME(ASHWOODRUNG_AT_ROWS, 9 + 9 * S + 2 * I);
SAME(ASHWOODRUNG_AT_FREED, 9 + 9 * S + 5 * I);
SAME(ASHWOODRUNG_AT_CONTACTS, 11 + 9 * S + 9 * I);
SAME(ASHWOODRUNG_AT_TOUCHES, 11 + 9 * S + 11 * I + 4 * E);
SAME(ASHWOODRUNG_AT_JOINTS, 11 + 9 * S + 11 * I + 8 * E);
SAME(ASHWOODRUNG_AT_KEYS, 11 + 9 * S + 13 * I + 8 * E + 4 * J);
SAME(ASHWOODRUNG_AT_SPARE, 11 + 9 * S + 13 * I + 8 * E + 12 * J);
SAME(ASHWOODRUNG_AT_JOURNAL, 13 + 9 * S + 13 * I + 8 * E + 16 * J);
SAME(ASHWOODRUNG_AT_SCAN, 13 + 9 * S + 13 * I + 8 * E + 16 * J + 4 * L);
SAME(ASHWOODRUNG_AT_FIT, 15 + 9 * S + 17 * I + 8 * E + 16 * J + 4 * L);
SAME(ASHWOODRUNG_WORDS, 15 + 9 * S + 18 * I + 8 * E + 16 * J + 4 * L);
