/*
 * Ashwoodrung: which bodies of a rig move together, and which may sleep.
 *
 * Every call works on one buffer of 32-bit words, the tables, that the caller owns and lends for the call; chain also
 * reads a lent list, and finish writes to a lent output. No call allocates, keeps a pointer, or runs for ever. Every
 * call but reset first audits the tables: words that are not well formed get answer 9 and are left as they are,
 * whatever they hold. (Well formed is what document 01 says, and that the words are tidy: docs/EXCEPTIONS.md lists
 * what that asks.) An answer above 1 changes no word, nor the output.
 *
 * Link with target/staticlib/libashwoodrung.a, which `tools/build.sh archive` writes (x86-64 Linux). It needs no other library.
 *
 * What the caller owes, as with any C function that takes pointers:
 *   - a pointer and the length behind it (in words, not bytes) name one array of uint32_t, aligned as uint32_t is; a length that is wrong
 *     for the tables is answered by 9, but the array must be as long as said;
 *   - the arrays of one call do not overlap, and nothing else writes them during the call;
 *   - with length 0 any pointer but NULL will do;
 *   - ASHWOODRUNG_STACK_BYTES of the caller's stack are free.
 * Two threads may use two buffers at once.
 *
 * docs/01-scope.md is the paper that decides what each call does; the numbers of the answers are its.
 */
#ifndef ASHWOODRUNG_H
#define ASHWOODRUNG_H

#include <stddef.h>
#include <stdint.h>

#ifdef __cplusplus
extern "C" {
#endif

/* ---- Sizes ---- */

enum {
    ASHWOODRUNG_SLOTS = 4096,    /* body slots are 0 to 4095 */
    ASHWOODRUNG_ISLANDS = 4096,  /* island numbers are 0 to 4095 */
    ASHWOODRUNG_EDGES = 16384,   /* edge numbers are 0 to 16383 */
    ASHWOODRUNG_JOINTS = 4096,   /* joint links at once */
    ASHWOODRUNG_JOURNAL = 8192,  /* removals that may wait for the resolver */
    ASHWOODRUNG_WORDS = 339983   /* the length of the tables, in words */
};

/* How much stack to leave free for a call, in bytes. Measured, not proved: in tests no call took more than 66,239
 * (damage/run.sh stack). */
enum { ASHWOODRUNG_STACK_BYTES = 262144 };

/* The number of no slot, no island, no edge; a handle of which both numbers are this names nothing (the absent
 * handle). */
#define ASHWOODRUNG_NONE UINT32_C(4294967295)

/* ---- Answers ----
 * Where several apply, the first in the order 9, 2, 10, 11, 6, 7, 1, 3, 4, 5, 8 is given; renumber has its own order
 * behind 9. Any call can answer 9; below it is named only where there is more to say. */

enum {
    ASHWOODRUNG_DONE = 0,
    ASHWOODRUNG_NOTHING = 1,        /* nothing to do: all as it was, but see contact and run */
    ASHWOODRUNG_OVER_SIZE = 2,      /* an edge or slot number over its size (contact, put) */
    ASHWOODRUNG_STILL_LINKED = 3,   /* renumber: the removed edge is still linked */
    ASHWOODRUNG_JOINTS_FULL = 4,    /* the joint table is full */
    ASHWOODRUNG_JOURNAL_FULL = 5,   /* the journal is full: resolve first */
    ASHWOODRUNG_NO_ISLAND = 6,      /* no such island */
    ASHWOODRUNG_NO_SCAN = 7,        /* no scan is open */
    ASHWOODRUNG_TOO_SHORT = 8,      /* the output is shorter than the list; the scan stays open */
    ASHWOODRUNG_BAD_TABLES = 9,     /* the tables have a wrong length, or the audit fails */
    ASHWOODRUNG_SLOT_TAKEN = 10,    /* put: the slot has a live body */
    ASHWOODRUNG_BAD_GENERATION = 11 /* put: the generation is not allowed */
};

/* Three calls (island, may_bid, finish) give a value beside the answer: both in one number of 64 bits, which these
 * take apart. */
#define ASHWOODRUNG_ANSWER(both) ((uint32_t)((uint64_t)(both) >> 32))
#define ASHWOODRUNG_VALUE(both) ((uint32_t)((uint64_t)(both) & UINT64_C(4294967295)))

/* ---- Bodies ----
 * A body is named by a handle: its slot, and which of the slot's bodies it is (its generation). A flag is yes unless it is 0. */

/* Empties the tables, whatever the words are: stamp 0, scan closed, no pending split, tracked length 0. Call it
 * first. Answers 0; 9 for a wrong length only. Words behind the sizes in use stay as they are, so a fresh buffer need
 * not be cleared. */
uint32_t ashwoodrung_reset(uint32_t *tables, size_t words);

/* Puts a body into a slot. It is in no island yet. 0; 2: the slot is 4096 or more; 10: the slot has a live body; 11:
 * the generation is below the slot's lowest allowed one (0 at reset), or 4294967295. */
uint32_t ashwoodrung_put(uint32_t *tables, size_t words, uint32_t slot, uint32_t generation, uint32_t fixed,
                         uint32_t enabled, uint32_t sleeping);

/* Sets a body's flags anew. Touches no membership: a member that turns fixed stays in its island until it is removed
 * or retired. 0; 1: the handle names no live body. */
uint32_t ashwoodrung_flags(uint32_t *tables, size_t words, uint32_t slot, uint32_t generation, uint32_t fixed,
                           uint32_t enabled, uint32_t sleeping);

/* Takes a body out of its island, if it is in one, exactly as remove does: an island that it empties drops its links
 * and is freed. Then takes it out of its slot, whose lowest allowed generation becomes this one plus 1. Links that
 * name it and stand in an island that is not emptied stay there. 0; 1: the handle names no live body. */
uint32_t ashwoodrung_retire(uint32_t *tables, size_t words, uint32_t slot, uint32_t generation);

/* A body's island: the answer, and as value the island's number, or 4294967295 for a body in none, for a handle that
 * names no live body, and with answer 9. */
uint64_t ashwoodrung_island(const uint32_t *tables, size_t words, uint32_t slot, uint32_t generation);

/* ---- Membership ---- */

/* Gives a live, enabled, non-fixed body that is in no island an island of its own, with the body's sleeping flag. The
 * number is the last freed, or the next unused. 0; else 1. */
uint32_t ashwoodrung_ensure(uint32_t *tables, size_t words, uint32_t slot, uint32_t generation);

/* Takes a body out of its island, and adds 1 to that island's removal count (it stops at 4294967295). Links of that
 * island that name the body stay there. An emptied island drops all its links, without journal entries, is freed, and
 * a pending split of it is cleared. 0; 1: the handle names no live body, or one in no island. */
uint32_t ashwoodrung_remove(uint32_t *tables, size_t words, uint32_t slot, uint32_t generation);

/* ---- Links ----
 * A link between bodies of two islands makes these one: the one with more bodies survives, the first argument's if
 * they have as many. The other's lists are put behind its own, the removal counts add, it sleeps only if both slept,
 * its denial stays its own; the other's number is freed, and a pending split of that one is cleared.
 *
 * In tables that only these calls wrote since a reset, two bodies that were both in an island when their link was
 * recorded are in one island until it is unlinked or one of them leaves. A link with one end in an island is held by
 * that island, and merges nothing later, also when the other body comes into an island; nor does a link whose body
 * left and came back. So two bodies can be in two islands although a recorded link names them both.
 *
 * A link stays recorded until it is unlinked (uncontact, unjoint, chain), until its island is emptied (remove,
 * retire), until a split cuts its island into several parts and neither of its ends is in that island, or until
 * reset. */

/* Links a contact by its edge number. First the tracked length grows to at least the edge number plus 1, even where
 * the answer is 1. 0; 2: the edge number is 16384 or more; 1: that number is already linked, or neither end is in an
 * island. */
uint32_t ashwoodrung_contact(uint32_t *tables, size_t words, uint32_t edge, uint32_t slot1, uint32_t generation1,
                             uint32_t slot2, uint32_t generation2);

/* Unlinks a contact, and writes its two handles to the journal, unless they are equal. Cuts nothing, and counts nothing
 * yet: see resolve. 0; 1: not linked, or out of range; 5: an entry is needed, and the journal is full. */
uint32_t ashwoodrung_uncontact(uint32_t *tables, size_t words, uint32_t edge);

/* The edge `removed` is gone, and the edge `last` takes its number (swap removal in the caller's own table). Tested
 * in this order: removed at or above the tracked length: 1; still linked: 3; tracked length equal to last plus 1: 0,
 * and the length shrinks by 1; else 1. */
uint32_t ashwoodrung_renumber(uint32_t *tables, size_t words, uint32_t removed, uint32_t last);

/* Links a joint by an impulse key (index and generation) or by a chain key (a multibody's 64 bits and an ordinal).
 * 0; 1: that key is already linked, or neither end is in an island; 4. */
uint32_t ashwoodrung_joint_impulse(uint32_t *tables, size_t words, uint32_t index, uint32_t generation, uint32_t slot1,
                                   uint32_t generation1, uint32_t slot2, uint32_t generation2);
uint32_t ashwoodrung_joint_chain(uint32_t *tables, size_t words, uint64_t multibody, uint32_t ordinal, uint32_t slot1,
                                 uint32_t generation1, uint32_t slot2, uint32_t generation2);

/* Unlinks a joint, and writes its two handles to the journal, unless they are equal. 0; 1: not linked; 5: an entry is
 * needed, and the journal is full. */
uint32_t ashwoodrung_unjoint_impulse(uint32_t *tables, size_t words, uint32_t index, uint32_t generation);
uint32_t ashwoodrung_unjoint_chain(uint32_t *tables, size_t words, uint64_t multibody, uint32_t ordinal);

/* Unlinks the multibody's chain, ordinals from 0 up to the first that is missing, and then links successive bodies of
 * the list that are live, enabled and not fixed, as joint does, by ordinals from 0. The ordinal rises for each pair,
 * also where no link is recorded (neither body is in an island, or the ordinal was still linked behind a gap).
 * `handles` has two words a handle, its slot and its generation; `handle_words` is the number of words; an odd last
 * word is no handle. 0; 4: free places plus the old chain are fewer than the new pairs, or over 4096 handles; 5: the
 * journal has less room than the old chain is long. */
uint32_t ashwoodrung_chain(uint32_t *tables, size_t words, uint64_t multibody, const uint32_t *handles,
                           size_t handle_words);

/* Goes through the journal in order and empties it: for an entry whose two handles are in one island now, that island's
 * removal count rises by 1 (it stops at 4294967295). 0; 1: the journal was empty. */
uint32_t ashwoodrung_resolve(uint32_t *tables, size_t words);

/* ---- Splits ---- */

/* Cuts an island into its connected parts: two of its bodies stay together exactly if a path of its links, each
 * between two of its bodies, joins them. The largest part keeps the number (of equal ones that with the earliest
 * body); the others get new ones, with the island's sleeping flag, removal count 0 and denial 0. A link goes with its
 * first body that is in the island, else with its second; one with neither is dropped, without a journal entry. With
 * one part no link is touched.
 * In either case, one part or several, the number that was split has removal count 0 then, and its denial is the
 * stamp plus 16 (at most 4294967295): until the stamp is there, may_bid says no of it. A split asks neither for a
 * removal count, nor whether the island is denied or asleep, and leaves the note of schedule. 0; 6. */
uint32_t ashwoodrung_split(uint32_t *tables, size_t words, uint32_t island);

/* Notes an island, any number, to be split by run. Overwrites an earlier one. 0. */
uint32_t ashwoodrung_schedule(uint32_t *tables, size_t words, uint32_t island);

/* Clears the note; splits the island, as split does, if it is live and awake (0), else 1. */
uint32_t ashwoodrung_run(uint32_t *tables, size_t words);

/* May this island bid for a split: the answer, and as value 1 for yes (it is live, its removal count is not 0, and
 * the stamp is at least its denial), else 0. Removals that wait in the journal do not count yet: see resolve. The
 * answer is 0 or 9, never 6. */
uint64_t ashwoodrung_may_bid(const uint32_t *tables, size_t words, uint32_t island);

/* ---- Sleep ---- */

/* Opens a scan anew and advances the stamp by 1 (after 4294967295 comes 0). 0. */
uint32_t ashwoodrung_begin(uint32_t *tables, size_t words);

/* Notes in the open scan an observation of an island, by its number: is the body that was looked at eligible for
 * sleep. It stays with the number, whatever merges and splits come after. 0; 6: not live; 7. */
uint32_t ashwoodrung_observe(uint32_t *tables, size_t words, uint32_t island, uint32_t eligible);

/* Closes the scan and lists, in order of first observation, those of the islands observed in it that may sleep: live,
 * awake, all observations eligible, removal count 0 or at most one body. It puts none to sleep. The value is the
 * list's length, and `out` holds the list; behind it `out` stays as it was. 0; 7; 8: the list is longer than
 * out_words, nothing is written, and the scan stays open. With another answer than 0 the value is 0. */
uint64_t ashwoodrung_finish(uint32_t *tables, size_t words, uint32_t *out, size_t out_words);

/* Marks an island asleep, listed by finish or not, and clears a pending split of it. Touches no body's flag. 0; 6. */
uint32_t ashwoodrung_sleep(uint32_t *tables, size_t words, uint32_t island);

/* Marks an island awake. Touches no body's flag. 0; 6. */
uint32_t ashwoodrung_wake(uint32_t *tables, size_t words, uint32_t island);

/* ---- The tables, word by word ----
 *
 * For reading (a debugger, a saved game); writing is for the calls. Everything between calls is in these words: copy them and you have
 * copied the state. NONE is 4294967295.
 *
 * A chain table of n elements in m lists has four words an element (home: its list; place: its index there; prev and next: its
 * neighbours), NONE in all four for an element in no list, and behind all elements two words a list (count, and its last element).
 *
 * In use are the slots, islands, edges, joint places and journal entries below the numbers in the head. What lies
 * behind them is no part of the state: nobody reads it, and no call changes it but by taking it in. An entry in use
 * that holds nothing is blank: NONE in generations, handles, keys and chains, 0 in counts, denials and flags.
 */
enum {
    /* head: 9 words */
    ASHWOODRUNG_AT_SLOTS_USED = 0,   /* slots in use */
    ASHWOODRUNG_AT_ISLANDS_USED = 1, /* islands in use: the next never used number */
    ASHWOODRUNG_AT_TRACKED = 2,      /* the tracked length: edges in use */
    ASHWOODRUNG_AT_JOINTS_USED = 3,  /* joint places in use */
    ASHWOODRUNG_AT_JOURNAL_USED = 4, /* the journal's length */
    ASHWOODRUNG_AT_IS_PENDING = 5,   /* is a split pending: 0 or 1 */
    ASHWOODRUNG_AT_PENDING = 6,      /* of which island; 0 where none is */
    ASHWOODRUNG_AT_STAMP = 7,        /* the scan's stamp */
    ASHWOODRUNG_AT_SCAN_OPEN = 8,    /* is the scan open: 0 or 1 */

    /* 5 words a slot: generation (NONE: no live body), lowest allowed generation, fixed, enabled, sleeping */
    ASHWOODRUNG_AT_BODIES = 9,
    /* the islands' lists of bodies: a chain table, 4096 slots in 4096 islands */
    ASHWOODRUNG_AT_MEMBERS = 20489,
    /* 3 words an island: removal count, denied until, sleeping */
    ASHWOODRUNG_AT_ROWS = 45065,
    /* the free stack, last freed last: a chain table, 4096 island numbers in one list */
    ASHWOODRUNG_AT_FREED = 57353,
    /* the islands' lists of contact links: a chain table, 16384 edges in 4096 islands */
    ASHWOODRUNG_AT_CONTACTS = 73739,
    /* 4 words an edge: slot and generation of the link's first body, of its second */
    ASHWOODRUNG_AT_TOUCHES = 147467,
    /* the islands' lists of joint links: a chain table, 4096 joint places in 4096 islands */
    ASHWOODRUNG_AT_JOINTS = 213003,
    /* 8 words a joint place: kind (0 impulse, 1 chain); index, generation, 0, or the multibody's high and low half, ordinal; then slot and
     * generation of the first body, of the second */
    ASHWOODRUNG_AT_KEYS = 237579,
    /* the free joint places: a chain table, 4096 joint places in one list */
    ASHWOODRUNG_AT_SPARE = 270347,
    /* 4 words a journal entry: two handles */
    ASHWOODRUNG_AT_JOURNAL = 286733,
    /* the islands observed in the open scan, in order: a chain table, 4096 island numbers in one list */
    ASHWOODRUNG_AT_SCAN = 319501,
    /* 1 word an island: 1 while it is in that list and all observations of it were eligible */
    ASHWOODRUNG_AT_FIT = 335887
};

#ifdef __cplusplus
}
#endif

#endif
