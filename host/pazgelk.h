/* Assembly scores of ring-free molecules and their mixtures: the calls that a C host links from libcapi.a (x86-64 Linux).
 * Records, numbers and places are those of docs/ANSWERS.md. A record holds 1 to 8 trees and at most 64 bonds (otherwise it is row 2), so at
 * most 72 atoms and 338 bytes; one with a ring is row 6, at the lowest bond that closes one with lower bonds. No call keeps a pointer or
 * allocates. A pointer is never null, also where its length is 0, and what a call may write overlaps no other argument.
 * Stack, measured and rounded up, in kB of 1,024 bytes: check 8, label 40, matches 36; score 64, and 4 more for each removal that its search
 * is deep, of which there are at most 32. So 192 kB are enough for every call. */
#ifndef PAZGELK_H
#define PAZGELK_H

#include <stddef.h>
#include <stdint.h>

/* number: 0 where there is no refusal, else the row; place: that row's place, or for a label its length, for matches how many there are. */
struct pazgelk_reply {
    uint32_t number;
    uint64_t place;
};

/* Whether the bytes are a record that is answered: rows 1 to 6 and 15. */
struct pazgelk_reply assembly_check(const uint8_t *record, size_t length);

/* The label of a set of bonds of the record (bit i is bond i): rows 1 to 6 and 13 to 15. The buffer needs 454 bytes; the label goes to its
 * front, and what stands after the label is untouched. On a refusal the buffer is untouched. */
struct pazgelk_reply assembly_label(const uint8_t *record, size_t length, uint64_t set, uint8_t *buffer, size_t room);

/* The number of matches of the record: rows 1 to 6, 9, 10 and 15. The lengths of the two tables are in words of 8 bytes: parts has room for
 * P = parts_words / 12 sets of bonds, and pairs for pairs_words / 4 matches, both rounded down. What the tables hold before does not
 * matter. On rows 1 to 6 and 15 they are untouched, otherwise every word is 0 afterwards. */
struct pazgelk_reply assembly_matches(const uint8_t *record, size_t length, uint64_t *parts, size_t parts_words, uint64_t *pairs,
                                      size_t pairs_words);

/* number: 0 for a score, else the row. Of a score: index, matches, states (how many were entered) and length (how many removals the
 * trail has), and place is 0. Of a row: place, and the other four are 0. */
struct pazgelk_score {
    uint32_t number;
    uint32_t index;
    uint64_t place;
    uint64_t matches;
    uint32_t states;
    uint32_t length;
};

/* The score of the record: rows 1 to 12 and 15. bounds is 0 to 3 (1 Int, 2 MatchableEdges, 3 both), memo is 0 or 1, budget is how many
 * states may be entered. The trail needs 64 numbers and the desk 4,096 words of 8 bytes. The other lengths are in words of 8 bytes too:
 * parts has room for P = parts_words / 12 sets of bonds, pairs for pairs_words / 4 matches, and memo_table for memo_words / 80 states, all
 * rounded down; with memo 0 memo_words may be 0. What trail and tables hold before does not matter.
 * Afterwards: of a score the trail has two arrays of 32, one after the other: the numbers of the length matches removed, from 0, and the
 * sizes of their fragments, in bonds, from 32; the rest of either is 0, and numbers from 64 on are untouched. The bonds, less one for each
 * tree that has any, are index plus the sum of (size less one). A record without bonds is scored 0, with 0 matches, states and removals,
 * whatever the budget and the four tables. On a row the trail is untouched. On rows 1 to 8 and 15 the four tables are untouched, otherwise
 * every word of them is 0. */
struct pazgelk_score assembly_score(const uint8_t *record, size_t length, uint32_t bounds, uint32_t memo, uint32_t budget, uint32_t *trail,
                                    size_t trail_numbers, uint64_t *parts, size_t parts_words, uint64_t *pairs, size_t pairs_words,
                                    uint64_t *memo_table, size_t memo_words, uint64_t *desk, size_t desk_words);

#endif
