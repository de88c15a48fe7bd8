/* The two boxes as a library for C: the real box (zagbolu_box) and the ideal box (zagbolu_ideal).
 *
 * A box allocates nothing and has no state but what the caller lends, so a program can carry as many boxes as it
 * likes. The caller lends
 *   - the box itself, a zagbolu_box or a zagbolu_ideal;
 *   - its memory, by the pointers and lengths in box.memory: zagbolu_places() heads, cells and entries of spare,
 *     and zagbolu_box_rows() or zagbolu_ideal_rows() entries of rows;
 *   - to a zagbolu_box also a zagbolu_firsts.
 * Set the pointers and lengths, then call zagbolu_box_make or zagbolu_ideal_make: it begins a box that is not
 * set, whatever the memory and all other fields hold, or gives false where too little is lent. From then on
 * hand it words by zagbolu_box_answer or zagbolu_ideal_answer.
 *
 * What the caller owes, since nothing here can test it:
 *   - every pointer is valid for as many entries as its length says, and aligned for its type;
 *   - nothing that is lent overlaps: the box, its memory, the table, the word and the answer of a call;
 *   - a box is made, with true as the answer, before it is handed a word;
 *   - from then on nobody else writes the box or what is lent to it;
 *   - no two calls on one box run at once (calls on different boxes may).
 * What is proved of a box is proved of callers who keep this.
 */
#ifndef ZAGBOLU_H
#define ZAGBOLU_H

#include <stdbool.h>
#include <stddef.h>
#include <stdint.h>

#ifdef __cplusplus
extern "C" {
#endif

/* The head of a place: whose cell stands there, and in which row. */
typedef struct {
    uint32_t slot;
    uint8_t input;
    uint8_t output;
    uint16_t owner;
} zagbolu_head;

/* The bytes of a cell. */
typedef struct {
    uint8_t bytes[64];
} zagbolu_cell;

/* The memory of a box. The caller sets the pointers and their lengths; the rest is the box's own. */
typedef struct {
    zagbolu_head *heads;
    size_t heads_len;
    zagbolu_cell *cells;
    size_t cells_len;
    uint16_t *rows;
    size_t rows_len;
    uint16_t *spare;
    size_t spare_len;
    size_t room;
    uint16_t lens[64];
    uint16_t starts[64];
    size_t free;
    uint16_t places;
    uint8_t count;
} zagbolu_memory;

/* The table of the first waiting cell of each pair of an input and an output of a real box. */
typedef struct {
    uint32_t waiting[32];
    uint32_t slots[1024];
    uint16_t places[1024];
} zagbolu_firsts;

/* A real box. The caller sets the pointers and lengths of memory, and firsts. */
typedef struct {
    zagbolu_memory memory;
    zagbolu_firsts *firsts;
    uint64_t slots;
    uint16_t held[32];
    uint8_t lines;
} zagbolu_box;

/* An ideal box. The caller sets the pointers and lengths of memory. */
typedef struct {
    zagbolu_memory memory;
    uint64_t slots;
    uint8_t lines;
} zagbolu_ideal;

/* Room for the longest answer. */
typedef struct {
    uint8_t bytes[2241];
} zagbolu_answer;

/* How many heads, cells and entries of spare a box needs. */
size_t zagbolu_places(void);

/* How many entries of rows a real box needs. */
size_t zagbolu_box_rows(void);

/* How many entries of rows an ideal box needs. */
size_t zagbolu_ideal_rows(void);

/* Begins a box that is not set; false where too little is lent, and then nothing is changed. */
bool zagbolu_box_make(zagbolu_box *box);
bool zagbolu_ideal_make(zagbolu_ideal *ideal);

/* Takes a word; writes its answer to the front of `answer`, whose rest is left as it was, and gives the answer's
 * length: 0 for a word that has none. */
size_t zagbolu_box_answer(zagbolu_box *box, const uint8_t *word, size_t word_len, zagbolu_answer *answer);
size_t zagbolu_ideal_answer(zagbolu_ideal *ideal, const uint8_t *word, size_t word_len, zagbolu_answer *answer);

#ifdef __cplusplus
}
#endif

#endif
