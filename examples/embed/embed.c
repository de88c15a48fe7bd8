/* Two boxes in one C program, a real one and an ideal one. Both take the same words; answers are printed and compared.
 * examples/embed/build_and_run builds and starts it. */
#include <stdio.h>
#include <stdlib.h>
#include <string.h>

#include "zagbolu.h"

enum { LINES = 2, BODY = 64, NONE = 255 };

static zagbolu_box real;
static zagbolu_firsts firsts;
static zagbolu_ideal ideal;

static void *allocate(size_t count, size_t size) {
    void *memory = malloc(count * size);
    if (memory == NULL) {
        fprintf(stderr, "no memory\n");
        exit(1);
    }
    return memory;
}

static void lend(zagbolu_memory *memory, size_t rows_len) {
    size_t places = zagbolu_places();
    memory->heads = allocate(places, sizeof *memory->heads);
    memory->heads_len = places;
    memory->cells = allocate(places, sizeof *memory->cells);
    memory->cells_len = places;
    memory->rows = allocate(rows_len, sizeof *memory->rows);
    memory->rows_len = rows_len;
    memory->spare = allocate(places, sizeof *memory->spare);
    memory->spare_len = places;
}

static void give_back(zagbolu_memory *memory) {
    free(memory->heads);
    free(memory->cells);
    free(memory->rows);
    free(memory->spare);
}

/* Prints a slot's answer: what leaves by each output, and whose cells are rejected. */
static void print_slot(const uint8_t *at) {
    for (int output = 0; output < LINES; output++) {
        unsigned input = *at++;
        if (input == NONE) {
            printf("  output %d: nothing\n", output);
            continue;
        }
        unsigned slot = (unsigned)at[0] << 24 | (unsigned)at[1] << 16 | (unsigned)at[2] << 8 | at[3];
        printf("  output %d: \"%.64s\", by input %u in slot %u\n", output, (const char *)at + 4, input, slot);
        at += 4 + BODY;
    }
    for (int input = 0; input < LINES; input++) {
        if (at[input] == 1) {
            printf("  the cell of input %d is rejected\n", input);
        }
    }
}

static void print_answer(const uint8_t *answer, size_t len) {
    if (len == 0) {
        printf("  taken\n");
    } else if (answer[0] == 5) {
        printf("  refused with fault %d\n", answer[1]);
    } else {
        print_slot(answer + 1);
    }
}

/* Gives a word to both boxes and prints the answer; whether it is the same. */
static bool both(const char *what, const uint8_t *word, size_t len) {
    static zagbolu_answer of_real, of_ideal;
    size_t real_len = zagbolu_box_answer(&real, word, len, &of_real);
    size_t ideal_len = zagbolu_ideal_answer(&ideal, word, len, &of_ideal);
    printf("%s\n", what);
    print_answer(of_real.bytes, real_len);
    bool same = real_len == ideal_len && memcmp(of_real.bytes, of_ideal.bytes, real_len) == 0;
    if (!same) {
        printf("  THE BOXES DIFFER\n");
    }
    return same;
}

/* Puts a cell for an output, which carries a text, to the end of a slot word; the new length. */
static size_t put_cell(uint8_t *word, size_t len, uint8_t output, const char *text) {
    word[len] = output;
    memset(word + len + 1, 0, BODY);
    memcpy(word + len + 1, text, strlen(text));
    return len + 1 + BODY;
}

/* Whether both boxes answer all these words alike. */
static bool slots(void) {
    const uint8_t settings[] = {1, LINES};
    const uint8_t silence[] = {2, NONE, NONE};
    uint8_t word[1 + LINES * (1 + BODY)] = {2};
    bool same = both("silence before settings", silence, sizeof silence);
    same &= both("settings: 2 lines", settings, sizeof settings);
    size_t len = put_cell(word, put_cell(word, 1, 0, "soprano"), 0, "alto");
    same &= both("slot 0: both inputs send to output 0", word, len);
    len = put_cell(word, put_cell(word, 1, 1, "tenor"), 0, "bass");
    same &= both("slot 1: input 0 sends to output 1, input 1 to output 0", word, len);
    same &= both("the same word, cut", word, len - 1);
    same &= both("slot 2: silence", silence, sizeof silence);
    same &= both("slot 3: silence", silence, sizeof silence);
    return same;
}

/* Whether neither box is made with one head too few. */
static bool too_little_is_refused(void) {
    real.memory.heads_len--;
    ideal.memory.heads_len--;
    bool refused = !zagbolu_box_make(&real) && !zagbolu_ideal_make(&ideal);
    real.memory.heads_len++;
    ideal.memory.heads_len++;
    return refused;
}

int main(void) {
    lend(&real.memory, zagbolu_box_rows());
    real.firsts = &firsts;
    lend(&ideal.memory, zagbolu_ideal_rows());
    bool refused = too_little_is_refused();
    bool made = zagbolu_box_make(&real) && zagbolu_ideal_make(&ideal);
    bool same = made && slots();
    printf("both boxes %s; too little memory is %s\n", same ? "agree" : "DIFFER", refused ? "refused" : "TAKEN");
    give_back(&real.memory);
    give_back(&ideal.memory);
    return same && refused ? 0 : 1;
}
