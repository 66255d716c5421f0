/* Looks before it agrees, as a plant editor in C would: what a ticket would add and remove is asked, shown
 * and committed; then runs that are short, runs that are not what the ticket would do, and null where a run
 * or a buffer is empty. Each line that it prints is a call and what it gave. */

#include "vimelosa.h"

#include <stdio.h>
#include <string.h>

static const uint8_t fresh[] = VIMELOSA_FRESH_IMAGE;

/* Class 3 under class 2, with a member and a property. */
static const uint8_t made[] = {
    VIMELOSA_INSERT, VIMELOSA_SUBCLASS, 3, 2, 0,
    VIMELOSA_INSERT, VIMELOSA_PROPERTY, 5, 3, 1,
    VIMELOSA_INSERT, VIMELOSA_MEMBER, 4, 3, 0,
};

static const uint8_t insertion[VIMELOSA_TICKET] = {VIMELOSA_INSERT, VIMELOSA_CLASS, 2, 0, 0};
static const uint8_t deletion[VIMELOSA_TICKET] = {VIMELOSA_DELETE, VIMELOSA_CLASS, 3, 0, 0};
static const uint8_t guarded[VIMELOSA_TICKET] = {VIMELOSA_DELETE, VIMELOSA_CLASS, 0, 0, 0};

/* A byte that no call writes here; a word of such bytes is no fact. */
enum { LENT = 0xee };

static uint8_t plant[VIMELOSA_LONGEST_IMAGE];
static size_t plant_length;
static uint8_t output[VIMELOSA_LONGEST_IMAGE];
static uint8_t single[VIMELOSA_LONGEST_IMAGE];
static uint32_t added[VIMELOSA_MOST_FACTS];
static uint32_t removed[VIMELOSA_MOST_FACTS];

static void lend(void) {
    memset(output, LENT, sizeof output);
    memset(single, LENT, sizeof single);
    memset(added, LENT, sizeof added);
    memset(removed, LENT, sizeof removed);
}

static int is_as_lent(const void *lent, size_t length) {
    const uint8_t *bytes = (const uint8_t *)lent;
    for (size_t place = 0; place < length; place++) {
        if (bytes[place] != LENT) {
            return 0;
        }
    }
    return 1;
}

static void print_run(const char *what, const uint32_t *run, size_t length) {
    printf("%s:", what);
    for (size_t place = 0; place < length; place++) {
        printf(" %08lx", (unsigned long)run[place]);
    }
    printf("\n");
}

static void print_ask(const char *what, uint64_t result) {
    size_t come = vimelosa_added(result);
    size_t go = vimelosa_removed(result);
    printf("%s: answer %u, added %u, removed %u, above %u, rest as lent %d\n", what,
           (unsigned)vimelosa_answer(result), (unsigned)come, (unsigned)go, (unsigned)(result >> 48),
           is_as_lent(added + come, sizeof added - come * sizeof *added) &&
               is_as_lent(removed + go, sizeof removed - go * sizeof *removed) &&
               is_as_lent(output, sizeof output));
}

static void print_commit(const char *what, uint64_t result) {
    size_t length = vimelosa_length(result);
    printf("%s: answer %u, added %u, removed %u, length %u, rest as lent %d\n", what,
           (unsigned)vimelosa_answer(result), (unsigned)vimelosa_added(result),
           (unsigned)vimelosa_removed(result), (unsigned)length,
           is_as_lent(output + length, sizeof output - length));
}

static void make_plant(void) {
    uint8_t answers[3];
    uint64_t result = vimelosa_apply_list(fresh, sizeof fresh, made, sizeof made, answers, sizeof answers,
                                          plant, sizeof plant);
    plant_length = vimelosa_length(result);
    printf("the plant: accepted %u, length %u\n", (unsigned)vimelosa_accepted(result),
           (unsigned)plant_length);
}

/* Both runs; the added one is just long enough. */
static void look_at_insertion(void) {
    lend();
    uint64_t asked = vimelosa_ask(fresh, sizeof fresh, insertion, sizeof insertion, added, 2, removed,
                                  VIMELOSA_MOST_FACTS);
    print_ask("ask to insert class 2", asked);
    print_run("added", added, vimelosa_added(asked));
    uint64_t result = vimelosa_commit(fresh, sizeof fresh, insertion, sizeof insertion, added, 2, removed, 0,
                                      output, sizeof output);
    print_commit("commit", result);
    uint64_t other = vimelosa_apply(fresh, sizeof fresh, insertion, sizeof insertion, single, sizeof single);
    printf("as the single call: %d\n", result == other && memcmp(output, single, sizeof output) == 0);
}

/* A deletion adds nothing: its added run is null. */
static void look_at_deletion(void) {
    lend();
    uint64_t asked = vimelosa_ask(plant, plant_length, deletion, sizeof deletion, NULL, 0, removed,
                                  VIMELOSA_MOST_FACTS);
    print_ask("ask to delete class 3", asked);
    size_t go = vimelosa_removed(asked);
    print_run("removed", removed, go);
    uint64_t result = vimelosa_commit(plant, plant_length, deletion, sizeof deletion, NULL, 0, removed, go,
                                      output, sizeof output);
    print_commit("commit", result);
    uint64_t other = vimelosa_apply(plant, plant_length, deletion, sizeof deletion, single, sizeof single);
    printf("as the single call: %d\n", result == other && memcmp(output, single, sizeof output) == 0);
    memset(output, LENT, sizeof output);
    result = vimelosa_commit(single, vimelosa_length(other), deletion, sizeof deletion, NULL, 0, removed, go,
                             output, sizeof output);
    print_commit("commit on what it left", result);
}

static void refuse_runs(void) {
    static const uint32_t words[] = {0x01020000, 0x05020000, 0};
    static const uint32_t turned[] = {0x05020000, 0x01020000};
    lend();
    uint64_t result = vimelosa_ask(fresh, sizeof fresh, insertion, sizeof insertion, added, 1, removed, 9);
    printf("the run is short: %d\n", vimelosa_answer(result) == VIMELOSA_SHORT_OUTPUT);
    print_ask("ask with a short run", result);
    result = vimelosa_commit(fresh, sizeof fresh, insertion, sizeof insertion, words, 3, NULL, 0, output,
                             sizeof output);
    printf("the runs are out of date: %d\n", vimelosa_answer(result) == VIMELOSA_OUT_OF_DATE);
    print_commit("commit with a word more", result);
    print_commit("commit with a word less",
                 vimelosa_commit(fresh, sizeof fresh, insertion, sizeof insertion, words, 1, NULL, 0, output,
                                 sizeof output));
    print_commit("commit in another order",
                 vimelosa_commit(fresh, sizeof fresh, insertion, sizeof insertion, turned, 2, NULL, 0, output,
                                 sizeof output));
    print_commit("commit with the runs exchanged",
                 vimelosa_commit(fresh, sizeof fresh, insertion, sizeof insertion, NULL, 0, words, 2, output,
                                 sizeof output));
    print_commit("commit once the class is there",
                 vimelosa_commit(plant, plant_length, insertion, sizeof insertion, words, 2, NULL, 0, output,
                                 sizeof output));
    print_commit("commit to a short output",
                 vimelosa_commit(fresh, sizeof fresh, insertion, sizeof insertion, words, 2, NULL, 0, output,
                                 71));
    print_commit("commit what is guarded",
                 vimelosa_commit(fresh, sizeof fresh, guarded, sizeof guarded, words, 2, NULL, 0, NULL, 0));
}

/* A run of no words is null, and so is all else. */
static void empty_buffers(void) {
    lend();
    print_ask("ask what is there already",
              vimelosa_ask(plant, plant_length, insertion, sizeof insertion, NULL, 0, NULL, 0));
    print_ask("ask what is guarded",
              vimelosa_ask(fresh, sizeof fresh, guarded, sizeof guarded, NULL, 0, NULL, 0));
    print_ask("ask nothing", vimelosa_ask(fresh, sizeof fresh, NULL, 0, NULL, 0, NULL, 0));
    print_ask("ask, all empty", vimelosa_ask(NULL, 0, NULL, 0, NULL, 0, NULL, 0));
    print_commit("commit, all empty", vimelosa_commit(NULL, 0, NULL, 0, NULL, 0, NULL, 0, NULL, 0));
    uint64_t result = vimelosa_commit(plant, plant_length, insertion, sizeof insertion, NULL, 0, NULL, 0,
                                      output, sizeof output);
    print_commit("commit what is there already", result);
    printf("the image is the old one: %d\n", memcmp(output, plant, plant_length) == 0);
}

int main(void) {
    make_plant();
    look_at_insertion();
    look_at_deletion();
    refuse_runs();
    empty_buffers();
    return 0;
}
