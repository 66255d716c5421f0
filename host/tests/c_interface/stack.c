/* How many bytes of stack each call takes. A call runs on a thread whose stack is painted memory of this
 * program; the bytes that lose their paint are counted, less those that a thread takes which does nothing.
 * The graph is two chains of classes; a link of two properties joins them by their domains, so that side
 * effects nest deep. For operators it is one chain of classes, which a value climbs from the domain of its
 * property. Each line that it prints is a call, its answer and its bytes. */

#define _POSIX_C_SOURCE 200809L

#include "vimelosa.h"

#include <pthread.h>
#include <stdio.h>
#include <stdlib.h>
#include <string.h>

enum { STACK = 64 * 1024, PAGE = 4096, PAINT = 0xa5 };

/* The classes of the chains have ids from FIRST on; LONGEST is that of the operators' chain. */
enum { FIRST = 20, LOWER = 40, UPPER = 44, LONGEST = 61 };

enum { LOW_PROPERTY = 150, HIGH_PROPERTY = 151, INDIVIDUAL = 200 };

/* The ticket of the deepest call known, twice for the list. */
static const uint8_t tickets[] = {
    VIMELOSA_INSERT, VIMELOSA_SUBPROPERTY, LOW_PROPERTY, HIGH_PROPERTY, 0,
    VIMELOSA_INSERT, VIMELOSA_SUBPROPERTY, LOW_PROPERTY, HIGH_PROPERTY, 0,
};

/* The same of operators' calls. */
static const uint8_t operator_tickets[] = {
    VIMELOSA_INSERT, VIMELOSA_VALUE, INDIVIDUAL, INDIVIDUAL + 1, LOW_PROPERTY,
    VIMELOSA_INSERT, VIMELOSA_VALUE, INDIVIDUAL, INDIVIDUAL + 1, LOW_PROPERTY,
};

static uint8_t image[VIMELOSA_LONGEST_IMAGE];
static uint8_t output[VIMELOSA_LONGEST_IMAGE];
static uint8_t answers[2];
static uint8_t text[VIMELOSA_LONGEST_TEXT];
static uint32_t added[VIMELOSA_MOST_FACTS];
static uint32_t removed[VIMELOSA_MOST_FACTS];
static size_t image_length;
static size_t text_length;
static uint64_t result;

static void fail(const char *what) {
    printf("%s failed\n", what);
    exit(1);
}

static void insert(int kind, int a, int b) {
    const uint8_t ticket[VIMELOSA_TICKET] = {VIMELOSA_INSERT, (uint8_t)kind, (uint8_t)a, (uint8_t)b, 0};
    uint64_t made = vimelosa_apply(image, image_length, ticket, sizeof ticket, output, sizeof output);
    if (vimelosa_answer(made) != 0) {
        fail("an insertion");
    }
    image_length = vimelosa_length(made);
    memcpy(image, output, image_length);
}

static void begin(void) {
    static const uint8_t fresh[] = VIMELOSA_FRESH_IMAGE;
    memcpy(image, fresh, sizeof fresh);
    image_length = sizeof fresh;
}

/* Classes from an id up to another, each under the next. */
static void make_chain(int from, int to) {
    for (int id = from; id + 1 < to; id++) {
        insert(VIMELOSA_SUBCLASS, id, id + 1);
    }
}

/* Ids rise with the distance from where the chains will be joined, so that the nearest comes first. */
static void make_chains(void) {
    const int middle = FIRST + LOWER;
    begin();
    for (int id = FIRST; id + 1 < middle; id++) {
        insert(VIMELOSA_SUBCLASS, id + 1, id);
    }
    make_chain(middle, middle + UPPER);
    insert(VIMELOSA_MEMBER, INDIVIDUAL, middle - 1);
    insert(VIMELOSA_PROPERTY, LOW_PROPERTY, FIRST);
    insert(VIMELOSA_PROPERTY, HIGH_PROPERTY, middle);
    insert(VIMELOSA_EXCLUSIVE, HIGH_PROPERTY, 0);
}

/* Ids rise along the chain. */
static void make_operator_chain(void) {
    begin();
    make_chain(FIRST, FIRST + LONGEST);
    insert(VIMELOSA_PROPERTY, LOW_PROPERTY, FIRST);
    insert(VIMELOSA_EXCLUSIVE, LOW_PROPERTY, 0);
}

static void *nothing(void *unused) {
    return unused;
}

static void *apply(void *unused) {
    result = vimelosa_apply(image, image_length, tickets, VIMELOSA_TICKET, output, sizeof output);
    return unused;
}

static void *apply_list(void *unused) {
    result = vimelosa_apply_list(image, image_length, tickets, sizeof tickets, answers, sizeof answers,
                                 output, sizeof output);
    return unused;
}

static void *apply_operator(void *unused) {
    result = vimelosa_apply_operator(image, image_length, operator_tickets, VIMELOSA_TICKET, output,
                                     sizeof output);
    return unused;
}

static void *apply_operator_list(void *unused) {
    result = vimelosa_apply_operator_list(image, image_length, operator_tickets, sizeof operator_tickets,
                                          answers, sizeof answers, output, sizeof output);
    return unused;
}

static void *ask(void *unused) {
    result = vimelosa_ask(image, image_length, tickets, VIMELOSA_TICKET, added, VIMELOSA_MOST_FACTS, removed,
                          VIMELOSA_MOST_FACTS);
    return unused;
}

static void *commit(void *unused) {
    result = vimelosa_commit(image, image_length, tickets, VIMELOSA_TICKET, added, VIMELOSA_MOST_FACTS,
                             removed, VIMELOSA_MOST_FACTS, output, sizeof output);
    return unused;
}

static void *check(void *unused) {
    result = vimelosa_check(image, image_length);
    return unused;
}

static void *write_triples(void *unused) {
    result = vimelosa_write_triples(image, image_length, text, sizeof text);
    text_length = vimelosa_text_length(result);
    return unused;
}

static void *read_triples(void *unused) {
    result = vimelosa_read_triples(text, text_length, output, sizeof output);
    return unused;
}

static size_t unpainted(void *(*call)(void *)) {
    static void *stack;
    pthread_attr_t attributes;
    pthread_t thread;
    size_t at = 0;
    if (stack == NULL && posix_memalign(&stack, PAGE, STACK) != 0) {
        fail("posix_memalign");
    }
    memset(stack, PAINT, STACK);
    if (pthread_attr_init(&attributes) != 0 || pthread_attr_setstack(&attributes, stack, STACK) != 0) {
        fail("pthread_attr_setstack");
    }
    if (pthread_create(&thread, &attributes, call, NULL) != 0 || pthread_join(thread, NULL) != 0) {
        fail("pthread_create");
    }
    while (at < STACK && ((const uint8_t *)stack)[at] == PAINT) {
        at++;
    }
    return STACK - at;
}

/* The call's first run, on this thread, lets the loader find memcpy and memset. */
static void measure(const char *name, void *(*call)(void *)) {
    size_t alone = unpainted(nothing);
    call(NULL);
    printf("%s %d %lu\n", name, vimelosa_answer(result), (unsigned long)(unpainted(call) - alone));
}

int main(void) {
    make_chains();
    measure("vimelosa_apply", apply);
    measure("vimelosa_apply_list", apply_list);
    make_operator_chain();
    measure("vimelosa_apply_operator", apply_operator);
    measure("vimelosa_apply_operator_list", apply_operator_list);
    make_chains();
    measure("vimelosa_ask", ask);
    measure("vimelosa_commit", commit);
    measure("vimelosa_check", check);
    measure("vimelosa_write_triples", write_triples);
    measure("vimelosa_read_triples", read_triples);
    return 0;
}
