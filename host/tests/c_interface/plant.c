/* Uses the header as a caller in C would: a fresh image, one ticket, a list, a property made exclusive,
 * operators' tickets, the check, texts written and read, refusals, an old image, and null where a buffer is
 * empty. Each line that it prints is a call and what it gave. */

#include "vimelosa.h"

#include <stdio.h>
#include <string.h>

static const uint8_t fresh[] = VIMELOSA_FRESH_IMAGE;

static const uint8_t tickets[] = {
    VIMELOSA_INSERT, VIMELOSA_CLASS, 2, 0, 0,
    VIMELOSA_INSERT, VIMELOSA_SUBCLASS, 3, 2, 0,
    VIMELOSA_INSERT, VIMELOSA_MEMBER, 4, 3, 0,
    VIMELOSA_DELETE, VIMELOSA_MEMBER, 4, 2, 0, /* and so from class 3 */
    VIMELOSA_INSERT, VIMELOSA_SUBCLASS, 2, 3, 0, /* which clashes */
    VIMELOSA_INSERT, VIMELOSA_CLASS, /* no whole ticket */
};

enum { TICKETS = 6 };

/* Property 5 is exclusive: of individuals 20 and 21 only one has the value 30 for it. */
static const uint8_t exclusive_tickets[] = {
    VIMELOSA_INSERT, VIMELOSA_EXCLUSIVE, 5, 0, 0, /* which is not there yet */
    VIMELOSA_INSERT, VIMELOSA_PROPERTY, 5, 0, 0,
    VIMELOSA_INSERT, VIMELOSA_EXCLUSIVE, 5, 0, 0,
    VIMELOSA_INSERT, VIMELOSA_VALUE, 20, 30, 5,
    VIMELOSA_INSERT, VIMELOSA_VALUE, 21, 30, 5, /* which clashes */
};

/* Of an operator: a device, a class, a member of it, and one that is guarded. */
static const uint8_t operator_tickets[] = {
    VIMELOSA_INSERT, VIMELOSA_INDIVIDUAL, 4, 0, 0,
    VIMELOSA_INSERT, VIMELOSA_CLASS, 2, 0, 0, /* which is not for operators */
    VIMELOSA_INSERT, VIMELOSA_MEMBER, 4, 2, 0, /* whose class is not there */
    VIMELOSA_DELETE, VIMELOSA_MEMBER, 4, 0, 0,
};

enum { OPERATOR_TICKETS = 4 };

/* The facts of an image that calls write start here. */
enum { BODIES = 68 };

/* A fresh image of ten entries. */
static const uint8_t old[] = {1, 10,
    1, 1, 62, 0, 1, 0,  2, 1, 63, 0, 0, 0,  3, 1, 63, 0, 0, 0,  4, 1, 63, 0, 0, 0,  5, 2, 63, 0, 0, 0,
    6, 2, 63, 0, 0, 0,  7, 2, 63, 0, 0, 0,  8, 2, 63, 0, 0, 0,  9, 2, 63, 0, 0, 0,  10, 3, 63, 0, 0, 0,
    0};

/* A byte that no call writes here. */
enum { LENT = 0xee };

#define RDF "<http://www.w3.org/1999/02/22-rdf-syntax-ns#"
#define RDFS "<http://www.w3.org/2000/01/rdf-schema#"

/* Class 2 in two lines, and Resource in a third. */
static const char triples[] =
    "<urn:id:2> " RDF "type> " RDFS "Class> .\n"
    "<urn:id:2> " RDFS "subClassOf> " RDFS "Resource> .\n"
    RDFS "Resource> " RDF "type> " RDFS "Class> .\n";

enum { RESOURCE_LINE = 145 };

static uint8_t answers[TICKETS + 1];
static uint8_t output[VIMELOSA_LONGEST_IMAGE];
static uint8_t text[VIMELOSA_LONGEST_TEXT];

static void lend(void) {
    memset(answers, LENT, sizeof answers);
    memset(output, LENT, sizeof output);
    memset(text, LENT, sizeof text);
}

static int is_as_lent(const uint8_t *bytes, size_t length) {
    for (size_t place = 0; place < length; place++) {
        if (bytes[place] != LENT) {
            return 0;
        }
    }
    return 1;
}

static void print_apply(const char *what, uint64_t result) {
    size_t length = vimelosa_length(result);
    printf("%s: answer %u, added %u, removed %u, length %u, rest as lent %d\n", what,
           (unsigned)vimelosa_answer(result), (unsigned)vimelosa_added(result),
           (unsigned)vimelosa_removed(result), (unsigned)length,
           is_as_lent(output + length, sizeof output - length));
}

static void print_list(const char *what, uint64_t result) {
    size_t length = vimelosa_length(result);
    size_t told = (size_t)vimelosa_accepted(result) + vimelosa_refused(result);
    printf("%s: answer %u, accepted %u, refused %u, length %u, rest as lent %d\n", what,
           (unsigned)vimelosa_answer(result), (unsigned)vimelosa_accepted(result),
           (unsigned)vimelosa_refused(result), (unsigned)length,
           is_as_lent(answers + told, sizeof answers - told) &&
               is_as_lent(output + length, sizeof output - length));
}

static void print_check(const char *what, uint64_t result) {
    printf("%s: answer %u, rule place %u, above %u\n", what, (unsigned)vimelosa_answer(result),
           (unsigned)vimelosa_rule_place(result), (unsigned)(result >> 32));
}

static void print_written(const char *what, uint64_t result) {
    size_t length = vimelosa_text_length(result);
    printf("%s: answer %u, length %lu, rest as lent %d\n", what, (unsigned)vimelosa_answer(result),
           (unsigned long)length, is_as_lent(text + length, sizeof text - length));
}

static void print_read(const char *what, uint64_t result) {
    size_t length = vimelosa_length(result);
    printf("%s: answer %u, rule place %u, length %u, rest as lent %d\n", what,
           (unsigned)vimelosa_answer(result), (unsigned)vimelosa_rule_place(result), (unsigned)length,
           is_as_lent(output + length, sizeof output - length));
}

static void print_bytes(const char *what, const uint8_t *bytes, size_t length) {
    printf("%s:", what);
    for (size_t place = 0; place < length; place++) {
        printf(" %d", bytes[place]);
    }
    printf("\n");
}

static void single_calls(void) {
    lend();
    uint64_t result = vimelosa_apply(fresh, sizeof fresh, tickets, VIMELOSA_TICKET, output, sizeof output);
    print_apply("insert class 2", result);
    lend();
    const uint8_t guarded[VIMELOSA_TICKET] = {VIMELOSA_DELETE, VIMELOSA_CLASS, 0, 0, 0};
    result = vimelosa_apply(fresh, sizeof fresh, guarded, sizeof guarded, output, sizeof output);
    printf("delete Resource is guarded: %d\n", vimelosa_answer(result) == VIMELOSA_GUARDED);
    print_apply("delete Resource", result);
    const uint8_t misspelt[VIMELOSA_TICKET] = {VIMELOSA_INSERT, VIMELOSA_MEMBER, 4, 3, 0};
    result = vimelosa_apply(fresh, sizeof fresh, misspelt, sizeof misspelt, output, sizeof output);
    printf("class 3 is unknown: %d\n", vimelosa_answer(result) == VIMELOSA_UNKNOWN_CLASS);
    print_apply("insert member 4 of class 3", result);
    result = vimelosa_apply(fresh, sizeof fresh, tickets, VIMELOSA_TICKET, output, sizeof fresh);
    printf("the output is short: %d\n", vimelosa_answer(result) == VIMELOSA_SHORT_OUTPUT);
    print_apply("short output", result);
}

/* Leaves the plant's image in the output. */
static void list_calls(void) {
    lend();
    uint64_t result = vimelosa_apply_list(fresh, sizeof fresh, tickets, sizeof tickets, answers, TICKETS - 1,
                                          output, sizeof output);
    printf("the answers are few: %d\n", vimelosa_answer(result) == VIMELOSA_FEW_ANSWERS);
    print_list("few answers", result);
    result = vimelosa_apply_list(fresh, sizeof fresh, tickets, sizeof tickets, answers, sizeof answers,
                                 output, 79);
    print_list("short output", result);
    result = vimelosa_apply_list(fresh, sizeof fresh, tickets, sizeof tickets, answers, sizeof answers,
                                 output, sizeof output);
    print_list("list", result);
    print_bytes("answers", answers, TICKETS);
    print_bytes("bodies", output + BODIES, vimelosa_length(result) - BODIES);
}

/* Of the image of 80 bytes in the output. */
static void check_calls(void) {
    uint8_t plant[80];
    memcpy(plant, output, sizeof plant);
    print_check("check", vimelosa_check(plant, sizeof plant));
    print_check("check of a cut image", vimelosa_check(plant, sizeof plant - 1));
    /* Individual 4 is in class 2 then, and not in Resource: rule 14, at place 11. */
    plant[sizeof plant - 1] = 2;
    print_check("check of a bad image", vimelosa_check(plant, sizeof plant));
    uint64_t result = vimelosa_apply(plant, sizeof plant, tickets, VIMELOSA_TICKET, output, sizeof output);
    printf("the bad image is inconsistent: %d\n", vimelosa_answer(result) == VIMELOSA_INCONSISTENT);
}

static void exclusive_calls(void) {
    lend();
    uint64_t result = vimelosa_apply_list(fresh, sizeof fresh, exclusive_tickets, sizeof exclusive_tickets,
                                          answers, sizeof answers, output, sizeof output);
    print_list("exclusive", result);
    print_bytes("answers", answers, 5);
    size_t length = vimelosa_length(result);
    uint8_t plant[VIMELOSA_LONGEST_IMAGE];
    memcpy(plant, output, length);
    print_check("check", vimelosa_check(plant, length));
    /* The last byte is the exclusive property; individual 20 is none. */
    plant[length - 1] = 20;
    print_check("check of an exclusive individual", vimelosa_check(plant, length));
}

static void operator_calls(void) {
    const uint8_t *class_ticket = operator_tickets + VIMELOSA_TICKET;
    lend();
    uint64_t result = vimelosa_apply_operator(fresh, sizeof fresh, operator_tickets, VIMELOSA_TICKET,
                                              output, sizeof output);
    print_apply("operator inserts individual 4", result);
    lend();
    result = vimelosa_apply_operator(fresh, sizeof fresh, class_ticket, VIMELOSA_TICKET, output,
                                     sizeof output);
    printf("a class is not for operators: %d\n", vimelosa_answer(result) == VIMELOSA_NOT_FOR_OPERATORS);
    print_apply("operator inserts class 2", result);
    print_apply("operator's class, no output",
                vimelosa_apply_operator(fresh, sizeof fresh, class_ticket, VIMELOSA_TICKET, NULL, 0));
    print_apply("operator's short output",
                vimelosa_apply_operator(fresh, sizeof fresh, operator_tickets, VIMELOSA_TICKET, output, 71));
    print_apply("operator, no image", vimelosa_apply_operator(NULL, 0, NULL, 0, NULL, 0));
}

static void operator_list_calls(void) {
    lend();
    uint64_t result = vimelosa_apply_operator_list(fresh, sizeof fresh, operator_tickets,
                                                   sizeof operator_tickets, answers, OPERATOR_TICKETS - 1,
                                                   output, sizeof output);
    print_list("operators' list, few answers", result);
    result = vimelosa_apply_operator_list(fresh, sizeof fresh, operator_tickets, sizeof operator_tickets,
                                          answers, sizeof answers, output, 71);
    print_list("operators' list, short output", result);
    result = vimelosa_apply_operator_list(fresh, sizeof fresh, operator_tickets, sizeof operator_tickets,
                                          answers, sizeof answers, output, sizeof output);
    print_list("operators' list", result);
    print_bytes("answers", answers, OPERATOR_TICKETS);
    print_bytes("bodies", output + BODIES, vimelosa_length(result) - BODIES);
    lend();
    print_list("operators' list, all empty",
               vimelosa_apply_operator_list(NULL, 0, NULL, 0, NULL, 0, NULL, 0));
}

static void old_images(void) {
    lend();
    print_check("check of an old image", vimelosa_check(old, sizeof old));
    uint64_t result = vimelosa_apply_list(old, sizeof old, NULL, 0, NULL, 0, output, sizeof output);
    print_list("no tickets on an old image", result);
    printf("the image is the new one: %d\n", memcmp(output, fresh, sizeof fresh) == 0);
}

static void empty_buffers(void) {
    lend();
    print_check("check of no image", vimelosa_check(NULL, 0));
    print_apply("no image", vimelosa_apply(NULL, 0, NULL, 0, NULL, 0));
    print_apply("no ticket", vimelosa_apply(fresh, sizeof fresh, NULL, 0, NULL, 0));
    print_apply("no output", vimelosa_apply(fresh, sizeof fresh, tickets, VIMELOSA_TICKET, NULL, 0));
    print_list("all empty", vimelosa_apply_list(NULL, 0, NULL, 0, NULL, 0, NULL, 0));
    print_list("no answers", vimelosa_apply_list(fresh, sizeof fresh, tickets, 5, NULL, 0, NULL, 0));
    print_list("no tickets, no output", vimelosa_apply_list(fresh, sizeof fresh, NULL, 0, NULL, 0, NULL, 0));
    uint64_t result = vimelosa_apply_list(fresh, sizeof fresh, NULL, 0, NULL, 0, output, sizeof output);
    print_list("no tickets", result);
    printf("the image is the old one: %d\n", memcmp(output, fresh, sizeof fresh) == 0);
}

static void texts_written(void) {
    lend();
    uint64_t result = vimelosa_write_triples(fresh, sizeof fresh, text, sizeof text);
    print_written("write triples", result);
    const char *line = triples + sizeof triples - 1 - RESOURCE_LINE;
    printf("the text is one line: %d\n", memcmp(text, line, RESOURCE_LINE) == 0);
    lend();
    result = vimelosa_write_triples(fresh, sizeof fresh, text, RESOURCE_LINE - 1);
    print_written("write triples to a short output", result);
    /* The last byte is the class Resource; class 2 has no link to it. */
    uint8_t bad[sizeof fresh];
    memcpy(bad, fresh, sizeof bad);
    bad[sizeof bad - 1] = 2;
    print_written("write triples of a bad image", vimelosa_write_triples(bad, sizeof bad, text, sizeof text));
    print_written("write triples of no image", vimelosa_write_triples(NULL, 0, NULL, 0));
}

static void texts_read(void) {
    const uint8_t *lines = (const uint8_t *)triples;
    size_t length = sizeof triples - 1;
    lend();
    uint64_t result = vimelosa_read_triples(lines, length, output, sizeof output);
    print_read("read triples", result);
    print_bytes("bodies", output + BODIES, vimelosa_length(result) - BODIES);
    lend();
    print_read("read triples to a short output", vimelosa_read_triples(lines, length, output, 71));
    result = vimelosa_read_triples(lines, length - 1, output, sizeof output);
    print_read("read triples without a last newline", result);
    printf("the text is outside the profile: %d\n", vimelosa_answer(result) == VIMELOSA_OUTSIDE_PROFILE);
    result = vimelosa_read_triples(lines, length - RESOURCE_LINE, output, sizeof output);
    print_read("read triples without Resource", result);
    print_read("read no triples", vimelosa_read_triples(NULL, 0, NULL, 0));
}

int main(void) {
    single_calls();
    list_calls();
    check_calls();
    exclusive_calls();
    operator_calls();
    operator_list_calls();
    old_images();
    empty_buffers();
    texts_written();
    texts_read();
    return 0;
}
