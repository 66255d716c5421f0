/* Vimelosa: one RDF/S graph of at most 2,048 facts, held in an image, changed by tickets.
 *
 * An image is a graph in bytes. The calls that change the graph are given an image and write a new one to an
 * output. A ticket is five bytes that ask to insert or to delete: operation, kind, and the ids a, b, c,
 * unused ones 0. Ids are chosen by the caller, but 0 is Resource, the class of everything, and 1 is the mark
 * Literal, which is a range and names nothing else. A text is a graph in lines of N-Triples. A run is facts
 * that a ticket would add or remove, each a word.
 *
 * Image. Byte 0 is 1 and byte 1 is 11. Then each kind from 1 to 11 has an entry of six bytes: the kind; the
 * bytes per fact; the place in the image where its facts start, and how many there are, both 16 bits with the
 * low byte first. The facts follow from byte 68 on, by kind, ascending, each as its ids. An image of ten
 * entries, with 10 as byte 1 and its facts from byte 62 on, is read as well: it has no facts of kind 11. The
 * images that calls write have eleven entries.
 *
 * Text. A text is lines of N-Triples, in a profile: three terms with a blank after each, then a full stop and
 * a newline (byte 10), and nothing else anywhere. With a, b, c for the ids of a fact, the terms are
 *   kind 1      a  rdf:type            rdfs:Class
 *   kind 2      a  rdf:type            rdf:Property
 *   kind 5      a  rdfs:subClassOf     b
 *   kind 6      a  rdfs:subPropertyOf  b
 *   kind 7      a  rdfs:domain         b
 *   kind 8      a  rdfs:range          b
 *   kind 9      a  rdf:type            b
 *   kind 10     a  c                   b
 *   kind 11     a  rdf:type            <urn:mark:excl>
 * where id n, from 2 to 255, is <urn:id:n>, id 0 is rdfs:Resource, and 1 as a range is rdfs:Literal. If b of
 * kind 10 is a literal n, it is "n". Numbers are decimal, without leading zeros. rdf: and rdfs: are short for
 * http://www.w3.org/1999/02/22-rdf-syntax-ns# and http://www.w3.org/2000/01/rdf-schema# here; in the text
 * each IRI is written out, between < and >. Kinds 3 and 4 have no lines: an individual is told by its line of
 * kind 9 with id 0, a literal by its lines of kind 10, so that a literal in none of these is not in the text.
 * Lines are written in the order of the image's facts. They are read in any order, and repeated ones count
 * once.
 *
 * Run. A fact's word has 32 bits: the kind and the ids a, b, c, eight bits each, the kind highest. Words
 * ascend as the image's facts do.
 *
 * C. C99 or later, or C++11 or later. The archive libvimelosa.a needs memcpy and memset, and nothing else.
 *
 * Buffers. A buffer is passed as a pointer and then its length, in bytes; that of the runs `added` and
 * `removed` is in words. All buffers belong to the caller, before and after a call: the library keeps none of
 * them, and takes no memory but the stack. A call writes to `answers` and `output` only, and vimelosa_ask to
 * `added` and `removed`; what a call writes to must not overlap any other buffer of the call. Buffers that
 * are only read may overlap. The runs need the alignment of uint32_t, the others none. Where a length is 0
 * the pointer may be null.
 *
 * Threads. There is no global state. Calls on different buffers may run at once, and calls that only read the
 * same buffer may too. A stack of 64 KB is enough for the deepest calls known.
 *
 * Results. A call returns its answer in the lowest 16 bits: 0, or the number of a refusal. A call refuses
 * with the first refusal, in its own order, whose condition holds, and only then. A refused call leaves every
 * byte of its buffers as it was, and the other parts of its result are 0, but for the rule's place that
 * vimelosa_check and vimelosa_read_triples tell with 3.
 *
 * Two calls for one ticket. To show what goes with a class before it goes, and to delete it only if that is
 * what goes:
 *   uint32_t removed[VIMELOSA_MOST_FACTS];
 *   uint64_t asked = vimelosa_ask(image, image_length, ticket, sizeof ticket,
 *                                 NULL, 0, removed, VIMELOSA_MOST_FACTS);
 *   ... show the first vimelosa_removed(asked) words of removed, and let somebody agree ...
 *   uint64_t done = vimelosa_commit(image, image_length, ticket, sizeof ticket,
 *                                   NULL, 0, removed, vimelosa_removed(asked), output, sizeof output);
 * If another image was put in the place of the first in between, and the ticket would do something else to
 * it, the second call answers 18.
 */
#ifndef VIMELOSA_H
#define VIMELOSA_H

#include <stddef.h>
#include <stdint.h>

#ifdef __cplusplus
extern "C" {
#endif

/* No image that a call accepts or writes has more bytes: an output of so many is never too short. */
#define VIMELOSA_LONGEST_IMAGE 6212

/* A graph has at most so many facts: a run of so many words is never too short. */
#define VIMELOSA_MOST_FACTS 2048

/* No line of a text that a call reads or writes has more bytes, its newline counted. */
#define VIMELOSA_LONGEST_LINE 154

/* No text that a call writes has more bytes, since a fact has at most one line: an output of so many, or of
 * VIMELOSA_LONGEST_LINE for each fact, is never too short. A text that is read may be longer by repeats. */
#define VIMELOSA_LONGEST_TEXT 315392

/* A ticket has so many bytes. */
#define VIMELOSA_TICKET 5

/* The image to start from, of a graph that has the class Resource alone:
 * const uint8_t fresh[] = VIMELOSA_FRESH_IMAGE; */
#define VIMELOSA_FRESH_IMAGE { 1, 11, \
    1, 1, 68, 0, 1, 0,  2, 1, 69, 0, 0, 0,  3, 1, 69, 0, 0, 0,  4, 1, 69, 0, 0, 0,  5, 2, 69, 0, 0, 0, \
    6, 2, 69, 0, 0, 0,  7, 2, 69, 0, 0, 0,  8, 2, 69, 0, 0, 0,  9, 2, 69, 0, 0, 0,  10, 3, 69, 0, 0, 0, \
    11, 1, 69, 0, 0, 0,  0 }

/* The operations of tickets. */
enum vimelosa_operation {
    VIMELOSA_INSERT = 1,
    VIMELOSA_DELETE = 2
};

/* The kinds of facts. Tickets have all but 7 and 8, which come and go with their property; operators' tickets
 * have 3, 4, 9 and 10 alone. */
enum vimelosa_kind {
    /* a is a class. */
    VIMELOSA_CLASS = 1,
    /* a is a property. The ticket that inserts it has its domain as b and its range as c, a class or 1. */
    VIMELOSA_PROPERTY = 2,
    /* a is an individual. */
    VIMELOSA_INDIVIDUAL = 3,
    /* a is a literal. */
    VIMELOSA_LITERAL = 4,
    /* Class a is a subclass of class b. */
    VIMELOSA_SUBCLASS = 5,
    /* Property a is a subproperty of property b. */
    VIMELOSA_SUBPROPERTY = 6,
    /* Class b is the domain of property a. */
    VIMELOSA_DOMAIN = 7,
    /* b is the range of property a, a class or 1. */
    VIMELOSA_RANGE = 8,
    /* Individual a is a member of class b. The ticket that inserts it does not make the class; those that
     * insert a class, a subclass or a property make theirs. */
    VIMELOSA_MEMBER = 9,
    /* Individual a has the value b, an individual or a literal, for property c. */
    VIMELOSA_VALUE = 10,
    /* Property a is exclusive: no two individuals have the same value for it. Inserting it for a property of
     * which a value has two individuals clashes, and so does, later, whatever would give a value a second. */
    VIMELOSA_EXCLUSIVE = 11
};

/* The refusals. 1 and 2 are of calls on tables of words, which this interface does not have; they are here so
 * that every number has its name. */
enum vimelosa_refusal {
    /* A table of no words or above 2,048. */
    VIMELOSA_BAD_SIZE = 1,
    /* A table whose facts are not ascending, stand twice or are not followed by zeros alone. */
    VIMELOSA_BAD_LAYOUT = 2,
    /* The image's or the text's graph breaks a rule. */
    VIMELOSA_INCONSISTENT = 3,
    /* The ticket's length is not 5. */
    VIMELOSA_BAD_LENGTH = 4,
    /* The ticket's operation is neither 1 nor 2. */
    VIMELOSA_BAD_OPERATION = 5,
    /* The ticket's kind is not 1 to 11, or it is 7 or 8, which are no tickets. */
    VIMELOSA_BAD_KIND = 6,
    /* An unused byte of the ticket is not 0, or id 1 stands elsewhere than as the range of a new property. */
    VIMELOSA_BAD_IDS = 7,
    /* The ticket deletes Resource, or a link or a membership that leads to it. */
    VIMELOSA_GUARDED = 8,
    /* The ticket inserts a link of properties or a value with a property that the graph does not have, or
     * makes such a property exclusive. */
    VIMELOSA_UNKNOWN_PROPERTY = 9,
    /* No consistent graph holds the graph and what the ticket inserts; with an exclusive property, where a
     * value would have two individuals for it. */
    VIMELOSA_CLASHING = 10,
    /* The new graph, or in reading the image's or the text's, has more than 2,048 facts. */
    VIMELOSA_TOO_MANY = 11,
    /* The image is malformed. */
    VIMELOSA_MALFORMED = 12,
    /* The output is shorter than the new image or the text, or a run than the words to go to it. */
    VIMELOSA_SHORT_OUTPUT = 13,
    /* There are fewer answer bytes than tickets, or more than 65,535 tickets. */
    VIMELOSA_FEW_ANSWERS = 14,
    /* A line of the text is outside the profile: no fact has such a line, or it is of kind 10 and has b as
     * <urn:id:n> where another line has "n". */
    VIMELOSA_OUTSIDE_PROFILE = 15,
    /* The ticket inserts a membership in a class that the graph does not have. Among a ticket's refusals it
     * stands between 9 and 10. */
    VIMELOSA_UNKNOWN_CLASS = 16,
    /* The kind of an operator's ticket is not for operators. Among the refusals of such a ticket it stands
     * between 7 and 8; no call for other tickets gives it. */
    VIMELOSA_NOT_FOR_OPERATORS = 17,
    /* The runs are out of date: they are not exactly what the ticket would add to the graph and remove from
     * it now. */
    VIMELOSA_OUT_OF_DATE = 18
};

/* Applies one ticket to the image's graph and writes the new image to the output.
 *
 * Refusals, in this order: 12, 11, 3 of the image; 4, 5, 6, 7, 8, 9, 16, 10, 11 of the ticket; 13 of the
 * output.
 *
 * The result has four parts: vimelosa_answer, vimelosa_added and vimelosa_removed, which count facts, and
 * vimelosa_length, the new image's length. Bytes of the output after the new image are left as they were. */
uint64_t vimelosa_apply(const uint8_t *image, size_t image_length,
                        const uint8_t *ticket, size_t ticket_length,
                        uint8_t *output, size_t output_length);

/* Runs a list of tickets on the image's graph, each on what the one before left, and writes the image of what
 * the last leaves to the output. Every five bytes of `tickets` are a ticket; bytes left over at the end are
 * one more, which is refused with 4. Each ticket's number goes to its byte of `answers`: 0, or 4 to 11, or
 * 16. A refused ticket changes nothing, and the tickets after it are run all the same: the call is not
 * refused.
 *
 * Refusals of the call, in this order: 12, 11, 3 of the image; 14 of the answers; 13 of the output. With 13
 * too, every answer byte is left as it was.
 *
 * The result has four parts: vimelosa_answer, vimelosa_accepted and vimelosa_refused, which count tickets,
 * and vimelosa_length, the new image's length. Answer bytes after those of the tickets, and bytes of the
 * output after the new image, are left as they were. */
uint64_t vimelosa_apply_list(const uint8_t *image, size_t image_length,
                             const uint8_t *tickets, size_t tickets_length,
                             uint8_t *answers, size_t answers_length,
                             uint8_t *output, size_t output_length);

/* Applies one ticket of a shift operator, as vimelosa_apply does, if its kind is VIMELOSA_INDIVIDUAL,
 * VIMELOSA_LITERAL, VIMELOSA_MEMBER or VIMELOSA_VALUE; with another kind it is refused with 17. Accepted or
 * not, the ticket leaves every fact of the other kinds, and adds none.
 *
 * Refusals, in this order: 12, 11, 3 of the image; 4, 5, 6, 7, 17, 8, 9, 16, 10, 11 of the ticket; 13 of the
 * output.
 *
 * The result has the parts of vimelosa_apply's, and the output is left as vimelosa_apply leaves it. */
uint64_t vimelosa_apply_operator(const uint8_t *image, size_t image_length,
                                 const uint8_t *ticket, size_t ticket_length,
                                 uint8_t *output, size_t output_length);

/* Runs a list of operators' tickets, as vimelosa_apply_list does; each ticket's byte of `answers` is the
 * number that vimelosa_apply_operator would give it: 0, or 4 to 11, or 16, or 17. Accepted or not, the
 * tickets leave every fact of the kinds that are not for operators, and add none.
 *
 * Refusals of the call, in this order: 12, 11, 3 of the image; 14 of the answers; 13 of the output.
 *
 * The result has the parts of vimelosa_apply_list's, and answers and output are left as vimelosa_apply_list
 * leaves them. */
uint64_t vimelosa_apply_operator_list(const uint8_t *image, size_t image_length,
                                      const uint8_t *tickets, size_t tickets_length,
                                      uint8_t *answers, size_t answers_length,
                                      uint8_t *output, size_t output_length);

/* Asks what a ticket would do to the image's graph and changes nothing: the words of the facts that would be
 * added are written to the front of `added`, those of the facts that would be removed to the front of
 * `removed`, ascending. An insertion removes nothing and a deletion adds nothing, so that a run of no words
 * is enough there.
 *
 * Refusals, in this order: 12, 11, 3 of the image; 4, 5, 6, 7, 8, 9, 16, 10, 11 of the ticket; 13 of a run,
 * whichever is too short.
 *
 * The result has three parts: vimelosa_answer, vimelosa_added and vimelosa_removed, which count the words
 * written, as many as vimelosa_apply counts facts. Words of the runs after them are left as they were. */
uint64_t vimelosa_ask(const uint8_t *image, size_t image_length,
                      const uint8_t *ticket, size_t ticket_length,
                      uint32_t *added, size_t added_length,
                      uint32_t *removed, size_t removed_length);

/* Applies a ticket that was asked about, as vimelosa_apply does, if `added` and `removed` are exactly what
 * vimelosa_ask would write for it now: the same words in the same order, none missing and none after them.
 * Else it is refused with 18. For a ticket that changes nothing both runs have no words.
 *
 * Refusals, in this order: 12, 11, 3 of the image; 4, 5, 6, 7, 8, 9, 16, 10, 11 of the ticket; 18 of the
 * runs; 13 of the output.
 *
 * The result has the parts of vimelosa_apply's, and the output is left as vimelosa_apply leaves it. */
uint64_t vimelosa_commit(const uint8_t *image, size_t image_length,
                         const uint8_t *ticket, size_t ticket_length,
                         const uint32_t *added, size_t added_length,
                         const uint32_t *removed, size_t removed_length,
                         uint8_t *output, size_t output_length);

/* Reads the image and writes nothing: 0 if it is well formed and its graph is consistent.
 *
 * Refusals, in this order: 12, 11, 3.
 *
 * The result has two parts: vimelosa_answer and vimelosa_rule_place, which is 0 unless the answer is 3. */
uint64_t vimelosa_check(const uint8_t *image, size_t image_length);

/* Writes the text of the image's graph to the output.
 *
 * Refusals, in this order: 12, 11, 3 of the image; 13 of the output.
 *
 * The result has two parts: vimelosa_answer and vimelosa_text_length, the text's length. With 3 it does not
 * tell the rule, as vimelosa_check does. Bytes of the output after the text are left as they were. */
uint64_t vimelosa_write_triples(const uint8_t *image, size_t image_length,
                                uint8_t *output, size_t output_length);

/* Reads a text and writes the image of its graph to the output. What follows from a line by a rule is not
 * added, but for individuals and literals: the text has to tell the whole graph.
 *
 * Refusals, in this order: 15, 11, 3 of the text; 13 of the output. 15 is given for any line of the text,
 * however many facts stand before it.
 *
 * The result has three parts: vimelosa_answer, vimelosa_rule_place, which is 0 unless the answer is 3, and
 * vimelosa_length, the image's length. Bytes of the output after the image are left as they were. */
uint64_t vimelosa_read_triples(const uint8_t *text, size_t text_length,
                               uint8_t *output, size_t output_length);

/* The answer of any call: 0, or the number of a refusal. */
static inline uint16_t vimelosa_answer(uint64_t result) {
    return (uint16_t)(result & 0xffff);
}

/* Of vimelosa_apply, vimelosa_apply_operator, vimelosa_ask and vimelosa_commit: how many facts the new graph
 * has, or would have, that the old has not. */
static inline uint16_t vimelosa_added(uint64_t result) {
    return (uint16_t)(result >> 16 & 0xffff);
}

/* Of the same calls: how many facts the old graph has that the new has not, or would not have. */
static inline uint16_t vimelosa_removed(uint64_t result) {
    return (uint16_t)(result >> 32 & 0xffff);
}

/* Of vimelosa_apply_list and vimelosa_apply_operator_list: how many tickets were accepted. */
static inline uint16_t vimelosa_accepted(uint64_t result) {
    return (uint16_t)(result >> 16 & 0xffff);
}

/* Of vimelosa_apply_list and vimelosa_apply_operator_list: how many tickets were refused. */
static inline uint16_t vimelosa_refused(uint64_t result) {
    return (uint16_t)(result >> 32 & 0xffff);
}

/* Of the calls that run tickets and of vimelosa_read_triples: how many bytes the new image has. Of
 * vimelosa_ask it is 0. */
static inline size_t vimelosa_length(uint64_t result) {
    return (size_t)(result >> 48);
}

/* Of vimelosa_write_triples: how many bytes the text has. */
static inline size_t vimelosa_text_length(uint64_t result) {
    return (size_t)(result >> 16);
}

/* Of vimelosa_check and vimelosa_read_triples, where the answer is 3: the place, counted from 1, of the first
 * rule that the graph breaks. Rules 4 to 27 have places 1 to 24, H1 to H4 places 25 to 28, and the two of
 * kind 11 come last: E1, that a is a property, has place 29, E2, that no value has two individuals, place 30.
 * For other answers it is 0. */
static inline uint16_t vimelosa_rule_place(uint64_t result) {
    return (uint16_t)(result >> 16 & 0xffff);
}

#ifdef __cplusplus
}
#endif

#endif
