/* The register checker's entries, for C and C++. park.h has them with all tables in one struct.
 *
 * Every table is the caller's: an array of 32-bit words, rows of a fixed width one after the other, given by its address and its length in
 * words. How many of its rows are used is given beside it; rows past those are not looked at. The columns are in docs/TABLES.md.
 *
 * The library keeps nothing between calls: it has no state, takes no memory from the heap, and holds no address after it returns. Calls on
 * different tables may run at the same time. What a call may write (a pointer without `const`) must not overlap anything else in the call.
 * No pointer is NULL, also where its length is 0.
 *
 * Counts, words and bytes may be anything: what is wrong with them is refused. Only addresses, lengths and the stack are trusted; how much
 * stack each entry takes is in docs/EMBEDDING.md. */
#ifndef CHECKER_H
#define CHECKER_H

#include <stddef.h>
#include <stdint.h>

#ifdef __cplusplus
extern "C" {
#endif

/* The version of these entries. Where checker_version() answers another, the archive is not this header's, and nothing else may be called. */
#define CHECKER_VERSION 1
uint32_t checker_version(void);

enum { /* one for all, since C++20 has no products of constants of two */
    /* Words of one row. */
    CHECKER_TYPE_WORDS = 2,
    CHECKER_FLOOR_WORDS = 2, /* type, cell: the cell is at least 0 in objects of the type and of those below it */
    CHECKER_RELATIONSHIP_WORDS = 2,
    CHECKER_RULE_WORDS = 2,
    CHECKER_BODY_WORDS = 4,
    CHECKER_OBJECT_WORDS = 10,
    CHECKER_LINK_WORDS = 3,
    CHECKER_EVENT_WORDS = 4,
    CHECKER_PAIR_WORDS = 2,       /* 32-bit words: rule, id */
    CHECKER_EVENT_TYPE_WORDS = 3, /* 16-bit words: kind, type or relationship, cell or 0 */

    /* The most rows that can be used. A longer table is lent in vain; a shorter one is refused only where it is too short. */
    CHECKER_MOST_TYPES = 32,
    CHECKER_MOST_FLOORS = 256,
    CHECKER_MOST_RELATIONSHIPS = 32,
    CHECKER_MOST_RULES = 32,
    CHECKER_BODY_ROWS = 64, /* to be lent for each used rule: rule n's body starts at row 64 n */
    CHECKER_MOST_OBJECTS = 1024,
    CHECKER_MOST_LINKS = 4096,
    CHECKER_MOST_EVENTS = 256,
    CHECKER_MOST_TEXT = 65536, /* bytes */
    CHECKER_MOST_PAIRS = CHECKER_MOST_RULES * CHECKER_MOST_OBJECTS,
    CHECKER_MOST_EVENT_TYPES = 4 * 32 + 32 * 8 + 2 * 32,

    /* The lengths of the largest tables, of lists that are never too short, and of the longest text. */
    CHECKER_TYPES_LEN = CHECKER_MOST_TYPES * CHECKER_TYPE_WORDS,
    CHECKER_FLOORS_LEN = CHECKER_MOST_FLOORS * CHECKER_FLOOR_WORDS,
    CHECKER_RELATIONSHIPS_LEN = CHECKER_MOST_RELATIONSHIPS * CHECKER_RELATIONSHIP_WORDS,
    CHECKER_RULES_LEN = CHECKER_MOST_RULES * CHECKER_RULE_WORDS,
    CHECKER_BODIES_LEN = CHECKER_MOST_RULES * CHECKER_BODY_ROWS * CHECKER_BODY_WORDS,
    CHECKER_OBJECTS_LEN = CHECKER_MOST_OBJECTS * CHECKER_OBJECT_WORDS, /* of its scratch too */
    CHECKER_LINKS_LEN = CHECKER_MOST_LINKS * CHECKER_LINK_WORDS,       /* of its scratch too */
    CHECKER_EVENTS_LEN = CHECKER_MOST_EVENTS * CHECKER_EVENT_WORDS,
    CHECKER_LIST_LEN = CHECKER_MOST_PAIRS * CHECKER_PAIR_WORDS,
    CHECKER_EVENT_LIST_LEN = CHECKER_MOST_EVENT_TYPES * CHECKER_EVENT_TYPE_WORDS, /* 16-bit words */
    CHECKER_TEXT_LEN = CHECKER_MOST_TEXT                                          /* bytes */
};

#define CHECKER_NO_PARENT UINT32_C(0xffffffff) /* the parent of a type that has none */

/* Kinds of events: the first word of an event's row and of an event type. */
enum checker_kind {
    CHECKER_INSERT = 0,  /* id, type, 0 */
    CHECKER_DELETE = 1,  /* id, 0, 0; the object's links go with it */
    CHECKER_SET = 2,     /* id, cell, value */
    CHECKER_JOIN = 3,    /* relationship, source id, target id */
    CHECKER_PART = 4,    /* relationship, source id, target id */
    CHECKER_SPECIAL = 5, /* id, type, 0 */
    CHECKER_GENERAL = 6  /* id, type, 0 */
};

/* The first word of the answers of checker_full_check and checker_batch. */
enum checker_answer { CHECKER_ACCEPTED = 0, CHECKER_BROKEN = 1, CHECKER_REFUSED = 2 };

/* The first word of the answers of checker_read, checker_run, checker_events and checker_write. */
enum checker_outcome { CHECKER_DONE = 0, CHECKER_NOT_DONE = 1 };

/* A refusal's number, and what its place counts: lines from 1, everything else from 0. */
enum checker_refusal {
    CHECKER_FORM = 1,       /* a text's line is not in its form: line */
    CHECKER_TOO_MANY = 2,   /* more than a limit or the lent rows allow: line; 0 for tables and for a text that is too long */
    CHECKER_SCHEMA = 3,     /* a type, else a floor, else a relationship, is wrong: its number */
    CHECKER_RULE = 4,       /* a rule is wrong, or there is no such rule: its number */
    CHECKER_REGISTER = 5,   /* an object, else a link, is wrong: its row */
    CHECKER_TABLES = 6,     /* a table is not whole rows, or a scratch is shorter than its table: 0 */
    CHECKER_UNKNOWN = 7,    /* an event names what cannot be: event */
    CHECKER_ABSENT = 8,     /* an object is not there: event */
    CHECKER_PRESENT = 9,    /* an inserted object or a joined link is there: event */
    CHECKER_NO_LINK = 10,   /* a parted link is not there: event */
    CHECKER_NO_FIT = 11,    /* a cell, an end or a new type does not fit: event */
    CHECKER_LINKED = 12,    /* a link needs the type that a general leaves: event */
    CHECKER_FULL = 13,      /* no row is left: event */
    CHECKER_TOO_SHORT = 14, /* the list or the written text needs more than is lent: 0 */
    CHECKER_BELOW = 15      /* a set puts a cell below its floor, or a special an object: event; checked after 11 */
};

/* What is wrong, as a sentence without a full stop; those of bin/refusals.txt. Never NULL. */
static inline const char *checker_refusal_text(uint32_t number) {
    switch (number) {
        case CHECKER_FORM: return "a line of the text is not in its form";
        case CHECKER_TOO_MANY: return "there is more than a limit or the lent rows allow";
        case CHECKER_SCHEMA: return "a type, a floor or a relationship is wrong";
        case CHECKER_RULE: return "a rule does not fit the schema, or there is no such rule";
        case CHECKER_REGISTER: return "an object or a link of the register is wrong";
        case CHECKER_TABLES: return "a lent table is not whole rows, or a scratch is shorter than its table";
        case CHECKER_UNKNOWN: return "an event names a kind, type, relationship, cell or id that there cannot be";
        case CHECKER_ABSENT: return "an event names an object that is not there";
        case CHECKER_PRESENT: return "an inserted object or a joined link is there already";
        case CHECKER_NO_LINK: return "a parted link is not there";
        case CHECKER_NO_FIT: return "a cell, an end or a new type does not fit the object's type";
        case CHECKER_LINKED: return "a link needs the type that a general would leave";
        case CHECKER_FULL: return "no row is left for another object or link";
        case CHECKER_TOO_SHORT: return "the list or the text needs more room than is lent";
        case CHECKER_BELOW: return "a cell with a floor would go below 0";
        default: return "no refusal has this number";
    }
}

/* Refusals 2, 6, 3, 4 and 5 of a book and a register. Returns a refusal's number times 2^32 plus its place, or 0. */
uint64_t checker_check(
    uint32_t types_used, uint32_t floors_used, uint32_t relationships_used, uint32_t rules_used, uint32_t objects_used, uint32_t links_used,
    const uint32_t *types, size_t types_len, const uint32_t *floors, size_t floors_len,
    const uint32_t *relationships, size_t relationships_len, const uint32_t *rules, size_t rules_len,
    const uint32_t *bodies, size_t bodies_len,
    const uint32_t *objects, size_t objects_len, const uint32_t *links, size_t links_len);

/* Every rule at every object. The answer is 0 0 0, accepted; 1, rule, id: the first pair that is broken; or 2, number, place. */
void checker_full_check(
    uint32_t types_used, uint32_t floors_used, uint32_t relationships_used, uint32_t rules_used, uint32_t objects_used, uint32_t links_used,
    const uint32_t *types, size_t types_len, const uint32_t *floors, size_t floors_len,
    const uint32_t *relationships, size_t relationships_len, const uint32_t *rules, size_t rules_len,
    const uint32_t *bodies, size_t bodies_len,
    const uint32_t *objects, size_t objects_len, const uint32_t *links, size_t links_len,
    uint32_t answer[3]);

/* A text into tables. The answer is 0 and the used rows of types, floors, relationships, rules, objects, links and events, with every unused
 * row of the tables 0; or 1, number, line, 0 0 0 0 0, with the tables as they were. */
void checker_read(
    const uint8_t *text, size_t text_len,
    uint32_t *types, size_t types_len, uint32_t *floors, size_t floors_len,
    uint32_t *relationships, size_t relationships_len, uint32_t *rules, size_t rules_len,
    uint32_t *bodies, size_t bodies_len,
    uint32_t *objects, size_t objects_len, uint32_t *links, size_t links_len,
    uint32_t *events, size_t events_len,
    uint32_t answer[8]);

/* The events of a batch on a copy of the register; no rule is looked at. The answer is 0 and the used rows of the register after them, which
 * then stands in the two tables lent for the end, unused rows 0; or 1, number, place, and then nothing is known of these two. Each of them is as
 * long as its table or longer, else 6. */
void checker_run(
    uint32_t types_used, uint32_t floors_used, uint32_t relationships_used, uint32_t rules_used, uint32_t objects_used, uint32_t links_used,
    const uint32_t *types, size_t types_len, const uint32_t *floors, size_t floors_len,
    const uint32_t *relationships, size_t relationships_len, const uint32_t *rules, size_t rules_len,
    const uint32_t *bodies, size_t bodies_len,
    const uint32_t *objects, size_t objects_len, const uint32_t *links, size_t links_len,
    uint32_t *end_objects, size_t end_objects_len, uint32_t *end_links, size_t end_links_len,
    uint32_t events_used, const uint32_t *events, size_t events_len,
    uint32_t answer[3]);

/* The batch check. The answer's first three words are 0 0 0, accepted; 1, rule, id: the first listed pair that is broken; or 2, number,
 * place. Then come how many pairs are listed, and how many rows of objects and of links are used from now on.
 *   accepted  objects and links are the register after the batch, unused rows 0; the list has every pair that was looked at
 *   broken    objects and links are as they were; the list is whole all the same
 *   refused   objects, links and list are as they were; no pair is listed
 * Without events it is an inspection: every rule at every object of its type is looked at and listed, whatever held before, so the answer is
 * the full check's; with fewer words than that needs it is refused by 14.
 * Words past the listed pairs keep what they held. Nothing is known of the scratch afterwards; each is as long as its table or longer. */
void checker_batch(
    uint32_t types_used, uint32_t floors_used, uint32_t relationships_used, uint32_t rules_used,
    uint32_t objects_used, uint32_t links_used, uint32_t events_used,
    const uint32_t *types, size_t types_len, const uint32_t *floors, size_t floors_len,
    const uint32_t *relationships, size_t relationships_len, const uint32_t *rules, size_t rules_len,
    const uint32_t *bodies, size_t bodies_len,
    uint32_t *objects, size_t objects_len, uint32_t *links, size_t links_len,
    const uint32_t *events, size_t events_len,
    uint32_t *scratch_objects, size_t scratch_objects_len, uint32_t *scratch_links, size_t scratch_links_len,
    uint32_t *list, size_t list_len,
    uint32_t answer[6]);

/* The event types that can break a rule. The answer is 0, how many there are in the list, 0; or 1, number, place, with the list as it was. */
void checker_events(
    uint32_t types_used, uint32_t floors_used, uint32_t relationships_used, uint32_t rules_used,
    const uint32_t *types, size_t types_len, const uint32_t *floors, size_t floors_len,
    const uint32_t *relationships, size_t relationships_len, const uint32_t *rules, size_t rules_len,
    const uint32_t *bodies, size_t bodies_len,
    uint32_t rule, uint16_t *list, size_t list_len,
    uint32_t answer[3]);

/* Tables as their text. The answer is 0, how many bytes were written, 0; or 1, number, place, with the bytes as they were. */
void checker_write(
    uint32_t types_used, uint32_t floors_used, uint32_t relationships_used, uint32_t rules_used,
    uint32_t objects_used, uint32_t links_used, uint32_t events_used,
    const uint32_t *types, size_t types_len, const uint32_t *floors, size_t floors_len,
    const uint32_t *relationships, size_t relationships_len, const uint32_t *rules, size_t rules_len,
    const uint32_t *bodies, size_t bodies_len,
    const uint32_t *objects, size_t objects_len, const uint32_t *links, size_t links_len,
    const uint32_t *events, size_t events_len,
    uint8_t *out, size_t out_len,
    uint32_t answer[3]);

#ifdef __cplusplus
}
#endif

#endif
