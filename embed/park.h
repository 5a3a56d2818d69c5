/* A park in one struct, for C and C++: the tables of checker.h at their largest, and the calls on them.
 *
 *     static struct park park;
 *     struct park_answer answer = park_read(&park, text, bytes);
 *     if (answer.kind == PARK_DONE) answer = park_check(&park);
 *
 * A park is 482 KB: keep it in static memory or take it from the heap, not from a small stack. A call needs stack of its own
 * (docs/EMBEDDING.md). All zeros are a park without types, objects and events. Every function may be given any counts and words in the
 * park: what is wrong with them is refused. A register that is too long for a text may so be written into its tables (docs/TABLES.md).
 *
 * The events that wait for park_check are the park's batch.
 *   park_read         the batch is the text's events
 *   park_event_..     one event more. The first one after an answer of park_check begins a new batch, so nobody has to clear the old one
 *   park_new_batch    the batch has no events, and its check is an inspection
 *   park_check        accepted: the batch is in the register, and no longer waits, so it cannot be applied twice; the next check without
 *                     another event is an inspection. Broken or refused: the register is as it was and the batch waits as it is, so its
 *                     rows can be looked at, and the next check without another event answers the same */
#ifndef PARK_H
#define PARK_H

#include "checker.h"

#ifdef __cplusplus
extern "C" {
#endif

struct park {
    uint32_t types_used, floors_used, relationships_used, rules_used, objects_used, links_used, events_used;
    uint32_t types[CHECKER_TYPES_LEN], floors[CHECKER_FLOORS_LEN], relationships[CHECKER_RELATIONSHIPS_LEN], rules[CHECKER_RULES_LEN];
    uint32_t bodies[CHECKER_BODIES_LEN];
    uint32_t objects[CHECKER_OBJECTS_LEN], links[CHECKER_LINKS_LEN];
    uint32_t events[CHECKER_EVENTS_LEN];
    uint32_t answered; /* whether park_check has answered the batch, so that the next event begins another */
    uint32_t pairs;    /* how many the last park_check looked at; pair i is list[2 * i], a rule, and list[2 * i + 1], an id */
    uint32_t list[CHECKER_LIST_LEN];
    uint32_t scratch_objects[CHECKER_OBJECTS_LEN], scratch_links[CHECKER_LINKS_LEN];
};

enum park_kind {
    PARK_ACCEPTED = CHECKER_ACCEPTED,
    PARK_BROKEN = CHECKER_BROKEN,
    PARK_REFUSED = CHECKER_REFUSED,
    PARK_DONE /* read, listed or written; no rule was looked at */
};

/* What is not said of an answer's kind is 0. */
struct park_answer {
    enum park_kind kind;
    uint32_t rule, object;  /* broken: the first pair that does not hold */
    uint32_t number, place; /* refused: what is wrong, in words by checker_refusal_text, and where */
    uint32_t count;         /* done: event types of park_events, bytes of park_text */
};

/* An answer that is not looked at is a mistake: a refused text leaves the old park, which a check would then answer for. */
#ifdef __GNUC__
#define PARK_CALL __attribute__((__warn_unused_result__)) static inline struct park_answer
#else
#define PARK_CALL static inline struct park_answer
#endif

#define PARK_BOOK_USED(p) (p)->types_used, (p)->floors_used, (p)->relationships_used, (p)->rules_used
#define PARK_USED(p) PARK_BOOK_USED(p), (p)->objects_used, (p)->links_used
#define PARK_BOOK(p) (p)->types, CHECKER_TYPES_LEN, (p)->floors, CHECKER_FLOORS_LEN, \
    (p)->relationships, CHECKER_RELATIONSHIPS_LEN, (p)->rules, CHECKER_RULES_LEN, (p)->bodies, CHECKER_BODIES_LEN
#define PARK_REGISTER(p) (p)->objects, CHECKER_OBJECTS_LEN, (p)->links, CHECKER_LINKS_LEN
#define PARK_EVENTS(p) (p)->events, CHECKER_EVENTS_LEN
#define PARK_SCRATCH(p) (p)->scratch_objects, CHECKER_OBJECTS_LEN, (p)->scratch_links, CHECKER_LINKS_LEN

static inline struct park_answer park_refused(uint32_t number, uint32_t place) {
    struct park_answer answer = {PARK_REFUSED, 0, 0, number, place, 0};
    return answer;
}

static inline struct park_answer park_done(uint32_t count) {
    struct park_answer answer = {PARK_DONE, 0, 0, 0, 0, count};
    return answer;
}

/* The first three words of a check. */
static inline struct park_answer park_judged(const uint32_t *words) {
    struct park_answer accepted = {PARK_ACCEPTED, 0, 0, 0, 0, 0}, broken = {PARK_BROKEN, words[1], words[2], 0, 0, 0};
    if (words[0] == CHECKER_ACCEPTED) return accepted;
    return words[0] == CHECKER_BROKEN ? broken : park_refused(words[1], words[2]);
}

/* Book, register and batch of a text in the place of the park's. Done; or refused, and the park is as it was. */
PARK_CALL park_read(struct park *park, const uint8_t *text, size_t bytes) {
    uint32_t words[8];
    checker_read(text, bytes, PARK_BOOK(park), PARK_REGISTER(park), PARK_EVENTS(park), words);
    if (words[0] != CHECKER_DONE) return park_refused(words[1], words[2]);
    park->types_used = words[1];
    park->floors_used = words[2];
    park->relationships_used = words[3];
    park->rules_used = words[4];
    park->objects_used = words[5];
    park->links_used = words[6];
    park->events_used = words[7];
    park->answered = park->pairs = 0;
    return park_done(0);
}

/* The check of the batch; without events an inspection, every rule at every object of its type. Accepted, broken or refused; what this
 * leaves of the batch is said above. A broken batch has its pairs listed too, a refused one has none. */
PARK_CALL park_check(struct park *park) {
    uint32_t words[6];
    checker_batch(PARK_USED(park), park->events_used, PARK_BOOK(park), PARK_REGISTER(park), PARK_EVENTS(park), PARK_SCRATCH(park),
                  park->list, CHECKER_LIST_LEN, words);
    park->answered = 1;
    park->pairs = words[3];
    if (words[0] == CHECKER_ACCEPTED) {
        park->objects_used = words[4];
        park->links_used = words[5];
        park->events_used = 0;
    }
    return park_judged(words);
}

/* Every rule at every object of the register as it stands; the batch is not looked at, and no pair is listed. Accepted, broken or refused. */
PARK_CALL park_full(const struct park *park) {
    uint32_t words[3];
    checker_full_check(PARK_USED(park), PARK_BOOK(park), PARK_REGISTER(park), words);
    return park_judged(words);
}

/* The event types that can break a rule, three 16-bit words each. Done, with how many there are; or refused, and the list is as it was. It is
 * never too short with CHECKER_EVENT_LIST_LEN words. */
PARK_CALL park_events(const struct park *park, uint32_t rule, uint16_t *list, size_t list_len) {
    uint32_t words[3];
    checker_events(PARK_BOOK_USED(park), PARK_BOOK(park), rule, list, list_len, words);
    return words[0] == CHECKER_DONE ? park_done(words[1]) : park_refused(words[1], words[2]);
}

/* The text of book, register and batch: after an accepted check the text for the next visit. Done, with how many bytes were written, no
 * zero byte after them; or refused, and the bytes are as they were. They are never too few with CHECKER_TEXT_LEN, though a park can be too
 * large for any text. */
PARK_CALL park_text(const struct park *park, uint8_t *out, size_t out_len) {
    uint32_t words[3];
    checker_write(PARK_USED(park), park->events_used, PARK_BOOK(park), PARK_REGISTER(park), PARK_EVENTS(park), out, out_len, words);
    return words[0] == CHECKER_DONE ? park_done(words[1]) : park_refused(words[1], words[2]);
}

static inline void park_new_batch(struct park *park) { park->events_used = park->answered = 0; }

/* An event's row into the batch. One too many is counted and not written, so that park_check refuses the batch by 2 and no event is lost
 * unseen. */
static inline void park_event(struct park *park, enum checker_kind kind, uint32_t x, uint32_t y, uint32_t z) {
    if (park->answered) park_new_batch(park);
    if (park->events_used < CHECKER_MOST_EVENTS) {
        uint32_t *row = park->events + CHECKER_EVENT_WORDS * park->events_used;
        row[0] = kind;
        row[1] = x;
        row[2] = y;
        row[3] = z;
    }
    if (park->events_used <= CHECKER_MOST_EVENTS) park->events_used++;
}

static inline void park_event_insert(struct park *park, uint32_t object, uint32_t type) { park_event(park, CHECKER_INSERT, object, type, 0); }

static inline void park_event_delete(struct park *park, uint32_t object) { park_event(park, CHECKER_DELETE, object, 0, 0); }

static inline void park_event_set(struct park *park, uint32_t object, uint32_t cell, int32_t value) {
    park_event(park, CHECKER_SET, object, cell, (uint32_t)value);
}

static inline void park_event_join(struct park *park, uint32_t relationship, uint32_t source, uint32_t target) {
    park_event(park, CHECKER_JOIN, relationship, source, target);
}

static inline void park_event_part(struct park *park, uint32_t relationship, uint32_t source, uint32_t target) {
    park_event(park, CHECKER_PART, relationship, source, target);
}

static inline void park_event_special(struct park *park, uint32_t object, uint32_t type) { park_event(park, CHECKER_SPECIAL, object, type, 0); }

static inline void park_event_general(struct park *park, uint32_t object, uint32_t type) { park_event(park, CHECKER_GENERAL, object, type, 0); }

#undef PARK_CALL
#undef PARK_BOOK_USED
#undef PARK_USED
#undef PARK_BOOK
#undef PARK_REGISTER
#undef PARK_EVENTS
#undef PARK_SCRATCH

#ifdef __cplusplus
}
#endif

#endif
