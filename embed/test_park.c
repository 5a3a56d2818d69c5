/* park.h as a C or C++ program calls it, beside a plain reading: test_park FILE makes the calls that park_cases.py wrote to FILE.
 * A call is its code, a block of what is given, the answer's kind and two words, and a block of what is left; a block is its length and
 * its words. Each caller begins with a park of zeros, and its last call has a 0 after it. */
#include "park.h"
#include <stdio.h>
#include <stdlib.h>
#include <string.h>

enum { END, READ, REGISTER, EVENT, NEW_BATCH, CHECK, FULL, EVENTS, TEXT };
#define SOIL 7u

struct block {
    const uint32_t *words;
    uint32_t len;
};

struct call {
    struct block given;
    uint32_t kind, x, y;
    struct block left;
};

static const uint32_t *at; /* the next word of the file */
static unsigned callers, calls, answers[4], disagreements;
static struct park park, before;
static uint8_t bytes[CHECKER_TEXT_LEN + 2]; /* one too long, and a guard */
static uint16_t event_types[CHECKER_EVENT_LIST_LEN + 1];

static uint32_t next(void) { return *at++; }

static struct block next_block(void) {
    struct block out;
    out.len = next();
    out.words = at;
    at += out.len;
    return out;
}

static struct call next_call(void) {
    struct call out;
    out.given = next_block();
    out.kind = next();
    out.x = next();
    out.y = next();
    out.left = next_block();
    return out;
}

static void agree(const char *what, int same) {
    if (same) return;
    disagreements++;
    printf("caller %u, call %u: %s differs\n", callers, calls, what);
}

/* The answer has the expected words where its kind has them, and 0 elsewhere. */
static void agree_answer(const char *what, struct park_answer found, const struct call *call, uint32_t count) {
    int broken = call->kind == PARK_BROKEN, refused = call->kind == PARK_REFUSED;
    agree(what, found.kind == call->kind && found.rule == (broken ? call->x : 0) && found.object == (broken ? call->y : 0) &&
                    found.number == (refused ? call->x : 0) && found.place == (refused ? call->y : 0) &&
                    found.count == (call->kind == PARK_DONE ? count : 0));
    answers[found.kind]++;
}

/* A list or a text has the expected words, and every word after them is as it was. */
#define AGREE_LEFT(what, found, length, call) do { \
    int same = (call)->left.len <= (length); \
    for (uint32_t i = 0; same && i <= (length); i++) same = (found)[i] == (i < (call)->left.len ? (call)->left.words[i] : SOIL); \
    agree(what, same); \
} while (0)

static void test_read(const struct call *call) {
    for (uint32_t i = 0; i < call->given.len; i++) bytes[i] = (uint8_t)call->given.words[i];
    before = park;
    agree_answer("the reading", park_read(&park, bytes, call->given.len), call, 0);
    if (call->kind == PARK_REFUSED) agree("the park of a refused text", memcmp(&park, &before, sizeof park) == 0);
    else agree("the list of a read park", park.pairs == 0);
}

/* Rows and counts as a caller may write them into the park itself. */
static void write_register(const struct call *call) {
    const uint32_t *objects = call->given.words + 2;
    park.objects_used = call->given.words[0];
    park.links_used = call->given.words[1];
    memcpy(park.objects, objects, park.objects_used * CHECKER_OBJECT_WORDS * sizeof *objects);
    memcpy(park.links, objects + park.objects_used * CHECKER_OBJECT_WORDS, park.links_used * CHECKER_LINK_WORDS * sizeof *objects);
}

static void test_event(const struct call *call) {
    const uint32_t *row = call->given.words;
    uint32_t x = row[1], y = row[2], z = row[3];
    switch (row[0]) {
        case CHECKER_INSERT: park_event_insert(&park, x, y); break;
        case CHECKER_DELETE: park_event_delete(&park, x); break;
        case CHECKER_SET: park_event_set(&park, x, y, (int32_t)z); break;
        case CHECKER_JOIN: park_event_join(&park, x, y, z); break;
        case CHECKER_PART: park_event_part(&park, x, y, z); break;
        case CHECKER_SPECIAL: park_event_special(&park, x, y); break;
        default: park_event_general(&park, x, y);
    }
}

static void test_check(const struct call *call) {
    before = park;
    agree_answer("the check", park_check(&park), call, 0);
    agree("the list of pairs", CHECKER_PAIR_WORDS * park.pairs == call->left.len &&
                                   memcmp(park.list, call->left.words, call->left.len * sizeof *park.list) == 0);
    agree("the list after the pairs", memcmp(park.list + call->left.len, before.list + call->left.len,
                                             (CHECKER_LIST_LEN - call->left.len) * sizeof *park.list) == 0);
    if (call->kind == PARK_ACCEPTED) agree("the batch after it was accepted", park.events_used == 0);
    else agree("counts, tables and batch of a check that was not accepted", memcmp(&park, &before, offsetof(struct park, answered)) == 0);
}

static void test_events(const struct call *call) {
    uint32_t rule = call->given.words[0], len = call->given.words[1];
    for (uint32_t i = 0; i <= len; i++) event_types[i] = SOIL;
    agree_answer("the event list's answer", park_events(&park, rule, event_types, len), call, call->left.len / CHECKER_EVENT_TYPE_WORDS);
    AGREE_LEFT("the event list", event_types, len, call);
}

static void test_text(const struct call *call) {
    uint32_t len = call->given.words[0];
    memset(bytes, SOIL, len + 1);
    agree_answer("the text's answer", park_text(&park, bytes, len), call, call->left.len);
    AGREE_LEFT("the text", bytes, len, call);
}

static void test_call(uint32_t code) {
    struct call call = next_call();
    calls++;
    switch (code) {
        case READ: test_read(&call); break;
        case REGISTER: write_register(&call); break;
        case EVENT: test_event(&call); break;
        case NEW_BATCH: park_new_batch(&park); break;
        case CHECK: test_check(&call); break;
        case FULL: agree_answer("the full check", park_full(&park), &call, 0); break;
        case EVENTS: test_events(&call); break;
        case TEXT: test_text(&call); break;
        default: exit(2);
    }
}

/* Whatever stands in a park that was never read, a call refuses it, and no pair is listed. */
static void test_soiled(void) {
    memset(&park, 0xa5, sizeof park);
    park_event_delete(&park, 1); /* begins a batch, since `answered` is not 0 */
    agree("a batch in a soiled park", park.events_used == 1);
    park.events_used = 0xa5a5a5a5;
    park_event_delete(&park, 1);
    agree("a soiled count of events", park.events_used == 0xa5a5a5a5);
    agree("the check of a soiled park", park_check(&park).number == CHECKER_TOO_MANY && park.pairs == 0);
    agree("the full check of a soiled park", park_full(&park).number == CHECKER_TOO_MANY);
    agree("the event list of a soiled park", park_events(&park, 0, event_types, CHECKER_EVENT_LIST_LEN).number == CHECKER_TOO_MANY);
    agree("the text of a soiled park", park_text(&park, bytes, CHECKER_TEXT_LEN).number == CHECKER_TOO_MANY);
}

static uint32_t *file_words(const char *name) {
    FILE *file = fopen(name, "rb");
    if (!file || fseek(file, 0, SEEK_END)) exit(2);
    long size = ftell(file);
    uint32_t *out = size > 0 ? (uint32_t *)malloc((size_t)size) : NULL;
    rewind(file);
    if (!out || fread(out, 1, (size_t)size, file) != (size_t)size) exit(2);
    fclose(file);
    return out;
}

int main(int count, char **arguments) {
    if (count != 2) return 2;
    uint32_t *file = file_words(arguments[1]);
    at = file;
    for (uint32_t code; (code = next()) != END; callers++) {
        memset(&park, 0, sizeof park);
        for (; code != END; code = next()) test_call(code);
    }
    free(file);
    test_soiled();
#ifdef __cplusplus
    const char *language = "C++";
#else
    const char *language = "C";
#endif
    printf("%u calls of park.h on %u parks from %s: %u accepted, %u broken, %u refused, %u done; disagreements %u\n", calls, callers, language,
           answers[PARK_ACCEPTED], answers[PARK_BROKEN], answers[PARK_REFUSED], answers[PARK_DONE], disagreements);
    return disagreements ? 1 : 0;
}
