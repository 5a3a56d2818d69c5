/* The entries as a C program calls them, beside a plain reading: test_c FILE REFUSALS runs the cases that cases.py wrote to FILE, and
 * compares the refusals' sentences with those of REFUSALS, which is bin/refusals.txt.
 * Every table that a call may write has exactly the words that are lent, with a guard word after them. */
#include "checker.h"
#include <stdio.h>
#include <stdlib.h>
#include <string.h>

enum { TYPES, FLOORS, RELATIONSHIPS, RULES, BODIES, OBJECTS, LINKS, EVENTS, TABLES };
enum { SOIL = 7 };

typedef struct {
    uint32_t *words;
    size_t len;
} Table;

static uint32_t *at; /* the next word of the file */
static unsigned cases, answers[3], readings, readings_refused, disagreements;

static uint32_t next(void) { return *at++; }

static Table words(size_t len) {
    Table t = {at, len};
    at += len;
    return t;
}

static Table block(void) {
    size_t len = next();
    return words(len);
}

static void agree(const char *what, int same) {
    if (same) return;
    disagreements++;
    printf("case %u: %s differs\n", cases, what);
}

static void agree_words(const char *what, const uint32_t *found, const uint32_t *expected, size_t count) {
    agree(what, memcmp(found, expected, count * sizeof *found) == 0);
}

/* Memory for so many words and the guard after them, all soiled. */
static uint32_t *soiled(size_t len) {
    uint32_t *out = malloc((len + 1) * sizeof *out);
    if (!out) exit(2);
    for (size_t i = 0; i <= len; i++) out[i] = SOIL;
    return out;
}

static uint16_t *soiled_list(size_t len) {
    uint16_t *out = malloc((len + 1) * sizeof *out);
    if (!out) exit(2);
    for (size_t i = 0; i <= len; i++) out[i] = SOIL;
    return out;
}

/* A list, of words of either width, is the expected words, and every word after them is as it was. */
#define AGREE_LIST(what, list, length, expected) do { \
    Table wanted = (expected); \
    size_t len = (length); \
    int same = wanted.len <= len; \
    for (size_t i = 0; same && i <= len; i++) same = (list)[i] == (i < wanted.len ? wanted.words[i] : SOIL); \
    agree(what, same); \
} while (0)

/* A case's counts (bodies have none) and tables. */
typedef struct {
    uint32_t used[7];
    Table t[TABLES];
} Sheet;

#define BOOK_COUNTS(s) (s)->used[0], (s)->used[1], (s)->used[2], (s)->used[3]
#define COUNTS(s) BOOK_COUNTS(s), (s)->used[4], (s)->used[5]
#define TABLE(s, n) (s)->t[n].words, (s)->t[n].len
#define BOOK(s) TABLE(s, TYPES), TABLE(s, FLOORS), TABLE(s, RELATIONSHIPS), TABLE(s, RULES), TABLE(s, BODIES)
#define REGISTER(s) TABLE(s, OBJECTS), TABLE(s, LINKS)

static void test_check(const Sheet *s) {
    uint64_t expected = (uint64_t)next() << 32;
    expected += next();
    agree("check", checker_check(COUNTS(s), BOOK(s), REGISTER(s)) == expected);
}

static void test_full(const Sheet *s) {
    uint32_t answer[3];
    checker_full_check(COUNTS(s), BOOK(s), REGISTER(s), answer);
    agree_words("full check", answer, words(3).words, 3);
}

/* A table lent for the end has these words, and zeros past them. */
static void agree_end(const char *what, const uint32_t *found, size_t len, Table end) {
    int same = end.len <= len;
    for (size_t i = 0; same && i < len; i++) same = found[i] == (i < end.len ? end.words[i] : 0);
    agree(what, same);
}

static void test_run(const Sheet *s, const uint32_t scratch_len[2]) {
    uint32_t answer[3], *objects = soiled(scratch_len[0]), *links = soiled(scratch_len[1]);
    checker_run(COUNTS(s), BOOK(s), REGISTER(s), objects, scratch_len[0], links, scratch_len[1], s->used[6], TABLE(s, EVENTS), answer);
    Table expected = words(3);
    agree_words("run", answer, expected.words, 3);
    if (expected.words[0] == CHECKER_DONE) {
        Table end_objects = block(), end_links = block();
        agree_end("objects of the run", objects, scratch_len[0], end_objects);
        agree_end("links of the run", links, scratch_len[1], end_links);
    } else words(2);
    agree("guards of the run", objects[scratch_len[0]] == SOIL && links[scratch_len[1]] == SOIL);
    free(objects);
    free(links);
}

static void test_event_lists(const Sheet *s) {
    for (uint32_t left = next(); left; left--) {
        uint32_t answer[3], rule = next(), list_len = next();
        uint16_t *list = soiled_list(list_len);
        checker_events(BOOK_COUNTS(s), BOOK(s), rule, list, list_len, answer);
        agree_words("event list's answer", answer, words(3).words, 3);
        AGREE_LIST("event list", list, list_len, block());
        free(list);
    }
}

static void test_write(const Sheet *s) {
    uint32_t answer[3], len = next();
    uint8_t *out = malloc(len + 1);
    if (!out) exit(2);
    memset(out, SOIL, len + 1);
    checker_write(COUNTS(s), s->used[6], BOOK(s), REGISTER(s), TABLE(s, EVENTS), out, len, answer);
    agree_words("written text's answer", answer, words(3).words, 3);
    Table text = block();
    int same = text.len <= len;
    for (size_t i = 0; same && i <= len; i++) same = out[i] == (i < text.len ? text.words[i] : SOIL);
    agree("written text", same);
    free(out);
}

static void test_batch(const Sheet *s, const uint32_t scratch_len[2], uint32_t list_len) {
    uint32_t answer[6], *objects = soiled(scratch_len[0]), *links = soiled(scratch_len[1]);
    uint32_t *list = soiled(list_len);
    checker_batch(COUNTS(s), s->used[6], BOOK(s), REGISTER(s), TABLE(s, EVENTS), objects, scratch_len[0], links, scratch_len[1],
                  list, list_len, answer);
    Table expected = words(6);
    agree_words("batch check", answer, expected.words, 6);
    answers[expected.words[0]]++;
    AGREE_LIST("list of pairs", list, list_len, block());
    agree_words("objects after the batch", s->t[OBJECTS].words, words(s->t[OBJECTS].len).words, s->t[OBJECTS].len);
    agree_words("links after the batch", s->t[LINKS].words, words(s->t[LINKS].len).words, s->t[LINKS].len);
    agree("guards of the batch check", objects[scratch_len[0]] == SOIL && links[scratch_len[1]] == SOIL);
    free(objects);
    free(links);
    free(list);
}

static void test_tables(void) {
    Sheet s;
    for (int i = 0; i < 7; i++) s.used[i] = next();
    for (int i = 0; i < TABLES; i++) s.t[i] = block();
    uint32_t scratch_len[2] = {next(), 0};
    scratch_len[1] = next();
    uint32_t list_len = next();
    test_check(&s);
    test_full(&s);
    test_run(&s, scratch_len);
    test_event_lists(&s);
    test_write(&s);
    test_batch(&s, scratch_len, list_len); /* last, since it may change the register */
}

/* A table that was read: the expected words, or as it was where the text is refused. */
static void agree_read(Table found, int refused) {
    int same = found.words[found.len] == SOIL;
    const uint32_t *expected = refused ? NULL : words(found.len).words;
    for (size_t i = 0; same && i < found.len; i++) same = found.words[i] == (refused ? SOIL : expected[i]);
    agree("a table that is read", same);
    free(found.words);
}

static void test_read(void) {
    Table text = block();
    uint8_t *bytes = malloc(text.len + 1);
    if (!bytes) exit(2);
    for (size_t i = 0; i < text.len; i++) bytes[i] = (uint8_t)text.words[i];
    Sheet sheet, *s = &sheet;
    for (int i = 0; i < TABLES; i++) s->t[i].len = next();
    for (int i = 0; i < TABLES; i++) s->t[i].words = soiled(s->t[i].len);
    uint32_t answer[8];
    checker_read(bytes, text.len, BOOK(s), REGISTER(s), TABLE(s, EVENTS), answer);
    Table expected = words(8);
    agree_words("reading", answer, expected.words, 8);
    int refused = expected.words[0] != CHECKER_DONE;
    for (int i = 0; i < TABLES; i++) agree_read(s->t[i], refused);
    readings++;
    if (refused) readings_refused++;
    free(bytes);
}

static uint32_t *file_words(const char *name) {
    FILE *file = fopen(name, "rb");
    if (!file || fseek(file, 0, SEEK_END)) exit(2);
    long size = ftell(file);
    uint32_t *out = size > 0 ? malloc((size_t)size) : NULL;
    rewind(file);
    if (!out || fread(out, 1, (size_t)size, file) != (size_t)size) exit(2);
    fclose(file);
    return out;
}

/* Each line of the file is a number, what its place counts, and the sentence; every other number has the sentence of none. */
static void test_refusal_texts(const char *name) {
    FILE *file = fopen(name, "r");
    if (!file) exit(2);
    char line[256];
    uint32_t number = 0;
    const char *none = checker_refusal_text(number);
    while (fgets(line, sizeof line, file)) {
        line[strcspn(line, "\n")] = '\0';
        const char *sentence = strrchr(line, '\t');
        int same = sentence && strtoul(line, NULL, 10) == ++number && strcmp(checker_refusal_text(number), sentence + 1) == 0;
        agree("the sentence of a refusal", same && strcmp(sentence + 1, none) != 0);
    }
    fclose(file);
    agree("how many refusals have a sentence", number == CHECKER_BELOW);
    for (uint32_t other = number + 1; other != 0; other = other < 1000 ? other + 1 : 2 * other)
        agree("the sentence of no refusal", strcmp(checker_refusal_text(other), none) == 0);
}

int main(int count, char **arguments) {
    if (count != 3) return 2;
    agree("the version", checker_version() == CHECKER_VERSION);
    test_refusal_texts(arguments[2]);
    uint32_t *file = at = file_words(arguments[1]);
    for (uint32_t kind; (kind = next()) != 0; cases++) {
        if (kind == 1) test_tables();
        else test_read();
    }
    free(file);
    printf("%u cases from C\n", cases);
    printf("  %u of tables: %u accepted, %u broken, %u refused\n", cases - readings, answers[0], answers[1], answers[2]);
    printf("  %u of texts: %u read, %u refused\n", readings, readings - readings_refused, readings_refused);
    printf("  disagreements in version, sentences, answers, lists, tables or texts: %u\n", disagreements);
    return disagreements ? 1 : 0;
}
