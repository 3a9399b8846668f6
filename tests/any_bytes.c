/*
 * Hands the exported functions random bytes as state and random arguments, and sees that a refused call changes no word of what is lent
 * and that the same call gives the same answer. What is lent stands between pages that may not be touched, so a read or write outside of
 * it ends the program. The sanitizers see to the test itself.
 */
#include <inttypes.h>
#include <stdio.h>
#include <stdlib.h>
#include <string.h>
#include <sys/mman.h>
#include <unistd.h>

#include "coherence.h"

enum { JOURNAL = 400, TEXT = 300, ROUNDS = 40000, STEPS = 60 };

#define STATE_BYTES (COHERENCE_WORDS * sizeof(uint64_t))

static uint64_t seed = 88172645463325252u;
static unsigned long calls, refused;
static uint64_t *seen;

static uint32_t any(uint32_t below)
{
    seed ^= seed << 13;
    seed ^= seed >> 7;
    seed ^= seed << 17;
    return (uint32_t)(seed >> 32) % below;
}

static void fail(const char *what)
{
    fprintf(stderr, "any_bytes: %s (call %lu)\n", what, calls);
    exit(EXIT_FAILURE);
}

/* Memory of this size whose last byte is the last one before a page that may not be touched; the page before it may not be either. */
static void *lend(size_t size)
{
    size_t page = (size_t)sysconf(_SC_PAGESIZE);
    size_t pages = (size + page - 1) / page;
    uint8_t *base = mmap(NULL, (pages + 2) * page, PROT_NONE, MAP_PRIVATE | MAP_ANONYMOUS, -1, 0);
    if (base == MAP_FAILED || mprotect(base + page, pages * page, PROT_READ | PROT_WRITE) != 0)
        fail("no memory");
    return base + (pages + 1) * page - size;
}

/* One event with these arguments; any number names one. */
static uint64_t happen(uint64_t *state, uint32_t event, const uint8_t *a, uint32_t value)
{
    switch (event % 8) {
    case 0: return coherence_load(state, a[0], a[1]);
    case 1: return coherence_store(state, a[0], a[1], value);
    case 2: return coherence_drop(state, a[0], a[1]);
    case 3: return coherence_ask(state, a[0], a[1], a[2], a[3]);
    case 4: return coherence_order(state);
    case 5: return coherence_deliver(state, a[0]);
    case 6: return coherence_copy(state, a[0]);
    default: return coherence_rejoin(state, a[0]);
    }
}

/* One look with these arguments, into what is lent for it; any number names one. */
static uint64_t look(const uint64_t *state, uint32_t what, const uint8_t *a)
{
    switch (what % 5) {
    case 0: return coherence_counts(state, seen);
    case 1: return coherence_message(state, a[0], seen);
    case 2: return coherence_request(state, a[0], seen);
    case 3: return coherence_cell(state, a[0], a[1], seen);
    default: return coherence_home(state, a[0], seen);
    }
}

/* Arguments: mostly small ones, which name what is there. */
static void arguments(uint8_t *a)
{
    uint32_t below = any(4) == 0 ? 256 : 4;
    for (int i = 0; i < 4; i++)
        a[i] = (uint8_t)any(below);
}

/* A look: the state stays as it is, a refusal keeps the numbers, and looks and events refuse the same states with 15. */
static void try_look(const uint64_t *state, const uint64_t *before, int is_formed)
{
    uint8_t a[4];
    uint32_t what = any(5);
    uint64_t kept[COHERENCE_SEEN];
    arguments(a);
    for (int i = 0; i < COHERENCE_SEEN; i++)
        kept[i] = seen[i] = any(UINT32_MAX);
    uint64_t answer = look(state, what, a);
    calls++;
    if (memcmp(before, state, STATE_BYTES) != 0)
        fail("a look changed the state");
    if ((COHERENCE_REFUSAL(answer) == COHERENCE_REFUSED_ILL_FORMED) == is_formed)
        fail("a look and an event take different words for a chassis");
    if (COHERENCE_REFUSAL(answer) != COHERENCE_DONE) {
        refused++;
        if (COHERENCE_VALUE(answer) != 0 || memcmp(kept, seen, sizeof kept) != 0)
            fail("a refused look has a value, or changed the numbers");
    }
}

/* An event on the state, and the same on a copy of it; and a look before it. */
static uint64_t try_event(uint64_t *state, uint64_t *copy, uint64_t *before)
{
    uint8_t a[4];
    uint32_t event = any(8), value = any(UINT32_MAX);
    arguments(a);
    memcpy(before, state, STATE_BYTES);
    memcpy(copy, state, STATE_BYTES);
    uint64_t answer = happen(state, event, a, value);
    calls++;
    try_look(copy, before, COHERENCE_REFUSAL(answer) != COHERENCE_REFUSED_ILL_FORMED);
    if (COHERENCE_REFUSAL(answer) != COHERENCE_DONE) {
        refused++;
        if (COHERENCE_VALUE(answer) != 0 || COHERENCE_REFUSAL(answer) > COHERENCE_REFUSED_ILL_FORMED)
            fail("a refusal that is not in the list, or with a value");
        if (memcmp(before, state, STATE_BYTES) != 0)
            fail("a refused event changed the state");
    }
    if (happen(copy, event, a, value) != answer || memcmp(copy, state, STATE_BYTES) != 0)
        fail("the same event had two answers");
    return answer;
}

/* Random words are refused with 15, whatever the event. */
static void random_states(uint64_t *state, uint64_t *copy, uint64_t *before)
{
    for (int round = 0; round < ROUNDS / 10; round++) {
        for (size_t i = 0; i < COHERENCE_WORDS; i++)
            state[i] = any(2) ? any(9) : ((uint64_t)any(UINT32_MAX) << 32 | any(UINT32_MAX));
        if (COHERENCE_REFUSAL(try_event(state, copy, before)) != COHERENCE_REFUSED_ILL_FORMED)
            fail("random words are taken for a chassis");
    }
}

/* Events from a start, now and then with one word changed. */
static void played_states(uint64_t *state, uint64_t *copy, uint64_t *before)
{
    for (int round = 0; round < ROUNDS / STEPS; round++) {
        uint8_t edition = (uint8_t)any(any(8) == 0 ? 256 : 2);
        uint64_t made = coherence_start(state, edition, (uint8_t)any(10), (uint8_t)(any(2) ? any(4) : any(35)));
        if (edition > COHERENCE_EDITION_MOSI && COHERENCE_REFUSAL(made) != COHERENCE_REFUSED_NO_SUCH_SIZE)
            fail("a chassis of no edition");
        for (int i = 0; i < STEPS; i++) {
            uint64_t answer = try_event(state, copy, before);
            if (made != 0 && COHERENCE_REFUSAL(answer) != COHERENCE_REFUSED_ILL_FORMED)
                fail("a refused start made a chassis");
            if (made == 0 && (COHERENCE_REFUSAL(answer) == COHERENCE_REFUSED_ILL_FORMED || COHERENCE_REFUSAL(answer) == COHERENCE_REFUSED_IMPOSSIBLE))
                fail("13 or 15 in a run from a start");
        }
        state[any(COHERENCE_WORDS)] = any(300);
        for (int i = 0; i < STEPS / 10; i++)
            try_event(state, copy, before);
    }
}

/* The fields that a record of this tag is due to read back with: those that it has, and 0 for the others. */
static void due_fields(uint64_t *due, uint8_t tag, const uint8_t *a, uint32_t value)
{
    memset(due, 0, COHERENCE_FIELDS * sizeof *due);
    due[COHERENCE_FIELD_TAG] = tag;
    if (tag == COHERENCE_TAG_DELIVER || tag == COHERENCE_TAG_COPY)
        due[COHERENCE_FIELD_POSITION] = a[0];
    else if (tag != COHERENCE_TAG_ORDER)
        due[COHERENCE_FIELD_CARD] = a[0];
    if (tag == COHERENCE_TAG_OPENING || tag == COHERENCE_TAG_LOAD || tag == COHERENCE_TAG_STORE || tag == COHERENCE_TAG_ASK || tag == COHERENCE_TAG_DROP)
        due[COHERENCE_FIELD_BLOCK] = a[1];
    if (tag == COHERENCE_TAG_OPENING || tag == COHERENCE_TAG_ASK)
        due[COHERENCE_FIELD_KIND] = a[2];
    if (tag == COHERENCE_TAG_ASK)
        due[COHERENCE_FIELD_MASK] = a[3];
    if (tag == COHERENCE_TAG_STORE)
        due[COHERENCE_FIELD_VALUE] = value;
}

/* What was written at a place is read back there, field by field. */
static void read_back(const uint8_t *journal, size_t at, size_t after, uint64_t *fields, const uint64_t *due)
{
    size_t end = at;
    if (coherence_read(journal, JOURNAL, &end, fields) != 1 || end != after)
        fail("a record does not read back");
    for (int i = 0; i < COHERENCE_FIELDS; i++)
        if (fields[i] != due[i])
            fail("a field does not read back as it was written");
}

/* A record of any tag and fields is written, and read back as it was; or a refusal keeps every byte and the place. */
static void records(uint8_t *journal, uint64_t *fields)
{
    uint8_t before[JOURNAL];
    for (int round = 0; round < ROUNDS; round++) {
        for (size_t i = 0; i < JOURNAL; i++)
            journal[i] = before[i] = (uint8_t)any(any(2) ? 256 : 32);
        uint8_t a[4], tag = (uint8_t)(any(2) ? 0x10 + any(9) : any(4) == 0 ? COHERENCE_TAG_OPENING : any(256));
        uint32_t value = any(UINT32_MAX);
        size_t at = any(2) ? any(JOURNAL + 20) : JOURNAL - any(12), place = at;
        arguments(a);
        uint64_t answer = coherence_write(journal, JOURNAL, &place, tag, a[0], a[1], a[2], a[3], value, a[0]);
        calls++;
        int is_no_edition = tag == COHERENCE_TAG_OPENING && a[2] > COHERENCE_EDITION_MOSI;
        if (is_no_edition != (COHERENCE_REFUSAL(answer) == COHERENCE_REFUSED_WRONG_OPENING))
            fail("an opening of no edition is written, or another record is refused for it");
        if (answer != 0) {
            refused++;
            if (place != at || memcmp(journal, before, JOURNAL) != 0)
                fail("a refused record changed the buffer or the place");
        } else {
            if (memcmp(journal, before, at) != 0 || memcmp(journal + place, before + place, JOURNAL - place) != 0)
                fail("a byte outside of the record was written");
            uint64_t due[COHERENCE_FIELDS];
            due_fields(due, tag, a, value);
            read_back(journal, at, place, fields, due);
        }
        size_t from = any(JOURNAL + 20), next = from;
        uint64_t kept[COHERENCE_FIELDS];
        memcpy(kept, fields, sizeof kept);
        uint64_t found = coherence_read(journal, JOURNAL, &next, fields);
        calls++;
        if (found != 1 && (next != from || memcmp(kept, fields, sizeof kept) != 0))
            fail("the end or damage moved the place or the fields");
    }
}

/* A run that is over, called again, carries out nothing a second time. */
static void again(uint64_t *state, uint64_t *before, const uint8_t *journal, uint64_t *standing, uint8_t *text)
{
    memcpy(before, state, STATE_BYTES);
    coherence_run(state, journal, JOURNAL, standing, text, TEXT);
    calls++;
    if (memcmp(before, state, STATE_BYTES) != 0)
        fail("a run that is over changed the state when it was called again");
}

/* Runs over random journals, piece by piece, from random words and, now and then, from a random standing. */
static void runs(uint64_t *state, uint64_t *before, uint8_t *journal, uint8_t *text)
{
    for (int round = 0; round < ROUNDS / 100; round++) {
        size_t place = 0;
        uint64_t standing[COHERENCE_STANDING] = {0, 0, 0};
        for (size_t i = 0; i < JOURNAL; i++)
            journal[i] = (uint8_t)any(256);
        coherence_write(journal, JOURNAL, &place, COHERENCE_TAG_OPENING, 3, 3, (uint8_t)any(2), 0, 0, 0);
        while (any(40) != 0) {
            uint8_t a[4];
            arguments(a);
            coherence_write(journal, JOURNAL, &place, (uint8_t)(0x10 + any(8)), a[0], a[1], a[2], a[3], any(9), a[0]);
        }
        if (any(4) == 0)
            standing[any(2)] = any(JOURNAL);
        for (;;) {
            uint8_t old[TEXT];
            uint64_t stood[COHERENCE_STANDING];
            size_t size = any(4) == 0 ? any(COHERENCE_LINE + 1) : TEXT;
            memcpy(stood, standing, sizeof stood);
            memcpy(old, text, TEXT);
            memcpy(before, state, STATE_BYTES);
            uint64_t answer = coherence_run(state, journal, JOURNAL, standing, text + TEXT - size, size);
            calls++;
            if (COHERENCE_REFUSAL(answer) != COHERENCE_DONE) {
                refused++;
                if (memcmp(before, state, STATE_BYTES) != 0 || memcmp(old, text, TEXT) != 0 || memcmp(stood, standing, sizeof stood) != 0)
                    fail("a refused run changed something");
                break;
            }
            if (standing[COHERENCE_STANDING_WRITTEN] > size || memcmp(old, text, TEXT - size) != 0)
                fail("text outside of what was lent");
            if (memcmp(old + TEXT - size + standing[COHERENCE_STANDING_WRITTEN], text + TEXT - size + standing[COHERENCE_STANDING_WRITTEN],
                       size - standing[COHERENCE_STANDING_WRITTEN]) != 0)
                fail("text behind what was written was touched");
            if (COHERENCE_VALUE(answer) == 0) {
                again(state, before, journal, standing, text);
                break;
            }
        }
    }
}

/* Every refusal of the list and every outcome has a text of its own, and no other number has one. */
static void texts(void)
{
    const char *(*const tables[])(uint32_t) = {coherence_refusal_text, coherence_order_text, coherence_delivery_text};
    static const unsigned due[] = {21, 4, 2};
    for (int table = 0; table < 3; table++) {
        unsigned named = 0;
        for (uint32_t number = 0; number < 300; number++) {
            const char *text = tables[table](number);
            if (strcmp(text, "unknown") == 0)
                continue;
            named++;
            for (uint32_t other = 0; other < number; other++)
                if (strcmp(text, tables[table](other)) == 0)
                    fail("two numbers have one text");
        }
        if (named != due[table])
            fail("not every number that is due has a text");
    }
}

int main(void)
{
    uint64_t *state = lend(STATE_BYTES), *copy = lend(STATE_BYTES), *before = malloc(STATE_BYTES);
    uint64_t *fields = lend(COHERENCE_FIELDS * sizeof *fields);
    uint8_t *journal = lend(JOURNAL), *text = lend(TEXT);
    seen = lend(COHERENCE_SEEN * sizeof *seen);
    if (before == NULL)
        fail("no memory");
    texts();
    random_states(state, copy, before);
    played_states(state, copy, before);
    records(journal, fields);
    runs(state, before, journal, text);
    free(before);
    printf("any_bytes: %lu calls, %lu of them refused, and none of these changed anything\n", calls, refused);
    return EXIT_SUCCESS;
}
