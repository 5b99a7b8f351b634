/* From a catalog and a list to a value in each cell, by way of the C functions:
 *
 *     cells [CATALOG LIST]
 *
 * It plans the list, packs the plan's reads into groups, lets a made-up controller answer them, sorts what came back and prints
 * a line for each tag. The controller knows the tags of examples/motor.list; any other read comes back in error.
 */
#include <inttypes.h>
#include <stdio.h>
#include <stdlib.h>
#include <string.h>

#include "ruvangixo.h"

/* One byte more than a catalog may have, so that a file that is too long is refused and not cut off. Every buffer is as large as
 * what it holds can get; nothing has to be sized at run time. */
static uint8_t catalog[RUVANGIXO_CATALOG_MAX + 1], list[RUVANGIXO_LIST_MAX + 1];
static uint8_t plan[RUVANGIXO_PLAN_OUT_MAX], groups[RUVANGIXO_GROUPS_OUT_MAX];
static uint8_t results[RUVANGIXO_RESULTS_MAX], sorted[RUVANGIXO_SORTED_PLANNED_MAX];
static uint8_t value[RUVANGIXO_VALUE_MAX];

/* ---- refusals */

static const char *meaning(unsigned number)
{
    switch (number) {
    case RUVANGIXO_FILE_TOO_LONG: return "the file is too long; the limit in bytes is";
    case RUVANGIXO_BAD_VERSION: return "the file does not start with version 1; byte";
    case RUVANGIXO_OUT_OF_FILE: return "a field runs past the end, or bytes are left over, at byte";
    case RUVANGIXO_NOT_ALLOWED: return "this byte is not allowed here: byte";
    case RUVANGIXO_OVER_LIMIT: return "a count, length, dimension or size is over its limit, at";
    case RUVANGIXO_NAMES_ALIKE: return "this name stands in the file twice: at byte";
    case RUVANGIXO_TYPES_TOO_DEEP: return "types hold one another too deep from the type at byte";
    case RUVANGIXO_INDEX_TOO_LARGE: return "an index or count in a name is too large, at byte";
    case RUVANGIXO_OUTPUT_TOO_SHORT: return "the buffer is too short; the bytes needed are";
    case RUVANGIXO_TOO_MANY_LEVELS: return "values hold one another too deep, at byte";
    case RUVANGIXO_COUNTS_DIFFER: return "two counts that should be equal differ; the smaller is";
    default: return "unknown;";
    }
}

/* What a call returned where it was done; a refusal is printed and ends the program. */
static size_t done(const char *call, uint64_t answer)
{
    const unsigned number = ruvangixo_number(answer);
    if (number != RUVANGIXO_DONE) {
        printf("%s refused with %u: %s %" PRIu64 "\n", call, number, meaning(number), ruvangixo_returned(answer));
        exit(1);
    }
    return (size_t)ruvangixo_returned(answer);
}

/* ---- files, read and written front to back */

static size_t number(const uint8_t **at, int width)
{
    size_t n = 0;
    while (0 < width--) {
        n = n << 8 | *(*at)++;
    }
    return n;
}

/* A text: where its bytes start and how many they are, as printf takes them behind "%.*s". */
struct text {
    int length;
    const char *bytes;
};

static struct text text(const uint8_t **at)
{
    struct text t;
    t.length = (int)number(at, 1);
    t.bytes = (const char *)*at;
    *at += t.length;
    return t;
}

static int is(struct text t, const char *name)
{
    return (size_t)t.length == strlen(name) && memcmp(t.bytes, name, strlen(name)) == 0;
}

/* Behind the keys of a path. */
static const uint8_t *past_path(const uint8_t *at)
{
    size_t keys = number(&at, 1);
    while (0 < keys--) {
        if (number(&at, 1) == 0) {
            text(&at);
        } else {
            number(&at, 4);
        }
    }
    return at;
}

static size_t take(const char *name, uint8_t *into, size_t room)
{
    FILE *in = fopen(name, "rb");
    size_t n;
    if (in == NULL) {
        perror(name);
        exit(2);
    }
    n = fread(into, 1, room, in);
    fclose(in);
    return n;
}

static void put(uint8_t **at, uint32_t n, int width)
{
    while (0 < width--) {
        *(*at)++ = (uint8_t)(n >> (8 * width));
    }
}

static void put_text(uint8_t **at, const char *bytes)
{
    put(at, (uint32_t)strlen(bytes), 1);
    memcpy(*at, bytes, strlen(bytes));
    *at += strlen(bytes);
}

/* ---- the made-up controller */

/* A leaf holds a value's bytes as the controller sends them, low byte first. */
static void put_leaf(uint8_t **at, uint32_t bits)
{
    put(at, 5, 4);
    put(at, 0, 1);
    for (int i = 0; i < 4; i++) {
        put(at, bits >> (8 * i) & 255, 1);
    }
}

static uint32_t real(float f)
{
    uint32_t bits;
    memcpy(&bits, &f, sizeof bits);
    return bits;
}

/* The result of a read, behind those before it: a status byte and, where it is 0, a value. */
static void answer_read(uint8_t **at, struct text name)
{
    if (is(name, "Motor")) {
        put(at, 0, 1);
        put(at, 32, 4); /* the struct's bytes from here on: 3, then 6 + 9 and 5 + 9 for its members */
        put(at, 2, 1);
        put(at, 2, 2);
        put_text(at, "Speed");
        put_leaf(at, 1480);
        put_text(at, "Amps");
        put_leaf(at, real(12.5f));
    } else if (is(name, "Trend[3]{3}")) {
        put(at, 0, 1);
        put(at, 30, 4); /* 3 bytes, then three leaves of 9 */
        put(at, 1, 1);
        put(at, 3, 2);
        for (uint32_t n = 3; n < 6; n++) {
            put_leaf(at, n * 100);
        }
    } else {
        put(at, 1, 1);
    }
}

/* ---- what a cell shows */

/* How the sheet shows the four bytes of a leaf; a tag that is not here is shown by its bytes. */
static const struct {
    const char *tag;
    int is_real;
} formats[] = {{"Motor.Speed", 0}, {"Motor.Amps", 1}, {"Trend[3]", 0}, {"Trend[5]", 0}};

/* Prints the value whose length field stands here. */
static void show(struct text tag, const uint8_t *at)
{
    const size_t length = number(&at, 4);
    const size_t kind = number(&at, 1);
    if (kind == 0 && length == 5) {
        const uint32_t bits = at[0] | (uint32_t)at[1] << 8 | (uint32_t)at[2] << 16 | (uint32_t)at[3] << 24;
        for (size_t i = 0; i < sizeof formats / sizeof formats[0]; i++) {
            if (is(tag, formats[i].tag) && formats[i].is_real) {
                float f;
                memcpy(&f, &bits, sizeof f);
                printf("%.*s = %g\n", tag.length, tag.bytes, (double)f);
                return;
            }
            if (is(tag, formats[i].tag)) {
                printf("%.*s = %" PRId32 "\n", tag.length, tag.bytes, (int32_t)bits);
                return;
            }
        }
    }
    printf("%.*s = %zu bytes of kind %zu\n", tag.length, tag.bytes, length - 1, kind);
}

/* The same value by another way: the result of the read as a value file, cut by the tag's path. */
static void compare_with_dig(const uint8_t *result, const uint8_t *path, const uint8_t *cut)
{
    const uint8_t *at = result;
    const size_t length = 4 + number(&at, 4);
    size_t place;
    value[0] = 1;
    memcpy(value + 1, result, length);
    place = done("dig", ruvangixo_dig(value, 1 + length, path, (size_t)(past_path(path) - path)));
    at = cut;
    if (place == 0 || memcmp(value + place, cut, 4 + number(&at, 4)) != 0) {
        printf("dig found another value\n");
        exit(1);
    }
}

int main(int count, char **words)
{
    const char *catalog_name = count == 3 ? words[1] : "examples/motor.catalog";
    const char *list_name = count == 3 ? words[2] : "examples/motor.list";
    const size_t catalog_length = take(catalog_name, catalog, sizeof catalog);
    const size_t list_length = take(list_name, list, sizeof list);

    /* Plan. */
    const size_t plan_length =
        done("plan", ruvangixo_plan(catalog, catalog_length, list, list_length, plan, sizeof plan));
    const uint8_t *at = plan + 1;
    const size_t reads = number(&at, 2);
    printf("plan of %zu bytes, %zu reads\n", plan_length, reads);

    /* Pack, with the budget that stands in the list. The list was accepted, so its bytes 5 and 6 are there. */
    const uint16_t budget = (uint16_t)(list[5] << 8 | list[6]);
    done("plan_chunks",
         ruvangixo_plan_chunks(catalog, catalog_length, plan, plan_length, budget, groups, sizeof groups));

    /* Where the name of each read stands in the plan. */
    const uint8_t *names[RUVANGIXO_READS_MAX];
    for (size_t r = 0; r < reads; r++) {
        names[r] = at;
        text(&at);
        for (size_t members = number(&at, 2); 0 < members; members--) {
            text(&at);
            if (number(&at, 1) == 1) {
                at = past_path(at);
            }
        }
    }

    /* Each group would be sent as one request here. */
    at = groups + 1;
    printf("packets: %zu\n", number(&at, 8));
    for (size_t g = 1, last = number(&at, 2); g <= last; g++) {
        printf("group %zu:", g);
        for (size_t n = number(&at, 2); 0 < n; n--) {
            const uint8_t *name = names[number(&at, 2)];
            const struct text t = text(&name);
            printf(" %.*s", t.length, t.bytes);
        }
        printf("\n");
    }

    /* What came back, in the order of the plan's reads, whatever group each was in. */
    uint8_t *end = results;
    const uint8_t *received[RUVANGIXO_READS_MAX];
    put(&end, 1, 1);
    put(&end, (uint32_t)reads, 2);
    for (size_t r = 0; r < reads; r++) {
        const uint8_t *name = names[r];
        received[r] = end;
        answer_read(&end, text(&name));
    }

    /* Sort. */
    done("sort", ruvangixo_sort(plan, plan_length, results, (size_t)(end - results), sorted, sizeof sorted));

    /* The sorted answer has an entry for each member of the plan, in the same order. */
    const uint8_t *entry = sorted + 3;
    at = plan + 3;
    for (size_t r = 0; r < reads; r++) {
        text(&at);
        for (size_t members = number(&at, 2); 0 < members; members--) {
            const struct text tag = text(&at);
            const int has_path = number(&at, 1) == 1;
            const uint8_t *path = at;
            const size_t what = number(&entry, 1);
            if (has_path) {
                at = past_path(at);
            }
            if (what == 0) {
                const uint8_t *cut = results + number(&entry, 4);
                compare_with_dig(received[r] + 1, path, cut);
                show(tag, cut);
            } else if (what == 1) {
                printf("%.*s: to be read again by itself\n", tag.length, tag.bytes);
            } else if (received[r][0] == 0) {
                show(tag, received[r] + 1);
            } else {
                printf("%.*s: %s\n", tag.length, tag.bytes, received[r][0] == 1 ? "error" : "no answer");
            }
        }
    }
    for (size_t failed = number(&entry, 2); 0 < failed; failed--) {
        const uint8_t *name = names[number(&entry, 2)];
        const struct text t = text(&name);
        printf("failed: %.*s\n", t.length, t.bytes);
    }
    return 0;
}
