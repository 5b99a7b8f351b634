/* How much stack each call takes: it runs on a thread whose stack was painted before, and the bytes from the caller's frame down to
 * the deepest changed one are counted. Each call gets inputs that lead it deepest: an accepted catalog for the checks of names and
 * types, and a value of 40 levels with as many members as there is room for.
 *
 *     stack CATALOG LIST
 */
#include <pthread.h>
#include <stdio.h>
#include <stdlib.h>
#include <string.h>

#include "ruvangixo.h"

#define STACK ((size_t)4 << 20)
#define PAINT 0xa5

/* A file in memory. */
struct file {
    uint8_t bytes[RUVANGIXO_CATALOG_MAX];
    size_t length;
};

static struct file catalog, list, plan, deep_catalog, deep_list, value, results, one_read, path;
static uint64_t sizes[RUVANGIXO_READS_MAX];
static uint8_t out[RUVANGIXO_SORTED_OUT_MAX];
static uint64_t answer;

static void put(struct file *f, unsigned n, unsigned width)
{
    while (0 < width) {
        width--;
        f->bytes[f->length++] = (uint8_t)(n >> (8 * width));
    }
}

static void put_text(struct file *f, const char *text)
{
    put(f, (unsigned)strlen(text), 1);
    memcpy(f->bytes + f->length, text, strlen(text));
    f->length += strlen(text);
}

/* Sixteen types, each the struct member of the one before, and a tag of the first. */
static void make_deep_catalog(struct file *c)
{
    char name[8], member[8];
    put(c, 1, 1);
    put(c, 1, 2);
    put(c, 16, 2);
    put_text(c, "A");
    put_text(c, "T0");
    put(c, 1, 1);
    put(c, 0, 1);
    put(c, 0, 2);
    for (int n = 0; n < 16; n++) {
        sprintf(name, "T%d", n);
        sprintf(member, "T%d", n + 1);
        put_text(c, name);
        put(c, 8, 2);
        put(c, 0, 1);
        put(c, 1, 2);
        put_text(c, "m");
        put_text(c, n < 15 ? member : "DINT");
        put(c, n < 15, 1);
        put(c, 0, 1);
        put(c, 0, 2);
    }
}

/* Tags down to the sixteenth type. */
static void make_deep_list(struct file *l)
{
    char tag[64] = "A";
    put(l, 1, 1);
    put(l, 500, 4);
    put(l, 4000, 2);
    put(l, 0, 2);
    put(l, 0, 2);
    put(l, 16, 2);
    for (int n = 0; n < 16; n++) {
        strcat(tag, ".m");
        put_text(l, tag);
    }
}

/* A value from level 1 on: arrays of one item down to level 38, on level 39 a struct, whose members are leaves on level 40. Their
 * names are three letters or digits. A file of 65,536 bytes has room for `members` of them. */
static void put_value(struct file *f, unsigned members)
{
    static const char signs[] = "0123456789abcdefghijklmnopqrstuvwxyz";
    const unsigned inner = 3 + members * 9;
    char name[4] = "";
    for (unsigned level = 1; level < 39; level++) {
        put(f, inner + 4 + (38 - level) * 7 + 3, 4);
        put(f, 1, 1);
        put(f, 1, 2);
    }
    put(f, inner, 4);
    put(f, 2, 1);
    put(f, members, 2);
    for (unsigned n = members; 0 < n; n--) {
        name[0] = signs[n % 36];
        name[1] = signs[n / 36 % 36];
        name[2] = signs[n / 1296];
        put_text(f, name);
        put(f, 1, 4);
        put(f, 0, 1);
    }
}

static void call_plan(void)
{
    answer = ruvangixo_plan(catalog.bytes, catalog.length, list.bytes, list.length, plan.bytes, sizeof plan.bytes);
}

static void call_plan_deep(void)
{
    answer = ruvangixo_plan(deep_catalog.bytes, deep_catalog.length, deep_list.bytes, deep_list.length, out, sizeof out);
}

static void call_plan_chunks(void)
{
    answer = ruvangixo_plan_chunks(catalog.bytes, catalog.length, plan.bytes, plan.length, 4000, out, sizeof out);
}

static void call_chunks(void)
{
    answer = ruvangixo_chunks(sizes, RUVANGIXO_READS_MAX, sizes, RUVANGIXO_READS_MAX, 500, out, sizeof out);
}

static void call_packets(void)
{
    answer = ruvangixo_packets(sizes, RUVANGIXO_READS_MAX, sizes, RUVANGIXO_READS_MAX, 500);
}

static void call_dig(void)
{
    answer = ruvangixo_dig(value.bytes, value.length, path.bytes, path.length);
}

static void call_sort(void)
{
    answer = ruvangixo_sort(one_read.bytes, one_read.length, results.bytes, results.length, out, sizeof out);
}

/* A byte in the frame that the calls are made from. */
static uint8_t *caller;

static void *run(void *call)
{
    uint8_t here = 0;
    caller = &here;
    (*(void (**)(void))call)();
    return NULL;
}

static size_t used(void (*call)(void))
{
    void *memory;
    pthread_attr_t attributes;
    pthread_t thread;
    size_t deepest = 0;
    if (posix_memalign(&memory, 4096, STACK) != 0) {
        exit(2);
    }
    memset(memory, PAINT, STACK);
    if (pthread_attr_init(&attributes) != 0 || pthread_attr_setstack(&attributes, memory, STACK) != 0
        || pthread_create(&thread, &attributes, run, &call) != 0 || pthread_join(thread, NULL) != 0) {
        exit(2);
    }
    while (((uint8_t *)memory)[deepest] == PAINT) {
        deepest++;
    }
    deepest = (size_t)(caller - (uint8_t *)memory) - deepest;
    pthread_attr_destroy(&attributes);
    free(memory);
    return deepest;
}

static void tell(const char *name, void (*call)(void))
{
    const size_t bytes = used(call);
    printf("%-24s %7zu bytes of stack, refusal %u\n", name, bytes, ruvangixo_number(answer));
}

static void take(struct file *f, const char *name)
{
    FILE *in = fopen(name, "rb");
    if (in == NULL) {
        perror(name);
        exit(2);
    }
    f->length = fread(f->bytes, 1, sizeof f->bytes, in);
    fclose(in);
}

int main(int count, char **words)
{
    const unsigned members = 7245;
    if (count != 3) {
        fprintf(stderr, "stack CATALOG LIST\n");
        return 2;
    }
    take(&catalog, words[1]);
    take(&list, words[2]);
    make_deep_catalog(&deep_catalog);
    make_deep_list(&deep_list);
    for (unsigned n = 0; n < RUVANGIXO_READS_MAX; n++) {
        sizes[n] = n * 3;
    }

    /* The path goes down to the last member; so does that of the plan's only tag. */
    put(&path, 39, 1);
    for (int key = 0; key < 38; key++) {
        put(&path, 1, 1);
        put(&path, 0, 4);
    }
    put(&path, 0, 1);
    put_text(&path, "100");
    put(&value, 1, 1);
    put_value(&value, members);
    put(&results, 1, 1);
    put(&results, 1, 2);
    put(&results, 0, 1);
    put_value(&results, members);
    put(&one_read, 1, 1);
    put(&one_read, 1, 2);
    put_text(&one_read, "A");
    put(&one_read, 1, 2);
    put_text(&one_read, "A.b");
    put(&one_read, 1, 1);
    memcpy(one_read.bytes + one_read.length, path.bytes, path.length);
    one_read.length += path.length;

    tell("ruvangixo_plan", call_plan);
    plan.length = (size_t)ruvangixo_returned(answer);
    tell("ruvangixo_plan, 16 deep", call_plan_deep);
    tell("ruvangixo_plan_chunks", call_plan_chunks);
    tell("ruvangixo_chunks", call_chunks);
    tell("ruvangixo_packets", call_packets);
    tell("ruvangixo_dig", call_dig);
    tell("ruvangixo_sort", call_sort);
    return 0;
}
