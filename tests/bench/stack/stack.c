/* How much stack each call takes: a thread makes it on a stack that was painted before, and the lowest byte that has changed tells. Each call is
   made on the realistic file and on one with as many strings and steps of aliases as there can be; the larger number is printed. */
#define _GNU_SOURCE
#include <nzd.h>
#include <pthread.h>
#include <stdio.h>
#include <stdlib.h>
#include <string.h>

#define STACK (4 << 20)
#define MOST (1 << 22)
/* 2096-10-02: in a tail, in summer. */
#define LATE INT64_C(40000000000000000)

struct bytes {
    uint8_t at[MOST];
    size_t n;
};

static struct bytes realistic, largest, fixed, older, unordered, trace, out;
static int64_t numbers[80000];
static uint8_t stack[STACK] __attribute__((aligned(4096)));
/* Where the stack of the call begins. */
static uint8_t *top;

static void fail(const char *what) {
    fprintf(stderr, "stack: %s\n", what);
    exit(1);
}

static void put(struct bytes *s, const void *from, size_t n) {
    memcpy(s->at + s->n, from, n);
    s->n += n;
}

static void put_byte(struct bytes *s, size_t byte) {
    s->at[s->n++] = (uint8_t)byte;
}

static void put_count(struct bytes *s, size_t v) {
    for (; v >= 0x80; v >>= 7) put_byte(s, (v & 0x7f) | 0x80);
    put_byte(s, v);
}

static void put_field(struct bytes *s, size_t id, const struct bytes *data) {
    put_byte(s, id);
    put_count(s, data->n);
    put(s, data->at, data->n);
}

static void put_four(struct bytes *s, uint32_t v) {
    for (int shift = 24; shift >= 0; shift -= 8) put_byte(s, (v >> shift) & 0xff);
}

/* 8,192 strings "0000" to "8191", the zone "0000", aliases of it in chains of eight, a location in fields 6 and 7. */
static void make_largest(void) {
    static struct bytes data;
    char name[8];
    put(&largest, "\0\0\0\0", 4);
    put_count(&data, 8192);
    for (int i = 0; i < 8192; i++) {
        snprintf(name, sizeof name, "%04d", i);
        put_byte(&data, 4);
        put(&data, name, 4);
    }
    put_field(&largest, 0, &data);
    put(&largest, "\1\4\0\1\x30\0\2\2\1A", 10);
    data.n = 0;
    put_count(&data, 8191);
    for (size_t i = 1; i < 8192; i++) {
        put_count(&data, i);
        put_count(&data, i % 8 == 1 ? 0 : i - 1);
    }
    put_field(&largest, 3, &data);
    put(&largest, "\6\7\1\0\0\0\0\0\0\7\x8\1\0\0\2\0\0\0\0", 19);
}

static void put_record(int64_t instant, uint32_t shown) {
    put_four(&trace, (uint32_t)(instant >> 32));
    put_four(&trace, (uint32_t)instant);
    put_four(&trace, 0);
    put_four(&trace, 11);
    put_four(&trace, shown);
}

/* A file with the one zone Europe/Oslo, always as in winter; an older dictionary, and one whose keys are in no order; a trace of a listed instant and of one in the tail. */
static void make_others(void) {
    put(&fixed, "\0\0\0\0\0\x11\2\x0b" "Europe/Oslo\3" "CET\1\4\0\1\x32\1", 29);
    put(&older, "\xf2\xf1" "A\xfb" "Europe/Oslo\xf1" "B\xf1" "A", 19);
    put(&unordered, "\xf2\xf1" "B\xf1" "A\xf1" "A\xf1" "B", 9);
    put_four(&trace, 2);
    put_four(&trace, 16);
    put_four(&trace, 11);
    put_four(&trace, 56);
    put_record(0, 3600000);
    put_record(LATE, 7200000);
    put(&trace, "Europe/Oslo", 11);
}

static const struct bytes *file;
static struct nzd_answer answer;
/* Of the file. */
static struct nzd_zone zone;
static int64_t count;

#define ID(s) (const uint8_t *)(s), strlen(s)

static const char *zone_id(void) {
    return file == &largest ? "0000" : "Europe/Oslo";
}

static void ask(void) {
    nzd_ask(file->at, file->n, ID(zone_id()), LATE, false, false, &answer);
}
static void ask_plain(void) {
    nzd_ask_plain(file->at, file->n, ID("WET"), LATE, false, &answer);
}
static void ask_named(void) {
    nzd_ask_named(file->at, file->n, ID(file == &largest ? "8184" : "Zulu"), LATE, false, false, &answer);
}
static void ask_named_old(void) {
    nzd_ask_named_old(file->at, file->n, older.at, older.n, ID("B"), LATE, false, &answer);
}
static void old_read_dictionary(void) {
    struct nzd_value found;
    nzd_old_read_dictionary(unordered.at, unordered.n, &found);
}
static void old_write_dictionary(void) {
    uint64_t length;
    nzd_old_write_dictionary(2, unordered.at + 1, unordered.n - 1, out.at, MOST, &length);
}
static void map_local(void) {
    struct nzd_local local;
    nzd_map_local(file->at, file->n, ID(zone_id()), LATE, &local);
}
static void find_zone(void) {
    nzd_find_zone(file->at, file->n, ID(zone_id()), &zone);
}
static void ask_zone(void) {
    nzd_ask_zone(file->at, file->n, &zone, LATE, false, &answer);
}
static void list_answers(void) {
    nzd_list_answers(file->at, file->n, &zone, NZD_FIRST_INSTANT, false, numbers, 80000, &count);
}
static void ask_listed(void) {
    nzd_ask_listed(file->at, file->n, &zone, numbers, 7 * (size_t)count, 0, false, &answer);
}
/* Without a row: the question on the zone. */
static void ask_unlisted(void) {
    nzd_ask_listed(file->at, file->n, &zone, numbers, 0, LATE, false, &answer);
}
static void map_zone_local(void) {
    struct nzd_local local;
    nzd_map_zone_local(file->at, file->n, &zone, LATE, &local);
}
static void location(void) {
    struct nzd_pin pin;
    struct nzd_located found;
    nzd_location(file->at, file->n, 7, 0, &pin, &found);
}
static void version_text(void) {
    struct nzd_text text;
    nzd_version_text(file->at, file->n, &text);
}
static void normalize(void) {
    nzd_normalize(file->at, file->n, out.at, MOST);
}
static void close_pool(void) {
    nzd_close_pool(file->at, file->n, out.at, MOST);
}
static void difference(void) {
    if (file == &largest) nzd_difference(file->at, file->n, file->at, file->n, ID("0000"), 0, LATE, numbers, 80000, &count);
    else nzd_difference(file->at, file->n, fixed.at, fixed.n, ID("Europe/Oslo"), NZD_FIRST_INSTANT, NZD_LAST_INSTANT, numbers, 80000, &count);
}
static void replay(void) {
    nzd_replay(file->at, file->n, trace.at, trace.n, &count);
}
static void interval_starts(void) {
    nzd_interval_starts(file->at, file->n, ID(zone_id()), numbers, 4096, &count);
}
static void find_start(void) {
    struct nzd_search found;
    nzd_find_start(numbers, 4096, 0, &found);
}

static const struct {
    const char *name;
    void (*call)(void);
} calls[] = {
    {"nzd_ask", ask},
    {"nzd_ask_plain", ask_plain},
    {"nzd_ask_named", ask_named},
    {"nzd_ask_named_old", ask_named_old},
    {"nzd_old_read_dictionary", old_read_dictionary},
    {"nzd_old_write_dictionary", old_write_dictionary},
    {"nzd_map_local", map_local},
    {"nzd_find_zone", find_zone},
    {"nzd_ask_zone", ask_zone},
    {"nzd_list_answers", list_answers},
    {"nzd_ask_listed", ask_listed},
    {"nzd_ask_listed, without a row", ask_unlisted},
    {"nzd_map_zone_local", map_zone_local},
    {"nzd_location", location},
    {"nzd_version_text", version_text},
    {"nzd_normalize", normalize},
    {"nzd_close_pool", close_pool},
    {"nzd_difference", difference},
    {"nzd_replay", replay},
    {"nzd_interval_starts", interval_starts},
    {"nzd_find_start", find_start},
};

static void *run(void *call) {
    top = __builtin_frame_address(0);
    (*(void (**)(void))call)();
    return NULL;
}

/* The stack that a call takes, with what the thread's own function has. */
static size_t measure(void (*call)(void), int paint) {
    pthread_attr_t attributes;
    pthread_t thread;
    size_t at = 0;
    memset(stack, paint, STACK);
    if (pthread_attr_init(&attributes) || pthread_attr_setstack(&attributes, stack, STACK)) fail("no stack");
    if (pthread_create(&thread, &attributes, run, &call) || pthread_join(thread, NULL)) fail("no thread");
    while (stack[at] == paint) at++;
    return (size_t)(top - (stack + at));
}

int main(int argc, char **argv) {
    FILE *in = argc == 2 ? fopen(argv[1], "rb") : NULL;
    if (in == NULL) fail("takes a file");
    realistic.n = fread(realistic.at, 1, MOST, in);
    fclose(in);
    make_largest();
    make_others();
    if (nzd_normalize(largest.at, largest.n, NULL, 0) != NZD_OUTPUT_TOO_SHORT) fail("the largest file is not well formed");
    file = &realistic;
    ask_named_old();
    if (answer.name_length == 0) fail("the older dictionary leads nowhere");
    difference();
    if (count < 1000) fail("no difference");
    replay();
    if (count != -1) fail("the trace is wrong");
    printf("| Call | Stack, bytes | KB |\n|---|---:|---:|\n");
    for (size_t i = 0; i < sizeof calls / sizeof calls[0]; i++) {
        size_t most = 0;
        const struct bytes *files[] = {&realistic, &largest};
        for (size_t at = 0; at < 2; at++) {
            file = files[at];
            find_zone();
            /* With two paints, since a call may write the paint's own value. */
            for (int paint = 0x5a; paint <= 0xa5; paint += 0xa5 - 0x5a) {
                size_t taken = measure(calls[i].call, paint);
                if (taken > most) most = taken;
            }
        }
        printf("| `%s` | %zu | %zu |\n", calls[i].name, most, (most + 1023) / 1024);
    }
    return 0;
}
