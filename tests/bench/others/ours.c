/* FILE ask|zone|kept|listed ROUNDS QUESTIONS ZONE...: asks the library for the offsets of the zones in turn: each time anew, of zones that
   were found once, over tables of starts that are kept, or over tables of answers. Prints their sum in seconds, and the least time of a
   question in ns. */
#define _POSIX_C_SOURCE 200809L
#include <inttypes.h>
#include <nzd.h>
#include <stdio.h>
#include <stdlib.h>
#include <string.h>
#include <time.h>

#define MOST 4096

static uint8_t file[1 << 22];
static size_t n;

/* The intervals of a zone up to one that ends behind 2040: their starts and offsets. */
static const int64_t horizon = INT64_C(2208988800) * NZD_TICKS_PER_SECOND;
static struct kept {
    int64_t starts[MOST], offsets[MOST];
    size_t count;
} kept[16];

static struct nzd_zone found[16];

/* The answers of a found zone up to 2040 and some behind. */
#define ROWS 400
static int64_t rows[16][7 * ROWS];
static int64_t count[16];

static void fail(const char *what) {
    fprintf(stderr, "ours: %s\n", what);
    exit(1);
}

static struct nzd_answer ask(const char *zone, int64_t ticks) {
    struct nzd_answer out;
    uint64_t r = nzd_ask(file, n, (const uint8_t *)zone, strlen(zone), ticks, false, false, &out);
    if (r != NZD_ANSWERED) fail(nzd_words(nzd_number_of(r)));
    return out;
}

static void keep(const char *zone, struct kept *k) {
    for (int64_t ticks = NZD_FIRST_INSTANT; ticks < horizon && k->count < MOST; k->count++) {
        struct nzd_answer a = ask(zone, ticks);
        k->starts[k->count] = a.start;
        k->offsets[k->count] = a.wall_ms;
        ticks = a.end;
    }
}

static void find(const char *zone, struct nzd_zone *z) {
    uint64_t r = nzd_find_zone(file, n, (const uint8_t *)zone, strlen(zone), z);
    if (r != NZD_ANSWERED) fail(nzd_words(nzd_number_of(r)));
}

static int64_t of_kept(const char *zone, const struct kept *k, int64_t ticks) {
    struct nzd_search at;
    if (ticks >= horizon) return ask(zone, ticks).wall_ms;
    if (nzd_find_start(k->starts, k->count, ticks, &at) != NZD_ANSWERED) fail("no table");
    return k->offsets[at.entry];
}

static int64_t of_found(const struct nzd_zone *z, int64_t ticks) {
    struct nzd_answer out;
    if (nzd_ask_zone(file, n, z, ticks, false, &out) != NZD_ANSWERED) fail("no zone");
    return out.wall_ms;
}

static void list(const char *zone, int at) {
    find(zone, &found[at]);
    uint64_t r = nzd_list_answers(file, n, &found[at], NZD_FIRST_INSTANT, false, rows[at], 7 * ROWS, &count[at]);
    if (r != NZD_ANSWERED) fail(nzd_words(nzd_number_of(r)));
}

static int64_t of_listed(int at, int64_t ticks) {
    struct nzd_answer out;
    if (nzd_ask_listed(file, n, &found[at], rows[at], 7 * (size_t)count[at], ticks, false, &out) != NZD_ANSWERED) fail("no zone");
    return out.wall_ms;
}

static double now(void) {
    struct timespec t;
    clock_gettime(CLOCK_MONOTONIC, &t);
    return (double)t.tv_sec * 1e9 + (double)t.tv_nsec;
}

int main(int argc, char **argv) {
    if (argc < 6 || argc > 21) fail("takes FILE ask|zone|kept|listed ROUNDS QUESTIONS and up to 16 zones");
    FILE *in = fopen(argv[1], "rb");
    if (in == NULL) fail(argv[1]);
    n = fread(file, 1, sizeof file, in);
    fclose(in);
    char mode = argv[2][0];
    int rounds = atoi(argv[3]), questions = atoi(argv[4]), zones = argc - 5;
    char **zone = argv + 5;
    for (int i = 0; i < zones; i++) {
        if (mode == 'k') keep(zone[i], &kept[i]);
        if (mode == 'z') find(zone[i], &found[i]);
        if (mode == 'l') list(zone[i], i);
    }
    double least = 1e18;
    int64_t sum = 0;
    for (int round = 0; round < rounds; round++) {
        double start = now();
        sum = 0;
        for (int i = 0; i < questions; i++) {
            int at = i % zones;
            int64_t ticks = INT64_C(1700000) * i * NZD_TICKS_PER_SECOND;
            int64_t ms = mode == 'k'   ? of_kept(zone[at], &kept[at], ticks)
                         : mode == 'z' ? of_found(&found[at], ticks)
                         : mode == 'l' ? of_listed(at, ticks)
                                       : ask(zone[at], ticks).wall_ms;
            sum += ms / 1000;
        }
        double time = (now() - start) / questions;
        if (time < least) least = time;
    }
    printf("%" PRId64 " %.1f\n", sum, least);
    return 0;
}
