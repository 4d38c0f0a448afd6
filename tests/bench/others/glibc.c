/* ROUNDS QUESTIONS ZONE...: asks the C library for the offsets of the zones in turn. Prints their sum in seconds, and the least time of a
   question in ns. */
#define _DEFAULT_SOURCE
#include <stdio.h>
#include <stdlib.h>
#include <time.h>

static long offset(const char *zone, time_t seconds) {
    struct tm tm;
    setenv("TZ", zone, 1);
    tzset();
    localtime_r(&seconds, &tm);
    return tm.tm_gmtoff;
}

static double now(void) {
    struct timespec t;
    clock_gettime(CLOCK_MONOTONIC, &t);
    return (double)t.tv_sec * 1e9 + (double)t.tv_nsec;
}

int main(int argc, char **argv) {
    if (argc < 4) return 1;
    int rounds = atoi(argv[1]), questions = atoi(argv[2]), zones = argc - 3;
    double least = 1e18;
    long sum = 0;
    for (int round = 0; round < rounds; round++) {
        double start = now();
        sum = 0;
        for (int i = 0; i < questions; i++) sum += offset(argv[3 + i % zones], (time_t)1700000 * i);
        double time = (now() - start) / questions;
        if (time < least) least = time;
    }
    printf("%ld %.1f\n", sum, least);
    return 0;
}
