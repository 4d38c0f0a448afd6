/* Asks a file with one fixed zone, "UTC", for its offset at 1970-01-01T00:00Z; then what nzd.h says besides. */
#include <nzd.h>
#include <inttypes.h>
#include <stdio.h>
#include <string.h>

static const uint8_t file[] = {0, 0, 0, 0, 0, 5, 1, 3, 'U', 'T', 'C', 1, 4, 0, 1, 0x30, 0};

static int failures;

static void expect(int holds, const char *what) {
    if (!holds) {
        printf("not so: %s\n", what);
        failures++;
    }
}
#define EXPECT(x) expect(x, #x)

/* The structs are their numbers in a row. */
typedef char answer_is_seven_numbers[sizeof(struct nzd_answer) == 7 * sizeof(int64_t) ? 1 : -1];
typedef char local_is_three_numbers[sizeof(struct nzd_local) == 3 * sizeof(int64_t) ? 1 : -1];
typedef char text_is_two_numbers[sizeof(struct nzd_text) == 2 * sizeof(int64_t) ? 1 : -1];
typedef char value_is_two_numbers[sizeof(struct nzd_value) == 2 * sizeof(int64_t) ? 1 : -1];
typedef char receiver_is_three_numbers[sizeof(struct nzd_receiver) == 3 * sizeof(size_t) ? 1 : -1];
typedef char transition_is_three_numbers[sizeof(struct nzd_transition) == 3 * sizeof(int64_t) ? 1 : -1];

/* A pointer whose length is 0 may be null. The numbers are document 01's. */
static void no_bytes(void) {
    struct nzd_answer answer;
    struct nzd_local local;
    struct nzd_text text;
    struct nzd_value value;
    struct nzd_transition transition;
    struct nzd_receiver none = {0, 0, 0};
    EXPECT(nzd_ask(NULL, 0, NULL, 0, 0, true, false, &answer) == NZD_NOT_YET);
    EXPECT(nzd_ask(NULL, 0, NULL, 0, 0, false, false, &answer) == NZD_CUT_SHORT);
    EXPECT(nzd_ask_plain(NULL, 0, NULL, 0, 0, false, &answer) == NZD_NOT_YET);
    EXPECT(nzd_ask(file, sizeof file, NULL, 0, 0, false, false, &answer) == NZD_NOT_FOUND + 256 * 17);
    EXPECT(nzd_ask_plain(file, sizeof file, NULL, 0, 0, false, &answer) == NZD_NOT_YET + 256 * 17);
    EXPECT(nzd_ask_named(NULL, 0, NULL, 0, 0, true, false, &answer) == NZD_NOT_YET);
    EXPECT(nzd_ask_named(NULL, 0, NULL, 0, 0, false, false, &answer) == NZD_CUT_SHORT);
    EXPECT(nzd_ask_named(file, sizeof file, NULL, 0, 0, false, false, &answer) == NZD_NOT_FOUND + 256 * 17);
    EXPECT(nzd_map_local(NULL, 0, NULL, 0, 0, &local) == NZD_CUT_SHORT);
    EXPECT(nzd_map_local(file, sizeof file, NULL, 0, 0, &local) == NZD_NOT_FOUND + 256 * 17);
    EXPECT(nzd_version_text(NULL, 0, &text) == NZD_CUT_SHORT);
    EXPECT(nzd_normalize(NULL, 0, NULL, 0) == NZD_CUT_SHORT);
    EXPECT(nzd_normalize(file, sizeof file, NULL, 0) == NZD_OUTPUT_TOO_SHORT);
    EXPECT(nzd_receiver_add(&none, NULL, 0, NULL, 0) == NZD_ANSWERED);
    EXPECT(nzd_receiver_ask(none, NULL, 0, NULL, 0, 0, true, false, &answer) == NZD_NOT_YET);
    EXPECT(nzd_receiver_ask_plain(none, NULL, 0, NULL, 0, 0, false, &answer) == NZD_NOT_YET);
    EXPECT(nzd_receiver_map_local(none, NULL, 0, NULL, 0, 0, &local) == NZD_CUT_SHORT);
    EXPECT(nzd_receiver_version_text(none, NULL, 0, &text) == NZD_CUT_SHORT);
    EXPECT(nzd_receiver_normalize(none, NULL, 0, NULL, 0) == NZD_CUT_SHORT);
    EXPECT(nzd_read_count(NULL, 0, &value) == NZD_BAD_DATA);
    EXPECT(nzd_read_signed_count(NULL, 0, &value) == NZD_BAD_DATA);
    EXPECT(nzd_read_offset(NULL, 0, &value) == NZD_BAD_DATA);
    EXPECT(nzd_read_text(NULL, 0, &text) == NZD_BAD_DATA);
    EXPECT(nzd_read_transition(NULL, 0, 0, true, &transition) == NZD_BAD_DATA);
    EXPECT(nzd_write_count(0, NULL, 0) == NZD_OUTPUT_TOO_SHORT);
    EXPECT(nzd_write_signed_count(0, NULL, 0) == NZD_OUTPUT_TOO_SHORT);
    EXPECT(nzd_write_offset(0, NULL, 0) == NZD_OUTPUT_TOO_SHORT);
    EXPECT(nzd_write_text(NULL, 0, NULL, 0) == NZD_OUTPUT_TOO_SHORT);
    EXPECT(nzd_write_transition(NZD_KIND_INSTANT, 0, 0, true, NULL, 0) == NZD_OUTPUT_TOO_SHORT);
}

/* The members of the structs, by values of document 01. */
static void members(void) {
    static const uint8_t offset[] = {0x86, 0xf9}, hours[] = {0xb0, 0x27}, utc[] = {3, 'U', 'T', 'C'};
    struct nzd_answer answer;
    struct nzd_value value;
    struct nzd_text text;
    struct nzd_transition transition;
    EXPECT(nzd_ask_plain(file, sizeof file, (const uint8_t *)"UTC", 3, 0, false, &answer) == NZD_ANSWERED);
    EXPECT(answer.start == NZD_START_OF_TIME && answer.end == NZD_END_OF_TIME);
    /* "+05:45 is 86 F9" */
    EXPECT(nzd_read_offset(offset, 2, &value) == NZD_ANSWERED && value.value == 20700000 && value.length == 2);
    EXPECT(nzd_read_text(utc, 4, &text) == NZD_ANSWERED && text.place == 1 && text.length == 3);
    /* "5,040 hours is B0 27" */
    EXPECT(nzd_read_transition(hours, 2, 0, true, &transition) == NZD_ANSWERED);
    EXPECT(transition.kind == NZD_KIND_INSTANT && transition.ticks == 5040 * 3600 * NZD_TICKS_PER_SECOND);
    EXPECT(transition.length == 2);
    EXPECT(nzd_ask(file, sizeof file, NULL, 0, NZD_LAST_INSTANT, false, false, &answer) == NZD_NOT_FOUND + 256 * 17);
    EXPECT(nzd_ask_plain(file, sizeof file, NULL, 0, NZD_LAST_INSTANT + 1, false, &answer) == NZD_INSTANT_OUT_OF_RANGE);
    EXPECT(nzd_ask(file, sizeof file, NULL, 0, NZD_FIRST_INSTANT, false, false, &answer) == NZD_NOT_FOUND + 256 * 17);
    EXPECT(nzd_ask_plain(file, sizeof file, NULL, 0, NZD_FIRST_INSTANT - 1, false, &answer) == NZD_INSTANT_OUT_OF_RANGE);
}

/* The number and place of a named question, which leaves out as found where it is refused. */
static uint64_t named(const uint8_t *s, size_t n, const char *name, bool more) {
    struct nzd_answer out = {-1, -2, -3, -4, -5, -6, -7};
    uint64_t r = nzd_ask_named(s, n, (const uint8_t *)name, strlen(name), 0, more, false, &out);
    if (r == NZD_ANSWERED) EXPECT(out.wall_ms == 0 && out.name_place == 8 && out.name_length == 1);
    else EXPECT(out.wall_ms == -1 && out.name_length == -5 && out.end == -7);
    return r;
}

/* The name of a fixed zone "A" with the name "B": its ID under edition 1, by each function. */
static void editions(void) {
    static const uint8_t s[] = {0, 0, 0, 0, 0, 5, 2, 1, 'A', 1, 'B', 1, 4, 0, 1, 0x30, 1}, a[] = {'A'};
    struct nzd_receiver r = {sizeof s, 0, 0};
    int first;
    for (first = 0; first < 2; first++) {
        struct nzd_answer out[6];
        size_t i;
        EXPECT(nzd_ask(s, sizeof s, a, 1, 0, false, first, &out[0]) == NZD_ANSWERED);
        EXPECT(nzd_ask_plain(s, sizeof s, a, 1, 0, first, &out[1]) == NZD_ANSWERED);
        EXPECT(nzd_ask_named(s, sizeof s, a, 1, 0, false, first, &out[2]) == NZD_ANSWERED);
        EXPECT(nzd_receiver_ask(r, s, sizeof s, a, 1, 0, false, first, &out[3]) == NZD_ANSWERED);
        EXPECT(nzd_receiver_ask_plain(r, s, sizeof s, a, 1, 0, first, &out[4]) == NZD_ANSWERED);
        EXPECT(nzd_receiver_ask_named(r, s, sizeof s, a, 1, 0, false, first, &out[5]) == NZD_ANSWERED);
        for (i = 0; i < 6; i++) EXPECT(out[i].name_place == (first ? 8 : 10) && out[i].name_length == 1 && out[i].wall_ms == 0);
    }
}

/* A table of the answers of a zone "A" that goes from +01:00 to +00:00 at minute 100,000,000: rows are answers in a row, and a question over
   them is the one on the zone, in the table or not. */
static void tables(void) {
    static const uint8_t s[] = {0,    0, 0, 0, 0, 3,    1,    1,    'A',  1,    16,   0, 2,    2,
                                0, 0, 0x32, 0x32, 0x80, 0xc2, 0xd7, 0x2f, 0, 0x30, 0x30, 1, 0};
    static const int64_t change = INT64_C(6353376000000000);
    struct nzd_zone zone;
    struct nzd_answer rows[3], asked, listed;
    int64_t *numbers = &rows[0].wall_ms, count = -1;
    size_t room, i;
    EXPECT(nzd_find_zone(s, sizeof s, (const uint8_t *)"A", 1, &zone) == NZD_ANSWERED);
    for (room = 0; room <= 21; room++) {
        size_t most = room / 7 < 2 ? room / 7 : 2;
        uint64_t r;
        memset(rows, -1, sizeof rows);
        count = -1;
        r = nzd_list_answers(s, sizeof s, &zone, NZD_FIRST_INSTANT, false, numbers, room, &count);
        EXPECT(r == (most == 0 ? NZD_OUTPUT_TOO_SHORT : NZD_ANSWERED));
        EXPECT(count == (most == 0 ? -1 : (int64_t)most));
        for (i = 7 * most; i < 21; i++) EXPECT(numbers[i] == -1);
        if (most > 0) EXPECT(rows[0].wall_ms == 3600000 && rows[0].start == NZD_START_OF_TIME && rows[0].end == change);
        if (most > 1) EXPECT(rows[1].wall_ms == 0 && rows[1].start == change && rows[1].end == NZD_END_OF_TIME);
        for (i = 0; i < 4; i++) {
            int64_t ticks = i == 0 ? NZD_FIRST_INSTANT : i == 1 ? change - 1 : i == 2 ? change : NZD_LAST_INSTANT;
            EXPECT(nzd_ask_zone(s, sizeof s, &zone, ticks, false, &asked) == NZD_ANSWERED);
            EXPECT(nzd_ask_listed(s, sizeof s, &zone, numbers, 7 * most, ticks, false, &listed) == NZD_ANSWERED);
            EXPECT(memcmp(&asked, &listed, sizeof asked) == 0);
        }
    }
    EXPECT(nzd_list_answers(s, sizeof s, &zone, NZD_LAST_INSTANT + 1, false, NULL, 0, &count) == NZD_INSTANT_OUT_OF_RANGE);
    EXPECT(nzd_ask_listed(s, sizeof s, &zone, numbers, 14, NZD_LAST_INSTANT + 1, false, &listed) == NZD_INSTANT_OUT_OF_RANGE);
    /* A row whose name leaves the file is not given. */
    rows[1].name_place = (int64_t)sizeof s;
    EXPECT(nzd_ask_listed(s, sizeof s, &zone, numbers, 14, change, false, &listed) == NZD_ANSWERED);
    EXPECT(listed.name_place == 8 && listed.name_length == 1);
}

/* Names, in files with strings "A" and "B" and a zone "A": "B" leads to "A", to itself, stands twice, and has not come. */
static void names(void) {
    static const uint8_t alias[] = {0, 0, 0, 0, 0, 5, 2, 1, 'A', 1, 'B', 1, 3, 0, 1, 0x30, 3, 3, 1, 1, 0};
    static const uint8_t circle[] = {0, 0, 0, 0, 0, 5, 2, 1, 'A', 1, 'B', 1, 3, 0, 1, 0x30, 3, 3, 1, 1, 1};
    static const uint8_t twice[] = {0, 0, 0, 0, 0, 5, 2, 1, 'A', 1, 'B', 1, 3, 0, 1, 0x30, 3, 5, 2, 1, 0, 1, 0};
    EXPECT(named(alias, sizeof alias, "B", true) == NZD_ANSWERED);
    EXPECT(named(alias, sizeof alias, "A", true) == NZD_ANSWERED);
    EXPECT(named(alias, 16, "A", true) == NZD_ANSWERED);
    EXPECT(named(alias, sizeof alias, "C", true) == NZD_NOT_FOUND + 256 * 16);
    EXPECT(named(alias, sizeof alias - 1, "B", true) == NZD_NOT_YET + 256 * 16);
    EXPECT(named(alias, sizeof alias - 1, "B", false) == NZD_CUT_SHORT + 256 * 16);
    EXPECT(named(circle, sizeof circle, "B", true) == NZD_TOO_MANY_STEPS + 256 * 16);
    EXPECT(named(twice, sizeof twice, "B", true) == NZD_SECOND_ALIAS + 256 * 16);
    EXPECT(nzd_normalize(circle, sizeof circle, NULL, 0) == NZD_OUTPUT_TOO_SHORT);
    EXPECT(nzd_normalize(twice, sizeof twice, NULL, 0) == NZD_SECOND_ALIAS + 256 * 16);
}

/* Check and preferred form in one: the check's refusal whatever the room, then 15, then the file; out is written on 0 only. */
static void normalizes(void) {
    static const uint8_t good[] = {0, 0, 0, 0, 0, 3, 1, 1, 'A'}, bad[] = {0, 0, 0, 0, 0, 3, 1, 1, 'A', 1, 2, 0, 3};
    uint8_t out[10];
    memset(out, 0xaa, sizeof out);
    EXPECT(nzd_normalize(bad, sizeof bad, NULL, 0) == NZD_BAD_DATA + 256 * 9);
    EXPECT(nzd_normalize(good, sizeof good, NULL, 0) == NZD_OUTPUT_TOO_SHORT);
    EXPECT(nzd_normalize(good, sizeof good, out, 8) == NZD_OUTPUT_TOO_SHORT);
    EXPECT(nzd_normalize(bad, sizeof bad, out, sizeof out) == NZD_BAD_DATA + 256 * 9);
    EXPECT(out[0] == 0xaa && out[7] == 0xaa);
    EXPECT(nzd_normalize(good, sizeof good, out, 9) == 256 * 9 && memcmp(out, good, 9) == 0 && out[9] == 0xaa);
}

/* Whether these are the instants of a local time in the zone "A". */
static int reads(const uint8_t *s, size_t n, int64_t local, int64_t count, int64_t earliest, int64_t latest) {
    struct nzd_local out;
    return nzd_map_local(s, n, (const uint8_t *)"A", 1, local, &out) == NZD_ANSWERED && out.count == count &&
           out.earliest == earliest && out.latest == latest;
}

/* The number and place of a local time's refusal, which leaves out as found. */
static uint64_t refused(const uint8_t *s, size_t n, const char *id, int64_t local) {
    struct nzd_local out = {-1, -2, -3};
    uint64_t r = nzd_map_local(s, n, (const uint8_t *)id, strlen(id), local, &out);
    EXPECT(out.count == -1 && out.earliest == -2 && out.latest == -3);
    return r;
}

/* Local times, in zones with the ID "A": +01:00 and -01:00; +01:00 to +00:00 at minute 100,000,000 of document 01's
   count from 1800; and +02:00 to +01:00 to +00:00, 90 and 30 minutes before that. */
static void local_times(void) {
    static const uint8_t ahead[] = {0, 0, 0, 0, 0, 3, 1, 1, 'A', 1, 3, 0, 1, 0x32};
    static const uint8_t behind[] = {0, 0, 0, 0, 0, 3, 1, 1, 'A', 1, 3, 0, 1, 0x2e};
    static const uint8_t back[] = {0, 0, 0,    0,    0,    3,    1,    1, 'A',  1,    16, 0, 2, 2,
                                   0, 0, 0x32, 0x32, 0x80, 0xc2, 0xd7, 0x2f, 0, 0x30, 0x30, 1, 0};
    static const uint8_t twice[] = {0,    0,    0,    0,    0, 3,    1,    1,    'A',  1,    23, 0,    2,    3, 0, 0, 0x34,
                                    0x34, 0xa6, 0xc1, 0xd7, 0x2f, 0, 0x32, 0x32, 0xe2, 0xc1, 0xd7, 0x2f, 0, 0x30, 0x30, 1, 0};
    const int64_t hour = 3600 * NZD_TICKS_PER_SECOND, change = INT64_C(6353376000000000);
    /* "No local time is refused for its size": the instants must be in range, first and last tick included. */
    EXPECT(reads(ahead, sizeof ahead, NZD_LAST_INSTANT + hour, 1, NZD_LAST_INSTANT, NZD_LAST_INSTANT));
    EXPECT(reads(behind, sizeof behind, NZD_FIRST_INSTANT - hour, 1, NZD_FIRST_INSTANT, NZD_FIRST_INSTANT));
    EXPECT(refused(ahead, sizeof ahead, "A", NZD_LAST_INSTANT + hour + 1) == NZD_NO_INSTANT);
    EXPECT(refused(ahead, sizeof ahead, "A", NZD_FIRST_INSTANT) == NZD_NO_INSTANT);
    EXPECT(refused(ahead, sizeof ahead, "A", INT64_MIN) == NZD_NO_INSTANT);
    EXPECT(refused(behind, sizeof behind, "A", INT64_MAX) == NZD_NO_INSTANT);
    /* Clocks went back: the change itself belongs to the new offset. */
    EXPECT(reads(back, sizeof back, change, 2, change - hour, change));
    EXPECT(reads(back, sizeof back, change + hour - 1, 2, change - 1, change + hour - 1));
    EXPECT(reads(back, sizeof back, change + hour, 1, change + hour, change + hour));
    EXPECT(reads(twice, sizeof twice, change, 3, change - 2 * hour, change));
    /* The refusals of "this is all" come first. */
    EXPECT(refused(ahead, sizeof ahead, "B", INT64_MIN) == NZD_NOT_FOUND + 256 * 14);
    EXPECT(refused(ahead, sizeof ahead - 1, "A", 0) == NZD_CUT_SHORT + 256 * 9);
}

static int stands(struct nzd_receiver r, size_t held, size_t place) {
    return r.held == held && r.place == place;
}

/* A file in pieces: byte by byte, one that does not fit, a walk that stops, and a receiver that holds more than the
   buffer. */
static void receiver(void) {
    static const uint8_t utc[] = {'U', 'T', 'C'}, zeros[3], fall[] = {0, 0, 0, 0, 0, 1, 0, 9, 0, 8, 0, 255, 0};
    struct nzd_receiver r = {7, 7, 7}, over = {4, 4, 0};
    struct nzd_answer answer;
    struct nzd_local local;
    struct nzd_text text;
    uint8_t buffer[sizeof file + 2], out[sizeof file];
    size_t i;
    memset(buffer, 0xaa, sizeof buffer);
    nzd_receiver_reset(&r);
    EXPECT(stands(r, 0, 0));
    for (i = 0; i < sizeof file; i++) {
        EXPECT(nzd_receiver_ask(r, buffer, sizeof buffer, utc, 3, 0, true, false, &answer) % 256 == NZD_NOT_YET);
        EXPECT(nzd_receiver_add(&r, buffer, sizeof buffer, file + i, 1) == NZD_ANSWERED);
        EXPECT(stands(r, i + 1, i + 1 < 4 ? 0 : i + 1 < 11 && i + 1 > 4 ? 4 : i + 1 > 11 && i + 1 < 17 ? 11 : i + 1));
    }
    EXPECT(nzd_receiver_add(&r, buffer, sizeof buffer, zeros, 3) == NZD_OUTPUT_TOO_SHORT);
    EXPECT(stands(r, 17, 17) && memcmp(buffer, file, sizeof file) == 0 && buffer[17] == 0xaa && buffer[18] == 0xaa);
    EXPECT(nzd_receiver_ask(r, buffer, sizeof buffer, utc, 3, 0, false, false, &answer) == NZD_ANSWERED);
    EXPECT(answer.wall_ms == 0 && memcmp(buffer + answer.name_place, utc, 3) == 0 && answer.name_length == 3);
    EXPECT(nzd_receiver_ask_plain(r, buffer, sizeof buffer, utc, 3, 0, false, &answer) == NZD_ANSWERED);
    EXPECT(nzd_receiver_map_local(r, buffer, sizeof buffer, utc, 3, 5, &local) == NZD_ANSWERED && local.earliest == 5);
    EXPECT(nzd_receiver_normalize(r, buffer, sizeof buffer, NULL, 0) == NZD_OUTPUT_TOO_SHORT);
    EXPECT(nzd_receiver_version_text(r, buffer, sizeof buffer, &text) == NZD_NOT_FOUND + 256 * 17);
    EXPECT(nzd_receiver_normalize(r, buffer, sizeof buffer, out, sizeof out) == 256 * 17 && memcmp(out, file, 17) == 0);
    EXPECT(nzd_receiver_add(&r, buffer, sizeof buffer, zeros, 2) == NZD_ANSWERED && stands(r, 19, 17));
    nzd_receiver_reset(&r);
    EXPECT(stands(r, 0, 0) && memcmp(buffer, file, sizeof file) == 0);
    /* A field 8 behind a field 9 stops the walk for good. */
    for (i = 0; i < sizeof fall; i++) EXPECT(nzd_receiver_add(&r, buffer, sizeof buffer, fall + i, 1) == NZD_ANSWERED);
    EXPECT(stands(r, 13, 9));
    /* 15 comes before 14. */
    EXPECT(nzd_receiver_ask(over, buffer, 3, utc, 3, NZD_LAST_INSTANT + 1, true, false, &answer) == NZD_OUTPUT_TOO_SHORT);
    EXPECT(nzd_receiver_ask_plain(over, buffer, 3, utc, 3, NZD_LAST_INSTANT + 1, false, &answer) == NZD_OUTPUT_TOO_SHORT);
    EXPECT(nzd_receiver_map_local(over, buffer, 3, utc, 3, 0, &local) == NZD_OUTPUT_TOO_SHORT);
    EXPECT(nzd_receiver_version_text(over, buffer, 3, &text) == NZD_OUTPUT_TOO_SHORT);
    EXPECT(nzd_receiver_normalize(over, buffer, 3, out, sizeof out) == NZD_OUTPUT_TOO_SHORT);
    EXPECT(nzd_receiver_add(&over, buffer, 3, NULL, 0) == NZD_OUTPUT_TOO_SHORT && stands(over, 4, 4));
}

/* Every number has words of its own. */
static void words(void) {
    unsigned a, b;
    for (a = 0; a <= 19; a++) {
        for (b = 0; b < a; b++) EXPECT(strcmp(nzd_words(a), nzd_words(b)) != 0);
    }
    EXPECT(nzd_words(16) == nzd_words(255));
}

int main(void) {
    struct nzd_answer out;
    uint64_t r = nzd_ask(file, sizeof file, (const uint8_t *)"UTC", 3, 0, false, false, &out);
    if (nzd_number_of(r) != NZD_ANSWERED) {
        printf("%s: number %u, place %zu\n", nzd_words(nzd_number_of(r)), nzd_number_of(r), nzd_place_of(r));
        return 1;
    }
    no_bytes();
    members();
    names();
    normalizes();
    editions();
    tables();
    local_times();
    receiver();
    words();
    if (failures) return 1;
    printf("0 %" PRId64 " %" PRId64 " %" PRId64 " %.*s\n", out.wall_ms, out.savings_ms, out.standard_ms,
           (int)out.name_length, (const char *)file + out.name_place);
    return 0;
}
