/*
 * nzd.h - reading and rewriting Noda Time's zone files (NodaZoneData, .nzd).
 *
 * Link with libnzd.a, for x86-64 Linux. `./install PREFIX` makes it and puts it, this header and nzd.pc under PREFIX.
 *
 * Results. Every function gives a result r: nzd_number_of(r) is a number of enum nzd_number, and nzd_place_of(r) the
 * place of a refusal (a number other than 0): the place in the file of the faulty field's ID byte, or the bytes' end
 * where no field has begun; 0 for 3, 14, 15, 17 and 21, for a version that is cut, for an empty table, for a closed file
 * that is too large, and for every refusal of a small code. On 0, nzd_length_of(r) is the length where a length is said
 * below, else 0. Later versions may give further numbers.
 *
 * Output. Output is written on 0 only, and no further than said; all other lent memory stays as found.
 *
 * Instants are ticks of 100 ns since 1970-01-01T00:00Z, from NZD_FIRST_INSTANT (year 1) to NZD_LAST_INSTANT (end of
 * 9999). Offsets and savings are milliseconds. A local time is what clocks of a zone show, as ticks since
 * 1970-01-01T00:00 on the same clocks.
 *
 * Texts (zone IDs, names, the version text) are UTF-8 and not NUL-terminated: each is a place and a length. A place
 * counts from the pointer that was lent.
 *
 * Memory. A pointer and the length behind it name that many readable (out: writable) bytes, or numbers where it points to
 * int64_t. Where the length is 0 the pointer is not followed and may be null. A pointer to a struct, or to one number, is
 * never null. out, rows that are written, count and record overlap nothing else that is lent.
 * No function keeps a pointer, allocates, or has state, so any number of threads may call them. A receiver's state is
 * yours.
 *
 * Stack, measured (tests/bench/stack/run) on the archive of an older toolchain, rattle-kit-5b-plain, and not proved: up
 * to 323 KB for nzd_close_pool, 141 KB for nzd_replay, 82 KB for nzd_ask_named_old, nzd_old_read_dictionary and
 * nzd_old_write_dictionary, 75 KB for nzd_normalize, 68 KB for nzd_version_text, nzd_location and nzd_difference, 58 KB
 * for nzd_ask_named, 35 KB for nzd_map_local, nzd_ask, nzd_ask_plain, nzd_find_zone, nzd_list_answers and
 * nzd_interval_starts, as much for the same of a receiver, 2 KB for nzd_ask_zone, nzd_ask_listed and nzd_map_zone_local,
 * below 1 KB for nzd_find_start, nzd_receiver_add and a small code.
 */
#ifndef NZD_H
#define NZD_H

#include <stdbool.h>
#include <stddef.h>
#include <stdint.h>

#define NZD_VERSION_MAJOR 0
#define NZD_VERSION_MINOR 2
#define NZD_VERSION_PATCH 0
#define NZD_VERSION "0.2.0"

#ifdef __cplusplus
extern "C" {
#endif

enum nzd_number {
    NZD_ANSWERED = 0,
    NZD_NOT_YET = 1,              /* more may come, and the asked zone has not been seen whole */
    NZD_CUT_SHORT = 2,            /* this is all, and the bytes end in the version or in a field */
    NZD_WRONG_VERSION = 3,        /* the version is not 0 */
    NZD_TOO_LARGE = 4,            /* a field that ends past 4,194,304, in a closed file too; more than 8,192 pool strings,
                                     1,024 bytes a string or 4,096 intervals a zone */
    NZD_FIELD_ORDER = 5,          /* a field ID is lower than the one before, or 0 or 2 to 7 stands a second time */
    NZD_FIRST_FIELD = 6,          /* the first field is not ID 0, or a whole-file check finds no field */
    NZD_BAD_CODE = 7,             /* a count, size, offset or transition code that is not allowed; a value without a
                                     code */
    NZD_BAD_TEXT = 8,             /* a string is not UTF-8, or a pool number is not below the pool's count */
    NZD_BAD_DATA = 9,             /* unknown zone or tail flag, data ending early, or data left over */
    NZD_BAD_INTERVAL = 10,        /* interval count 0, a start or end that is not allowed, or a standard offset of 24
                                     hours or more either way */
    NZD_BAD_RECURRENCE = 11,      /* a recurrence or a tail sum is out of its ranges */
    NZD_NOT_FOUND = 12,           /* no such zone, no zone or alias of an alias' target, no version text, no such
                                     location, or no entry in a table */
    NZD_SECOND_ZONE = 13,         /* a second zone with the same ID (never given by a question) */
    NZD_INSTANT_OUT_OF_RANGE = 14,/* the asked instant is outside years 1 to 9999 */
    NZD_OUTPUT_TOO_SHORT = 15,    /* the output, a list or a table among them, or the buffer of a receiver */
    NZD_NO_INSTANT = 17,          /* no instant reads as the local time, as where clocks went forward over it */
    NZD_TOO_MANY_STEPS = 18,      /* the eighth target of an alias is again only an alias */
    NZD_SECOND_ALIAS = 19,        /* a second alias with the same bytes in field 3, or a second key in a dictionary */
    NZD_BAD_LOCATION = 20,        /* a location's latitude or longitude is out of its range, or its number of countries
                                     is negative */
    NZD_BAD_TRACE = 21,           /* a part of the trace leaves it, or a record's name leaves the names */
    NZD_UNREAD_FIELD = 22         /* closing up the pool of a file with a field 4, 5 or above 7 */
};

/* The number of a result. */
static inline unsigned nzd_number_of(uint64_t r) {
    return (unsigned)(r % 256);
}

/* The place of a refusal. */
static inline size_t nzd_place_of(uint64_t r) {
    return (size_t)(r / 256);
}

/* The length that an answer of a writer carries. */
static inline size_t nzd_length_of(uint64_t r) {
    return (size_t)(r / 256);
}

/* A number in words, for people. */
static inline const char *nzd_words(unsigned number) {
    switch (number) {
    case NZD_ANSWERED: return "answered";
    case NZD_NOT_YET: return "not yet: more bytes are needed";
    case NZD_CUT_SHORT: return "cut short";
    case NZD_WRONG_VERSION: return "the version is not 0";
    case NZD_TOO_LARGE: return "a largest size is passed";
    case NZD_FIELD_ORDER: return "a field is out of order or stands twice";
    case NZD_FIRST_FIELD: return "the first field is not the string pool";
    case NZD_BAD_CODE: return "a count, offset or transition code is not allowed";
    case NZD_BAD_TEXT: return "a string is not UTF-8, or a pool number is too high";
    case NZD_BAD_DATA: return "an unknown flag, or data that ends early or is left over";
    case NZD_BAD_INTERVAL: return "an interval count, start, end or standard offset is not allowed";
    case NZD_BAD_RECURRENCE: return "a recurrence or tail sum is out of range";
    case NZD_NOT_FOUND: return "no such zone, version text or location, or an empty table";
    case NZD_SECOND_ZONE: return "a second zone has the same ID";
    case NZD_INSTANT_OUT_OF_RANGE: return "the instant is outside years 1 to 9999";
    case NZD_OUTPUT_TOO_SHORT: return "the output, or the buffer of a receiver, is too short";
    case NZD_NO_INSTANT: return "no instant reads as that local time";
    case NZD_TOO_MANY_STEPS: return "an alias leads over more than eight others, or in a circle";
    case NZD_SECOND_ALIAS: return "a second alias has the same name";
    case NZD_BAD_LOCATION: return "a location is out of its ranges";
    case NZD_BAD_TRACE: return "a part of the trace leaves it, or a name leaves the names";
    case NZD_UNREAD_FIELD: return "a field that is not read stands in the way of closing up the pool";
    default: return "a number that this header does not know";
    }
}

#define NZD_TICKS_PER_SECOND INT64_C(10000000)
#define NZD_FIRST_INSTANT INT64_C(-621355968000000000)
#define NZD_LAST_INSTANT INT64_C(2534023007999999999)
/* An interval's start that is start of time, and an end that is end of time. */
#define NZD_START_OF_TIME INT64_MIN
#define NZD_END_OF_TIME INT64_MAX

/* The interval of a zone that holds an instant. It holds its start and not its end. */
struct nzd_answer {
    int64_t wall_ms;     /* what to add to UTC for the time on the wall */
    int64_t savings_ms;  /* how much of that is daylight saving */
    int64_t standard_ms; /* the standard offset: wall_ms minus savings_ms, inside 24 hours either way */
    int64_t name_place;  /* the name in force, as "CEST", or a fixed zone's ID where it has no name, and under edition 1
                            always: its place in file, */
    int64_t name_length; /* and how many bytes it has */
    int64_t start;       /* ticks, or NZD_START_OF_TIME */
    int64_t end;         /* ticks, or NZD_END_OF_TIME */
};

/*
 * Asks for the interval of a zone that holds an instant. id is the zone's ID, any bytes. more says that more bytes of
 * the file may come: what is then given, save 1, stays as it is whatever bytes follow. Without more the bytes are all
 * there is. first_edition says that the name is given as Noda Time 1.x shows it, which ignores a fixed zone's name and
 * shows its ID; without it, as 2.x does. All else is the same under both, refusals included.
 */
uint64_t nzd_ask(const uint8_t *file, size_t n, const uint8_t *id, size_t id_n, int64_t ticks, bool more,
                 bool first_edition, struct nzd_answer *out);

/* The same with more: the plain question expects more. Of a file that is all there, call nzd_ask without more. */
uint64_t nzd_ask_plain(const uint8_t *file, size_t n, const uint8_t *id, size_t id_n, int64_t ticks,
                       bool first_edition, struct nzd_answer *out);

/*
 * Asks by name: the zone with the ID name or, where no zone has it, the zone that the alias name leads to in the alias
 * dictionary, field 3. An alias may lead to an alias, over eight targets at most; a zone's ID wins over the same bytes as
 * an alias. A zone ID is answered at its zone, as by nzd_ask, without fields 2 and 3; for any other name both are
 * checked, and the answer is that of the zone itself. With more a name that no zone has is 1 until field 3 is whole or
 * an ID above 3 has begun; what is then given stays as it is, 12 and 18 included. Other refusals are those of nzd_ask;
 * the place of 18, 19 and of a 12 found in field 3 is that field's ID byte.
 */
uint64_t nzd_ask_named(const uint8_t *file, size_t n, const uint8_t *name, size_t name_n, int64_t ticks, bool more,
                       bool first_edition, struct nzd_answer *out);

/*
 * Asks by name over a dictionary of the older edition (the resource data of Noda Time 1.0), lent whole, in the place of
 * field 3 of a whole file. After 14 the file is checked, all of it, its own field 3 too, which is then not used. A zone ID
 * is answered without a look at the dictionary; for any other name all of that is checked, and then the name is looked up in it
 * as by nzd_ask_named. Places in it are 0: those of its faults, of 12 and of 18. What follows it is ignored.
 */
uint64_t nzd_ask_named_old(const uint8_t *file, size_t n, const uint8_t *older, size_t older_n, const uint8_t *name,
                           size_t name_n, int64_t ticks, bool first_edition, struct nzd_answer *out);

/* A zone found once, for repeated questions: plain numbers that you keep as long as the file's bytes stay as they are. */
struct nzd_zone {
    uint64_t pool;  /* where the data of field 0, which have the names, start in file, */
    uint64_t past;  /* and where they end */
    uint64_t start; /* where the data of the zone start in file, */
    uint64_t end;   /* and where they end */
    uint64_t place; /* of the zone's ID byte */
};

/*
 * Finds a zone of a file that is all there. id is the zone's ID, any bytes. The refusals are those of nzd_ask without more, 14
 * aside, so a zone that is found is well formed, and so is all before it.
 */
uint64_t nzd_find_zone(const uint8_t *file, size_t n, const uint8_t *id, size_t id_n, struct nzd_zone *out);

/*
 * Asks a found zone: on the bytes that it was found in it gives what nzd_ask without more gives, at every instant, and reads that
 * zone alone, not those before it. With any other bytes and any numbers it is still safe, and name_place and name_length are still
 * a part of file: 14 comes first, then a fault of the zone that the numbers name, whose data are checked with the pool's count, at
 * zone->place, or at 0 if that is past 4,194,304. Data that don't lie in file count as none. The pool is not checked, so on other
 * bytes a name may not be UTF-8, and is empty where the pool ends before it.
 */
uint64_t nzd_ask_zone(const uint8_t *file, size_t n, const struct nzd_zone *zone, int64_t ticks, bool first_edition,
                      struct nzd_answer *out);

/*
 * For repeated questions whose time doesn't grow with the zone's list: puts the answers of a found zone one after the other, from the
 * interval that holds ticks on, listed ones and those of the yearly rules. A row is the seven numbers of an nzd_answer in their
 * order, so rows, of rows_n numbers, has room for rows_n / 7. *count gets how many rows there are: as many as there is room for, or up
 * to the interval that ends with NZD_END_OF_TIME; each starts where the one before ends. Numbers behind the last row stay as found.
 * The refusals of nzd_ask_zone come first, then 15 if there is no room for one row. 32 rows are 1,792 bytes; a zone with yearly rules
 * has two a year, from its listed ones to the end of 9999.
 */
uint64_t nzd_list_answers(const uint8_t *file, size_t n, const struct nzd_zone *zone, int64_t ticks, bool first_edition,
                          int64_t *rows, size_t rows_n, int64_t *count);

/*
 * Asks a found zone over the rows that nzd_list_answers put, rows_n being 7 * *count: on the same file, zone and edition it gives what
 * nzd_ask_zone gives, at every instant. A row that holds the instant is found by halving, without a look at the file; for an instant
 * outside the rows it is nzd_ask_zone. With any other numbers in rows it is still safe, and name_place and name_length are still a part
 * of file: 14 comes first; then the rows are halved by their starts, and the row left is given, with 0 for a place or a length below
 * 0, if it holds the instant and its name is a part of file; else it is nzd_ask_zone.
 */
uint64_t nzd_ask_listed(const uint8_t *file, size_t n, const struct nzd_zone *zone, const int64_t *rows, size_t rows_n,
                        int64_t ticks, bool first_edition, struct nzd_answer *out);

/* The instants at which clocks of a zone show a local time. */
struct nzd_local {
    int64_t count;    /* how many, at least 1: 2 where clocks went back over it; more only between short intervals */
    int64_t earliest; /* the first of them, in ticks */
    int64_t latest;   /* the last of them, in ticks; of one, the same */
};

/*
 * Asks which instants read as a local time: those that, with the zone's wall offset at them added, are local. id is the
 * zone's ID, any bytes; local is any number. The bytes are all there is, and what follows the zone is not looked at. The
 * refusals of nzd_ask without more come first, 14 aside; then 17 if there is no such instant from year 1 to the end of
 * 9999.
 */
uint64_t nzd_map_local(const uint8_t *file, size_t n, const uint8_t *id, size_t id_n, int64_t local,
                       struct nzd_local *out);

/*
 * The same of a found zone: on the bytes that it was found in it gives what nzd_map_local gives, at every local time, and reads
 * that zone alone. With any other bytes and any numbers it is still safe: a fault of the zone that the numbers name comes first,
 * as from nzd_ask_zone, then 17 if there is no such instant of that zone.
 */
uint64_t nzd_map_zone_local(const uint8_t *file, size_t n, const struct nzd_zone *zone, int64_t local, struct nzd_local *out);

/* A place on the map, in degrees north and east: whole seconds divided by 3600, rounded once. */
struct nzd_pin {
    double latitude;
    double longitude;
};

/* The countries of a location that are still to come, in the file that it was asked of. Any numbers are safe. */
struct nzd_view {
    uint64_t start; /* where the data of the location's field start in file, */
    uint64_t end;   /* and where they end */
    uint64_t place; /* of the next country in these data */
    uint64_t left;  /* how many countries are left */
};

struct nzd_located {
    uint64_t zone_place;     /* the zone's ID: its place in file, */
    uint64_t zone_length;    /* and how many bytes it has */
    uint64_t comment_place;  /* the comment, which may be empty */
    uint64_t comment_length;
    struct nzd_view view;
};

/*
 * The location with a number, from 0, in field 6 (one country each, from zone.tab) or 7 (any number of countries, from
 * zone1970.tab) of a whole file. The file is checked first, all of it; then 12 at the field's ID byte if it has no location
 * with that number, or at the bytes' end if there is no such field.
 */
uint64_t nzd_location(const uint8_t *file, size_t n, uint64_t field, uint64_t number, struct nzd_pin *pin,
                      struct nzd_located *out);

struct nzd_country {
    uint64_t name_place; /* the country's name: its place in file, */
    uint64_t name_length;
    uint64_t code_place; /* and its code, as "NO" */
    uint64_t code_length;
};

/*
 * The next country of a view, and moves the view on: each once, in file order. false, and nothing written, where there is no
 * more, then and from then on. file is what the view's location was asked of; with any other bytes and any view the texts are
 * still parts of file.
 */
bool nzd_next_country(const uint8_t *file, size_t n, struct nzd_view *view, struct nzd_country *out);

/* A text: a part of the bytes that were lent. */
struct nzd_text {
    int64_t place;
    int64_t length;
};

/* The tzdb version text of a well-formed file. */
uint64_t nzd_version_text(const uint8_t *file, size_t n, struct nzd_text *out);

/*
 * Checks a whole file, and writes its preferred form to the front of out: its transitions and its fields' sizes are in
 * their shortest form, whatever zero groups stood behind a size. nzd_length_of(r) is its length, which is at most n. The
 * first fault of the file and its place come first, whatever out_n; then 15 if out is shorter than the preferred form. So
 * with an out_n of 0 it is the check alone: 15 says that the file is well formed.
 */
uint64_t nzd_normalize(const uint8_t *file, size_t n, uint8_t *out, size_t out_n);

/*
 * Checks a whole file, and writes it with its pool closed up to the front of out: pool strings that no field mentions are
 * dropped, the most mentioned stand first, ties in their old order, and every mention has the new number. The fields' sizes
 * are in their shortest form; all else is copied. Every question answers as before, places aside. nzd_length_of(r) is the
 * length of the closed file, which can be more than n: the mentions of one field may take more bytes than before, and its
 * size then too. The first fault of the file and its place come first, whatever out_n; then 22 at the ID byte of the first
 * field 4, 5 or above 7, since what that mentions is not known; then 4 at place 0 if the closed file would be longer than
 * 4,194,304 bytes; then 15 if out is shorter than it.
 */
uint64_t nzd_close_pool(const uint8_t *file, size_t n, uint8_t *out, size_t out_n);

/*
 * Lists the stretches of the instants from first to before last at which two files differ in a zone: in wall offset,
 * savings or the bytes of the name, as nzd_ask without more and first_edition gives them. id is the zone's ID, any bytes. A
 * stretch can't be made longer: it goes on where what differs changes. Each is two numbers of out, its first instant and its
 * end, which is not in it, in time order, and *count gets how many stretches there are. So out, of out_n numbers, has room for
 * out_n / 2 stretches; numbers behind the last stretch stay as found. The bytes of both files are all there is, and what
 * follows the zone is not looked at. 14 comes before all else, if first or last is out of range; then the refusals of that
 * nzd_ask on file, then on other, and the result doesn't tell which; then 15 exactly if out is too short. Where last is not
 * after first there is no stretch.
 */
uint64_t nzd_difference(const uint8_t *file, size_t n, const uint8_t *other, size_t other_n, const uint8_t *id, size_t id_n,
                        int64_t first, int64_t last, int64_t *out, size_t out_n, int64_t *count);

/*
 * Replays a trace: *record gets the number, from 0, of its first record whose shown offset is not the file's, or whose
 * question the file refuses, 14 among the refusals; -1 if there is none. Each record is asked as by nzd_ask without more
 * and first_edition. A trace has a header of four numbers of four bytes: how many records, where they start in the trace, how
 * many bytes of names, where these start. A record is 20 bytes: its instant in ticks (eight bytes, signed), where its zone's
 * ID starts in the names (four), how many bytes that has (four), and the wall offset shown, in milliseconds (four, signed).
 * All are high byte first. 21 comes first, if header, records or names start or end past the trace's end, or the ID of any
 * record past that of the names, even when empty. A trace without records gives -1 whatever the file.
 */
uint64_t nzd_replay(const uint8_t *file, size_t n, const uint8_t *trace, size_t trace_n, int64_t *record);

/*
 * For repeated lookups: fills the front of out with the starts of a zone's listed intervals in ticks, in time order. The
 * first is NZD_START_OF_TIME, and a fixed zone has no other. The start of the yearly rules behind the list is no entry. *count
 * gets how many entries there are; those behind them stay as found. The refusals of nzd_ask without more come first, 14 aside;
 * then 15 if out is shorter than the table.
 */
uint64_t nzd_interval_starts(const uint8_t *file, size_t n, const uint8_t *id, size_t id_n, int64_t *out, size_t out_n,
                             int64_t *count);

struct nzd_search {
    int64_t entry; /* the number of the entry left, from 0 */
    int64_t looks; /* how many entries were looked at: on a table of n at most the least k with 2 to the k not below n */
};

/*
 * Halves a table: while more than one entry is left, looks at the entry half its length in, rounded down, and keeps it and
 * what follows if it is not after instant, else what comes before. On an ascending table whose first entry is not after
 * instant the entry left is the last that is not; any other table, and any instant, gets what the rule gives. 12 at place 0
 * for an empty table.
 */
uint64_t nzd_find_start(const int64_t *table, size_t table_n, int64_t instant, struct nzd_search *out);

/*
 * A receiver, for a file that arrives in pieces. It is three plain numbers in memory that you own, over a buffer that you
 * lend with each call: always the same one, to which nobody else writes. The bytes that it holds stand at the buffer's
 * front; add each piece as it arrives, and ask as soon as you like: what is given with more, save 1, stays as it is until
 * a reset. One that is all 0 is new. It may be copied and kept like any number, and asks nothing of you on any state.
 */
struct nzd_receiver {
    size_t held;  /* how many bytes are held */
    size_t place; /* of the first field that is not whole, its ID byte; held if all are. 0 in the version, or if it is
                     not 0. A field that 4 to 7 refuses by its ID or size is never whole; its contents play no part */
    size_t prev;  /* the ID of the field before place, 0 if there is none, from which the next piece goes on */
};

/* Empties a receiver, not the buffer. */
void nzd_receiver_reset(struct nzd_receiver *r);

/*
 * Adds a piece behind what is held; it may be empty, and is no part of the buffer. 15 if held and new bytes are more than
 * buffer_n: then receiver and buffer stay as they are. Takes time for the piece and for the fields that it completes only.
 */
uint64_t nzd_receiver_add(struct nzd_receiver *r, uint8_t *buffer, size_t buffer_n, const uint8_t *piece, size_t piece_n);

/*
 * The functions above of what a receiver holds: each gives what it would on the first held bytes of the buffer, places
 * and texts counting from there. 15 comes first, before 14, on a receiver that holds more than buffer_n, which one that
 * nzd_receiver_add filled over this buffer never does.
 */
uint64_t nzd_receiver_ask(struct nzd_receiver r, const uint8_t *buffer, size_t buffer_n, const uint8_t *id, size_t id_n,
                          int64_t ticks, bool more, bool first_edition, struct nzd_answer *out);
uint64_t nzd_receiver_ask_plain(struct nzd_receiver r, const uint8_t *buffer, size_t buffer_n, const uint8_t *id,
                                size_t id_n, int64_t ticks, bool first_edition, struct nzd_answer *out);
uint64_t nzd_receiver_ask_named(struct nzd_receiver r, const uint8_t *buffer, size_t buffer_n, const uint8_t *name,
                                size_t name_n, int64_t ticks, bool more, bool first_edition,
                                struct nzd_answer *out);
uint64_t nzd_receiver_map_local(struct nzd_receiver r, const uint8_t *buffer, size_t buffer_n, const uint8_t *id,
                                size_t id_n, int64_t local, struct nzd_local *out);
/* nzd_next_country steps the view, over the buffer's first held bytes. */
uint64_t nzd_receiver_location(struct nzd_receiver r, const uint8_t *buffer, size_t buffer_n, uint64_t field,
                               uint64_t number, struct nzd_pin *pin, struct nzd_located *out);
uint64_t nzd_receiver_version_text(struct nzd_receiver r, const uint8_t *buffer, size_t buffer_n, struct nzd_text *out);
uint64_t nzd_receiver_normalize(struct nzd_receiver r, const uint8_t *buffer, size_t buffer_n, uint8_t *out, size_t out_n);

/* Small codes, read from the front of s; what follows the code is ignored. 9 if s ends early. */
struct nzd_value {
    int64_t value;
    int64_t length; /* of the code */
};

/* A count, 0 to 2147483647. */
uint64_t nzd_read_count(const uint8_t *s, size_t n, struct nzd_value *out);

/* A signed count, -2147483648 to 2147483647. */
uint64_t nzd_read_signed_count(const uint8_t *s, size_t n, struct nzd_value *out);

/* An offset in milliseconds, inside 24 hours either way. */
uint64_t nzd_read_offset(const uint8_t *s, size_t n, struct nzd_value *out);

/* A text: its length as a count, and its bytes. The code ends where the text does. */
uint64_t nzd_read_text(const uint8_t *s, size_t n, struct nzd_text *out);

enum nzd_kind {
    NZD_KIND_START_OF_TIME = 0,
    NZD_KIND_END_OF_TIME = 1,
    NZD_KIND_INSTANT = 2
};

struct nzd_transition {
    int64_t kind;   /* of enum nzd_kind */
    int64_t ticks;  /* of an instant, else 0 */
    int64_t length; /* of the code */
};

/*
 * A transition. finite says whether previous, the transition before this one, is an instant; previous is not looked
 * at where it is not, and an instant outside years 1 to 9999 counts as none.
 */
uint64_t nzd_read_transition(const uint8_t *s, size_t n, int64_t previous, bool finite, struct nzd_transition *out);

/*
 * Small codes, written to the front of out. nzd_length_of(r) is the length of the code. 7 for a value that the code
 * can't carry, then 15 if out is too short.
 */

/* A count, 0 to 2147483647. */
uint64_t nzd_write_count(int64_t v, uint8_t *out, size_t out_n);

/* A signed count, -2147483648 to 2147483647. */
uint64_t nzd_write_signed_count(int64_t v, uint8_t *out, size_t out_n);

/* An offset in milliseconds, -86399999 to 86399999. */
uint64_t nzd_write_offset(int64_t ms, uint8_t *out, size_t out_n);

/* A text: 4 if it is longer than 1,024 bytes, then 8 if it is not UTF-8, then 15. */
uint64_t nzd_write_text(const uint8_t *t, size_t t_n, uint8_t *out, size_t out_n);

/*
 * A transition, in the first form that fits: mark, hours after previous, minutes since 1800, ticks. kind is of enum
 * nzd_kind; ticks is not looked at for the marks. previous and finite as in nzd_read_transition. 7 for a kind above 2,
 * and for an instant outside years 1 to 9999.
 */
uint64_t nzd_write_transition(uint8_t kind, int64_t ticks, int64_t previous, bool finite, uint8_t *out,
                              size_t out_n);

/*
 * The codes of the older edition, the resource data of Noda Time 1.0, as those above: preferred forms only, 7 for any
 * other.
 */

/* A count, 0 to 2147483647. */
uint64_t nzd_old_read_count(const uint8_t *s, size_t n, struct nzd_value *out);
uint64_t nzd_old_write_count(uint64_t v, uint8_t *out, size_t out_n);

/* An offset in milliseconds, -86399999 to 86399999. */
uint64_t nzd_old_read_offset(const uint8_t *s, size_t n, struct nzd_value *out);
uint64_t nzd_old_write_offset(int64_t ms, uint8_t *out, size_t out_n);

/* A string: its length as a count, and its bytes, as a text. */
uint64_t nzd_old_read_string(const uint8_t *s, size_t n, struct nzd_text *out);
uint64_t nzd_old_write_string(const uint8_t *t, size_t t_n, uint8_t *out, size_t out_n);

/*
 * A dictionary: a count, and so many pairs of strings, key and value. Its value is how many entries it has: they are parts
 * of s, behind the count. 19 at the second of two equal keys, before its value. Takes time for the bytes where the keys
 * are in the order of their bytes. In another order n keys take n log n comparisons up to 8,192; each key behind these
 * goes through the entries before it.
 */
uint64_t nzd_old_read_dictionary(const uint8_t *s, size_t n, struct nzd_value *out);

/*
 * Writes the dictionary of the first `count` pairs of strings in pairs, one behind the other without a count before them;
 * each string is its length as an older count, and its bytes. 7 for a count above 2147483647, then the first fault of a
 * pair as nzd_old_read_dictionary finds it, 19 among them, then 15. The length, which may be too large for a result, goes
 * to length.
 */
uint64_t nzd_old_write_dictionary(uint64_t count, const uint8_t *pairs, size_t pairs_n, uint8_t *out, size_t out_n,
                                  uint64_t *length);

#ifdef __cplusplus
}
#endif

#endif
