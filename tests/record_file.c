/* Tries record files (host/record_file.c), in a folder that it makes in the current one and leaves there.

   record_file                      all of it
   record_file --self-test NAME     saving or loading is made wrong in the way named; this must be found
   record_file --self-test-names    the names of these ways

   The calls of the operating system that a save makes are wrapped (-Wl,--wrap), so that each can be made to fail. */
#define _DEFAULT_SOURCE
#include "../host/record_file.h"
#include "records.h"

#include <errno.h>
#include <fcntl.h>
#include <inttypes.h>
#include <signal.h>
#include <stdarg.h>
#include <stdio.h>
#include <stdlib.h>
#include <string.h>
#include <sys/file.h>
#include <sys/mman.h>
#include <sys/stat.h>
#include <sys/wait.h>
#include <unistd.h>

static const char path[] = "box.record", temporary[] = "box.record.new";

enum { MOST_TEXT = 32768 };

static _Noreturn void mismatch(const char *format, ...) {
    va_list words;
    va_start(words, format);
    printf("record_file: mismatch: ");
    vprintf(format, words);
    printf("\n");
    fflush(stdout);
    va_end(words);
    exit(1);
}

/* What the test itself needs and does not get. */
static _Noreturn void stop(const char *what) {
    perror(what);
    exit(2);
}

/* ---- the calls of the operating system: all good, or one fails, or the process ends at one */

int __real_open(const char *name, int flags, ...);
int __real_flock(int file, int operation);
int __real_ftruncate(int file, off_t length);
ssize_t __real_write(int file, const void *bytes, size_t count);
int __real_fsync(int file);
int __real_rename(const char *from, const char *to);
int __wrap_open(const char *name, int flags, ...);
int __wrap_flock(int file, int operation);
int __wrap_ftruncate(int file, off_t length);
ssize_t __wrap_write(int file, const void *bytes, size_t count);
int __wrap_fsync(int file);
int __wrap_rename(const char *from, const char *to);

static unsigned system_calls, chosen_call; /* counted from 1; 0: none is chosen */
static bool ends_there, writes_in_bits, syncs_indeed;
static char letters[64]; /* of the calls: o open, l lock, t truncate, w write, s sync of a file, f of a folder, r rename */

static bool fails_now(char letter) {
    letters[system_calls % (sizeof letters - 1)] = letter;
    system_calls++;
    if (system_calls != chosen_call)
        return false;
    if (ends_there)
        kill(getpid(), SIGKILL);
    errno = EIO;
    return true;
}

int __wrap_open(const char *name, int flags, ...) {
    va_list rest;
    va_start(rest, flags);
    const mode_t mode = flags & O_CREAT ? va_arg(rest, mode_t) : 0;
    va_end(rest);
    return fails_now('o') ? -1 : __real_open(name, flags, mode);
}

int __wrap_flock(int file, int operation) { return fails_now('l') ? -1 : __real_flock(file, operation); }

int __wrap_ftruncate(int file, off_t length) { return fails_now('t') ? -1 : __real_ftruncate(file, length); }

int __wrap_fsync(int file) {
    struct stat about;
    if (fails_now(fstat(file, &about) == 0 && S_ISDIR(about.st_mode) ? 'f' : 's'))
        return -1;
    return syncs_indeed ? __real_fsync(file) : 0;
}

int __wrap_rename(const char *from, const char *to) { return fails_now('r') ? -1 : __real_rename(from, to); }

/* Where it fails, half is written. */
ssize_t __wrap_write(int file, const void *bytes, size_t count) {
    enum { BIT = 7 };
    static unsigned turn;
    if (system_calls + 1 == chosen_call && __real_write(file, bytes, count / 2) < 0)
        stop("write");
    if (fails_now('w'))
        return -1;
    if (writes_in_bits && ++turn % 3 == 0) {
        errno = EINTR;
        return -1;
    }
    return __real_write(file, bytes, writes_in_bits && count > BIT ? BIT : count);
}

/* ---- files as bytes */

typedef struct {
    uint8_t bytes[MOST_TEXT];
    size_t length;
} file_bytes;

static void put_bytes(const char *name, const void *bytes, size_t length) {
    FILE *file = fopen(name, "wb");
    if (file == NULL || fwrite(bytes, 1, length, file) != length || fclose(file) != 0)
        stop(name);
}

static void get_bytes(const char *name, file_bytes *to) {
    FILE *file = fopen(name, "rb");
    if (file == NULL)
        stop(name);
    to->length = fread(to->bytes, 1, sizeof to->bytes, file);
    if (to->length == sizeof to->bytes || fclose(file) != 0)
        stop(name);
}

static bool has_bytes(const char *name, const file_bytes *expected) {
    static file_bytes now;
    get_bytes(name, &now);
    return now.length == expected->length && memcmp(now.bytes, expected->bytes, now.length) == 0;
}

static bool is_there(const char *name) {
    struct stat about;
    return lstat(name, &about) == 0;
}

/* The CRC-32, by a table of half bytes. */
static uint32_t crc_of(const uint8_t *bytes, size_t length) {
    static const uint32_t half[16] = {0,          0x1DB71064, 0x3B6E20C8, 0x26D930AC, 0x76DC4190, 0x6B6B51F4, 0x4DB26158, 0x5005713C,
                                      0xEDB88320, 0xF00F9344, 0xD6D6A3E8, 0xCB61B38C, 0x9B64C2B0, 0x86D3D2D4, 0xA00AE278, 0xBDBDF21C};
    uint32_t crc = UINT32_MAX;
    for (size_t i = 0; i < length; i++) {
        crc = crc >> 4 ^ half[(crc ^ bytes[i]) & 15];
        crc = crc >> 4 ^ half[(crc ^ (uint32_t)bytes[i] >> 4) & 15];
    }
    return ~crc;
}

/* ---- saving and loading, right or wrong */

typedef bool saves(const char *name, const uint8_t *circuit, size_t circuit_len, const int32_t *record, size_t record_len,
                   message *why);
typedef bool loads(const char *name, const uint8_t *circuit, size_t circuit_len, int32_t *record, size_t record_len, message *why);

/* Writes where the file stands, in two parts. */
static bool save_in_place(const char *name, const uint8_t *circuit, size_t circuit_len, const int32_t *record, size_t record_len,
                          message *why) {
    static file_bytes whole;
    char aside[64];
    snprintf(aside, sizeof aside, "%s.%d", name, (int)getpid());
    if (!save_record(aside, circuit, circuit_len, record, record_len, why))
        return false;
    get_bytes(aside, &whole);
    unlink(aside);
    put_bytes(name, whole.bytes, whole.length / 2);
    put_bytes(name, whole.bytes, whole.length);
    return true;
}

static bool save_nothing(const char *name, const uint8_t *circuit, size_t circuit_len, const int32_t *record, size_t record_len,
                         message *why) {
    (void)record, (void)record_len, (void)circuit, (void)circuit_len, (void)why;
    return is_there(name);
}

static bool load_anything(const char *name, const uint8_t *circuit, size_t circuit_len, int32_t *record, size_t record_len,
                          message *why) {
    load_record(name, circuit, circuit_len, record, record_len, why);
    return true;
}

static bool load_and_touch(const char *name, const uint8_t *circuit, size_t circuit_len, int32_t *record, size_t record_len,
                           message *why) {
    const bool loaded = load_record(name, circuit, circuit_len, record, record_len, why);
    record[SERIFDOVE_E] += !loaded;
    return loaded;
}

/* Judges no soundness: of an unsound record it gives a sound one's answer. */
static bool load_unsound(const char *name, const uint8_t *circuit, size_t circuit_len, int32_t *record, size_t record_len,
                         message *why) {
    return load_record(name, circuit, circuit_len, record, record_len, why) || strstr(why->text, "not sound") != NULL;
}

static const struct {
    const char *name;
    saves *save;
    loads *load;
} wrong[] = {
    {"saved_in_place", save_in_place, load_record},      {"saved_nothing", save_nothing, load_record},
    {"loaded_anything", save_record, load_anything},     {"record_touched_on_refusal", save_record, load_and_touch},
    {"soundness_not_judged", save_record, load_unsound},
};

static saves *save = save_record;
static loads *load = load_record;

/* ---- one circuit, a record that is saved, and one that is loaded into */

static circuit made;
static int32_t saved[MOST_RECORD], loaded[MOST_RECORD], before[MOST_RECORD];

static size_t words_of(const circuit *c) { return SERIFDOVE_RECORD_WORDS(c->n); }

static void save_saved(void) {
    message why = {""};
    if (!save(path, made.bytes, made.length, saved, words_of(&made), &why))
        mismatch("not saved: %s", why.text);
}

/* Words that no sound record has: what is not loaded stays so. */
static void fill_loaded(void) {
    for (size_t i = 0; i < MOST_RECORD; i++)
        loaded[i] = before[i] = -70000 - (int32_t)i;
}

/* A load that must be taken, and leave no other word than the record's changed. */
static void must_load(const char *what) {
    message why = {""};
    if (!load(path, made.bytes, made.length, loaded, words_of(&made), &why))
        mismatch("%s: refused: %s", what, why.text);
    if (memcmp(loaded + words_of(&made), before + words_of(&made), (MOST_RECORD - words_of(&made)) * sizeof *loaded) != 0)
        mismatch("%s: words behind the record are changed", what);
}

/* A load that must be refused with such words, and change nothing. */
static void must_refuse(const char *what, const char *words) {
    message why = {""};
    if (load(path, made.bytes, made.length, loaded, words_of(&made), &why))
        mismatch("%s: loaded", what);
    if (strstr(why.text, words) == NULL)
        mismatch("%s: '%s' is expected in: %s", what, words, why.text);
    if (memcmp(loaded, before, sizeof loaded) != 0)
        mismatch("%s: the record is changed", what);
}

static void make_lively(chance *with, unsigned n, bool in_scan) {
    lively_circuit(&made, with, n, (unsigned)between(with, 0, 20), 0);
    random_record(&made, with, in_scan, saved);
}

/* ---- round trips */

static void round_trips(chance *with) {
    enum { TRIPS = 400 };
    for (unsigned k = 0; k < TRIPS; k++) {
        const unsigned n = k < 4 ? (k < 2 ? 0 : MOST_BLOCKS) : (unsigned)between(with, 0, once_in(with, 4) ? MOST_BLOCKS : 24);
        make_lively(with, n, k % 2 == 1);
        writes_in_bits = once_in(with, 8);
        save_saved();
        writes_in_bits = false;
        fill_loaded();
        must_load("round trip");
        if (memcmp(loaded, saved, words_of(&made) * sizeof *loaded) != 0)
            mismatch("round trip: other words");
    }
    if (is_there(temporary))
        mismatch("round trip: %s is left", temporary);
    printf("record_file: %d round trips\n", TRIPS);
}

/* ---- damaged files */

/* Each length, then each byte left out, then each byte behind. */
static void other_lengths(const file_bytes *whole) {
    uint8_t bytes[MOST_TEXT + 1];
    for (size_t length = 0; length < whole->length; length++) {
        put_bytes(path, whole->bytes, length);
        must_refuse("cut short", path);
    }
    for (size_t out = 0; out < whole->length; out++) {
        memcpy(bytes, whole->bytes, out);
        memcpy(bytes + out, whole->bytes + out + 1, whole->length - out - 1);
        put_bytes(path, bytes, whole->length - 1);
        must_refuse("a byte left out", path);
    }
    memcpy(bytes, whole->bytes, whole->length);
    for (unsigned byte = 0; byte < 256; byte++) {
        bytes[whole->length] = (uint8_t)byte;
        put_bytes(path, bytes, whole->length + 1);
        must_refuse("a byte behind", "behind");
    }
}

static void put_byte(int file, size_t place, uint8_t byte) {
    if (pwrite(file, &byte, 1, (off_t)place) != 1)
        stop("pwrite");
}

/* Every other byte at every place. */
static void other_bytes(const file_bytes *whole) {
    put_bytes(path, whole->bytes, whole->length);
    const int file = open(path, O_WRONLY);
    for (size_t place = 0; place < whole->length; place++) {
        for (unsigned more = 1; more < 256; more++) {
            put_byte(file, place, (uint8_t)(whole->bytes[place] + more));
            must_refuse("a byte changed", path);
        }
        put_byte(file, place, whole->bytes[place]);
    }
    close(file);
    must_load("all bytes as they were");
}

static void damaged(chance *with) {
    static file_bytes whole;
    for (unsigned k = 0; k < 2; k++) {
        make_lively(with, 1 + below(with, 3), k == 1);
        save_saved();
        get_bytes(path, &whole);
        fill_loaded();
        other_lengths(&whole);
        if (k == 1)
            other_bytes(&whole);
    }
    printf("record_file: every length and every byte of a file of %zu bytes\n", whole.length);
}

/* ---- files that another hand wrote, with the right sum */

/* Writes the lines and their sum; @ stands for a zero byte. */
static void forge(const char *lines, const char *behind) {
    static char text[MOST_TEXT];
    int length = snprintf(text, sizeof text, "%s", lines);
    for (char *at = text; (at = strchr(at, '@')) != NULL;)
        *at = 0;
    const uint32_t sum = crc_of((const uint8_t *)text, (size_t)length);
    length += snprintf(text + length, sizeof text - (size_t)length, "sum %08" PRIx32 "\n%s", sum, behind);
    put_bytes(path, text, (size_t)length);
}

/* The right lines, each without its end, and the words alone. */
static char circuit_line[64], record_line[MOST_TEXT], only_words[MOST_TEXT];

static void cut_lines(void) {
    static file_bytes whole;
    get_bytes(path, &whole);
    whole.bytes[whole.length] = 0;
    if (sscanf((char *)whole.bytes, "serifdove record 1\n%63[^\n]\n%32767[^\n]\nsum", circuit_line, record_line) != 2)
        mismatch("the file has not the lines that it should have");
    char count[32];
    const int length = snprintf(count, sizeof count, "record %zu ", words_of(&made));
    if (strncmp(record_line, count, (size_t)length) != 0)
        mismatch("the file's third line does not begin with '%s'", count);
    strcpy(only_words, record_line + length);
}

/* Expects a refusal with these words for a forged file. */
static void refuse_forged(const char *words, const char *format, ...) {
    static char lines[2 * MOST_TEXT];
    va_list rest;
    va_start(rest, format);
    vsnprintf(lines, sizeof lines, format, rest);
    va_end(rest);
    forge(lines, "");
    must_refuse(format, words);
}

/* A first line in place of the right one, or a whole file without a sum made for it; and what the message must hold. */
static const char *const first_lines[][2] = {
    {"", "no record file"},
    {"sum", "no record file"},
    {"serifdove recor", "no record file"},
    {"Serifdove record 1", "no record file"},
    {"serifdove record 2", "version 2; version 1"},
    {"serifdove record 0", "version 0"},
    {"serifdove record 01", "version 01"},
    {"serifdove record 11", "version 11"},
    {"serifdove record ", "damaged"},
    {"serifdove record x", "damaged"},
    {"serifdove record 1 ", "damaged"},
    {"serifdove record 1\r", "damaged"},
    {"serifdove record -1", "damaged"},
    {"serifdove record 1@", "damaged"},
    {"serifdove record 99999999999999999999999999", "version 99999999999999999999;"},
};

static const char *const short_files[][2] = {
    {"", "no record file"},
    {"serifdove record ", "cut short"},
    {"serifdove record 1", "cut short"},
    {"serifdove record 1\n", "cut short"},
    {"serifdove record 1\nsum", "cut short"},
    {"serifdove record 1\nsum ", "cut short"},
    {"serifdove record 1\nsum 00000000", "cut short"},
    {"serifdove record 1\nsum 00000000\n", "damaged: its sum is 00000000"},
    {"serifdove record 1\nsum 0000000g\n", "damaged"},
    {"serifdove record 1\nsum 0000000 \n", "damaged"},
    {"serifdove record 1\nsum 000000000", "damaged"},
    {"serifdove record 2\nsum 00000000\n", "version 2"},
    {"serifdove record 1\ncircuit 1 00000000\nrecord 0\nsum 00000000\n", "damaged"},
};

static void other_frames(void) {
    for (size_t i = 0; i < sizeof first_lines / sizeof *first_lines; i++)
        refuse_forged(first_lines[i][1], "%s\n%s\n%s\n", first_lines[i][0], circuit_line, record_line);
    for (size_t i = 0; i < sizeof short_files / sizeof *short_files; i++) {
        put_bytes(path, short_files[i][0], strlen(short_files[i][0]));
        must_refuse(short_files[i][0], short_files[i][1]);
    }
    static char lines[2 * MOST_TEXT];
    snprintf(lines, sizeof lines, "serifdove record 1\n%s\n%s\n", circuit_line, record_line);
    forge(lines, "");
    must_load("the right lines");
    fill_loaded();
    forge(lines, "sum 00000000\n");
    must_refuse("two sums", "behind");
}

static const char *const malformed_circuits[] = {
    "circuit",
    "circuit ",
    "circuit 1",
    "circuit 1 ",
    "circuit 1 0000000",
    "circuit 1 000000000",
    "circuit 1 0000000A",
    "circuit 1 0000000g",
    "circuit  1 00000000",
    "circuit 1  00000000",
    "circuit 1 00000000 ",
    "circuit 1 00000000 1",
    "circuit 01 00000000",
    "circuit -1 00000000",
    "circuit -0 00000000",
    "circuit +1 00000000",
    "circuit 4294967296 00000000",
    "circuit 99999999999999999999 00000000",
    "circuit x 00000000",
    " circuit 1 00000000",
    "Circuit 1 00000000",
    "circuit 1 00000000\r",
    "circuit 1@00000000",
    "",
    "record 0",
};

static const char *const malformed_records[] = {
    "record",
    "record ",
    "record x",
    "record -1",
    "record +1 1",
    "record 1",
    "record 2 1",
    "record 0 1",
    "record 1 1 1",
    "record 1  1",
    "record 1 1 ",
    "record 1 1x",
    "record 1 -",
    "record 1 --1",
    "record 1 -0",
    "record 1 00",
    "record 1 01",
    "record 1 0x1",
    "record 1 1.0",
    "record 1\t1",
    "record 1 2147483648",
    "record 1 -2147483649",
    "record 1 99999999999999999999",
    "record 99999999999999999999 1",
    "record 4294967295 1",
    "record 1 1\r",
    "record 1 1@",
    " record 1 1",
    "Record 1 1",
    "",
    "record 1 1\n",
    "record 1 1\nrecord 1 1",
    "record 0 ",
    "record 00",
};

static void malformed_lines(void) {
    for (size_t i = 0; i < sizeof malformed_circuits / sizeof *malformed_circuits; i++)
        refuse_forged("malformed", "serifdove record 1\n%s\n%s\n", malformed_circuits[i], record_line);
    for (size_t i = 0; i < sizeof malformed_records / sizeof *malformed_records; i++)
        refuse_forged("malformed", "serifdove record 1\n%s\n%s\n", circuit_line, malformed_records[i]);
    refuse_forged("malformed", "serifdove record 1\n%s\n", circuit_line);
    refuse_forged("cut short", "serifdove record 1\n%s\n%s", circuit_line, record_line);
    refuse_forged("malformed", "serifdove record 1\n%s\n%s\n", record_line, circuit_line);
    refuse_forged("malformed", "serifdove record 1\n%s\n\n%s\n", circuit_line, record_line);
}

/* Of another circuit, of another length, not sound; and which is told where two hold. */
static void other_contents(void) {
    const size_t words = words_of(&made);
    refuse_forged("another circuit", "serifdove record 1\ncircuit %zu %08" PRIx32 "\n%s\n", made.length + 1,
                  crc_of(made.bytes, made.length), record_line);
    refuse_forged("another circuit", "serifdove record 1\ncircuit %zu %08" PRIx32 "\n%s\n", made.length,
                  ~crc_of(made.bytes, made.length), record_line);
    refuse_forged("another circuit", "serifdove record 1\ncircuit 0 00000000\nrecord 1 9\n");
    refuse_forged("the record of this circuit has", "serifdove record 1\n%s\nrecord 0\n", circuit_line);
    refuse_forged("the record of this circuit has", "serifdove record 1\n%s\nrecord %zu %s 0\n", circuit_line, words + 1, only_words);
    refuse_forged("the record of this circuit has", "serifdove record 1\n%s\nrecord 2 7 -2147483648\n", circuit_line);
    char *last = strrchr(only_words, ' ');
    *last = 0;
    refuse_forged("the record of this circuit has", "serifdove record 1\n%s\nrecord %zu %s\n", circuit_line, words - 1, only_words);
    *last = ' ';
    char many[8 * MOST_RECORD];
    for (size_t i = 0; i < sizeof many - 1; i++)
        many[i] = i % 2 == 0 ? ' ' : '0';
    many[sizeof many - 2] = 0;
    refuse_forged("the record of this circuit has", "serifdove record 1\n%s\nrecord %zu%s\n", circuit_line, strlen(many) / 2, many);
}

/* Each word one below its least and one above its greatest. */
static void unsound_words(void) {
    const bool in_scan = saved[SERIFDOVE_PHASE] == 1;
    for (size_t place = 0; place < words_of(&made); place++) {
        const word_range range = range_at(&made, place, in_scan);
        const int32_t kept = saved[place];
        for (unsigned above = 0; above < 2; above++) {
            saved[place] = above ? range.greatest + 1 : range.least - 1;
            save_saved();
            must_refuse("a word out of its range", "not sound");
        }
        saved[place] = kept;
    }
}

/* Some bytes changed, then the sum made right: refused, or sound. */
static void forged_by_chance(chance *with) {
    enum { TIMES = 5000 };
    static const char likely[] = "0123456789 \n-acdeforsuim";
    static file_bytes whole;
    unsigned taken = 0;
    save_saved();
    get_bytes(path, &whole);
    for (unsigned k = 0; k < TIMES; k++) {
        char text[MOST_TEXT];
        const size_t length = whole.length - sizeof "sum 00000000\n" + 1;
        memcpy(text, whole.bytes, length);
        for (unsigned times = 1 + below(with, 3); times > 0; times--)
            text[sizeof "serifdove record" + below(with, (uint32_t)(length - sizeof "serifdove record"))] =
                likely[below(with, sizeof likely - 1)];
        text[length] = 0;
        forge(text, "");
        message why = {""};
        const bool is_taken = load(path, made.bytes, made.length, loaded, words_of(&made), &why);
        if (is_taken && serifdove_run(made.bytes, made.length, loaded, words_of(&made), 0).number == SERIFDOVE_RECORD_NOT_SOUND)
            mismatch("a record that is not sound is loaded");
        taken += is_taken;
    }
    if (taken == 0 || taken == TIMES)
        mismatch("of %d files forged by chance %u were loaded", TIMES, taken);
    printf("record_file: %d files forged by chance, %u sound\n", TIMES, taken);
}

static void forged(chance *with) {
    for (unsigned in_scan = 0; in_scan < 2; in_scan++) {
        make_lively(with, 6, in_scan == 1);
        save_saved();
        cut_lines();
        fill_loaded();
        other_frames();
        malformed_lines();
        other_contents();
        unlink(path);
        unsound_words();
        forged_by_chance(with);
    }
}

/* ---- what stands at FILE or beside it */

/* What was done with the file must be refused with such words. */
static void must_fail(bool done, const char *what, const char *name, const char *words, const message *why) {
    if (done)
        mismatch("%s %s is not refused", what, name);
    if (strstr(why->text, words) == NULL)
        mismatch("%s %s: '%s' is expected in: %s", what, name, words, why->text);
}

static void must_not_save(const char *name, const char *words) {
    message why = {""};
    const bool done = save(name, made.bytes, made.length, saved, words_of(&made), &why);
    must_fail(done, "saving to", name, words, &why);
}

static void must_not_load(const char *name, const char *words) {
    message why = {""};
    const bool done = load(name, made.bytes, made.length, loaded, words_of(&made), &why);
    must_fail(done, "loading from", name, words, &why);
}

/* A file with these bytes at FILE: not replaced. */
static void must_stay(const char *bytes, const char *words) {
    file_bytes whole;
    put_bytes("other", bytes, strlen(bytes));
    get_bytes("other", &whole);
    must_not_save("other", words);
    if (!has_bytes("other", &whole) || is_there("other.new"))
        mismatch("a file that is no record file is changed, or a temporary file is left");
    unlink("other");
}

static void at_file(void) {
    must_stay("", "no record file and is not replaced");
    must_stay("serifdove recor", "no record file and is not replaced");
    must_stay("Door 4: ring twice\n", "no record file and is not replaced");
    mkdir("folder", 0755);
    char longest[257];
    memset(longest, 'x', 256);
    longest[256] = 0;
    static const char *const names[][2] = {
        {"", "name of a file"},
        {"folder", "not a file"},
        {"folder/", "not a file"},
        {".", "not a file"},
        {"missing/x", "is as it was: its folder"},
        {"missing/", "is as it was: its folder"},
        {"box.record/x", "is as it was"},
        {"/dev/full", "not a file"},
        {"/dev/null", "not a file"},
        {"link", "is a link"},
        {"box.record.new", "ends in .new"},
        {".new", "ends in .new"},
    };
    if (symlink("nowhere", "link") != 0)
        stop("symlink");
    for (size_t i = 0; i < sizeof names / sizeof *names; i++) {
        must_not_save(names[i][0], names[i][1]);
        must_not_load(names[i][0], names[i][0]);
    }
    must_not_save(longest, "is as it was");
    longest[255] = 0;
    must_not_save(longest, "is as it was");
    must_not_load("missing", "cannot be opened");
    must_not_load("folder", "not a file");
    unlink("link");
    rmdir("folder");
}

/* What stands under the temporary name and was left by no save stays, and FILE too. */
static void beside_file(void) {
    static file_bytes kept, other;
    save_saved();
    get_bytes(path, &kept);
    put_bytes("other", "a letter", 8);
    get_bytes("other", &other);
    for (unsigned k = 0; k < 5; k++) {
        const char *target = k == 2 ? "other" : "nowhere";
        if ((k == 0   ? mkdir(temporary, 0755)
             : k == 1 ? mkfifo(temporary, 0644)
             : k == 4 ? link("other", temporary)
                      : symlink(target, temporary)) != 0)
            stop(temporary);
        must_not_save(path, "is as it was: at its temporary name");
        if (!is_there(temporary) || is_there("nowhere") || !has_bytes(path, &kept) || !has_bytes("other", &other))
            mismatch("something beside the file is changed");
        if ((k == 0 ? rmdir(temporary) : unlink(temporary)) != 0)
            stop(temporary);
    }
    unlink("other");
}

/* One that a killed program left, longer than any record. */
static void left_behind(void) {
    char junk[MOST_TEXT - 1];
    memset(junk, 'j', sizeof junk);
    memcpy(junk, "serifdove record 1", strlen("serifdove record 1"));
    put_bytes(temporary, junk, sizeof junk);
    saved[SERIFDOVE_AM(1)] ^= 1;
    save_saved();
    fill_loaded();
    must_load("behind a temporary file that was left");
    if (memcmp(loaded, saved, words_of(&made) * sizeof *loaded) != 0 || is_there(temporary))
        mismatch("a temporary file that was left is taken, or left again");
}

/* Another program holds the lock and does not end: FILE and its temporary file stay. */
static void held(void) {
    static file_bytes kept;
    get_bytes(path, &kept);
    const int holder = __real_open(temporary, O_WRONLY | O_CREAT, 0644);
    if (holder < 0 || __real_flock(holder, LOCK_EX) != 0)
        stop(temporary);
    must_not_save(path, "is as it was: another program is saving to it");
    if (!has_bytes(path, &kept) || !is_there(temporary))
        mismatch("a file that another program is saving to is changed");
    close(holder);
    save_saved();
    if (is_there(temporary))
        mismatch("a temporary file is left behind one that was held");
}

/* ---- each call of the operating system fails, or the process ends there */

static int next_file(void) {
    const int file = dup(0);
    close(file);
    return file;
}

/* Call number k of a save fails. On false the save made fewer. */
static bool call_fails(unsigned k) {
    static file_bytes kept;
    message why = {""};
    get_bytes(path, &kept);
    saved[SERIFDOVE_AM(1)] ^= 1;
    const int free_file = next_file();
    system_calls = 0;
    chosen_call = k;
    const bool is_saved = save(path, made.bytes, made.length, saved, words_of(&made), &why);
    const bool met = system_calls >= k;
    chosen_call = 0;
    if (next_file() != free_file)
        mismatch("call %u fails: a file is left open", k);
    if (is_saved == met)
        mismatch("call %u fails: saved %d", k, is_saved);
    const bool renamed = strstr(why.text, "is this record, but its folder") != NULL;
    if (met && !renamed && (!has_bytes(path, &kept) || strstr(why.text, "is as it was") == NULL))
        mismatch("call %u fails: the file is not as it was: %s", k, why.text);
    if (unlink(temporary) == 0 && strstr(why.text, "cannot be opened and locked") == NULL)
        mismatch("call %u fails: the temporary file is left", k);
    fill_loaded();
    must_load("behind a call that fails");
    return met;
}

/* The process is killed at call k of a save. On false the save made fewer. */
static bool killed_at(unsigned k) {
    static int32_t other[MOST_RECORD];
    int status;
    memcpy(other, saved, sizeof saved);
    saved[SERIFDOVE_AM(1)] ^= 1;
    const pid_t child = fork();
    if (child == 0) {
        system_calls = 0;
        chosen_call = k;
        ends_there = true;
        save_saved();
        _exit(0);
    }
    if (child < 0 || waitpid(child, &status, 0) != child)
        stop("fork");
    fill_loaded();
    must_load("killed at a call");
    const size_t size = words_of(&made) * sizeof *loaded;
    if (memcmp(loaded, saved, size) != 0 && (WIFEXITED(status) || memcmp(loaded, other, size) != 0))
        mismatch("killed at call %u: neither the record before nor this one", k);
    return WIFSIGNALED(status);
}

/* FILE, folder and temporary file are opened; it is synced before the name is its own, the folder then. */
static void calls_in_order(void) {
    memset(letters, 0, sizeof letters);
    system_calls = 0;
    save_saved();
    if (strcmp(letters, "oooltwsrf") != 0)
        mismatch("a save makes the calls %s", letters);
}

static void each_call(void) {
    unsigned failing = 1, ending = 1;
    calls_in_order();
    while (call_fails(failing))
        failing++;
    while (killed_at(ending))
        ending++;
    if (failing < 6 || ending != failing)
        mismatch("a save makes %u calls, or %u", failing - 1, ending - 1);
    save_saved();
    printf("record_file: each of %u calls of a save fails, or is the last\n", failing - 1);
}

static void places(chance *with) {
    make_lively(with, 6, true);
    unlink(path);
    save_saved();
    at_file();
    beside_file();
    left_behind();
    held();
    each_call();
}

/* ---- several processes */

/* A record that tells its number in many words. */
static void number_record(int32_t writer, int32_t number) {
    for (unsigned k = 1; k <= 64; k++)
        saved[SERIFDOVE_AM(k)] = k % 2 == 1 ? number : writer;
}

static int32_t number_loaded(int32_t *writer) {
    for (unsigned k = 3; k <= 64; k++)
        if (loaded[SERIFDOVE_AM(k)] != loaded[SERIFDOVE_AM(k - 2)])
            mismatch("two records are mixed");
    *writer = loaded[SERIFDOVE_AM(2)];
    return loaded[SERIFDOVE_AM(1)];
}

static pid_t forked(void) {
    fflush(stdout);
    const pid_t child = fork();
    if (child < 0)
        stop("fork");
    return child;
}

static void await(pid_t child) {
    int status;
    if (waitpid(child, &status, 0) != child || !WIFEXITED(status))
        mismatch("a process that saves has ended");
    if (WEXITSTATUS(status) != 0)
        exit(WEXITSTATUS(status));
}

enum { WRITERS = 2, SAVES = 200 };

static _Noreturn void save_often(int32_t writer) {
    for (int32_t number = 1; number <= SAVES; number++) {
        message why;
        number_record(writer, number);
        while (!save(path, made.bytes, made.length, saved, words_of(&made), &why)) /* a slow disk: the other holds it for long */
            if (strstr(why.text, "another program is saving to it") == NULL)
                mismatch("not saved: %s", why.text);
    }
    exit(0);
}

/* What is loaded while others save: of each writer never an earlier record behind a later one. */
static _Noreturn void load_often(const volatile bool *done) {
    int32_t last[WRITERS + 1] = {0}, writer;
    unsigned count = 0;
    do {
        must_load("while others save");
        const int32_t number = number_loaded(&writer);
        if (number < last[writer])
            mismatch("an earlier record is back");
        last[writer] = number;
        count++;
    } while (!*done);
    printf("record_file: %u loads while %d processes saved %d times each\n", count, WRITERS, SAVES);
    exit(0);
}

static void at_once(chance *with, volatile bool *done) {
    pid_t child[WRITERS + 1];
    make_lively(with, 60, false);
    number_record(0, 0);
    unlink(path);
    save_saved();
    fill_loaded();
    *done = false;
    if ((child[0] = forked()) == 0)
        load_often(done);
    for (int32_t writer = 1; writer <= WRITERS; writer++)
        if ((child[writer] = forked()) == 0)
            save_often(writer);
    for (unsigned k = 1; k <= WRITERS; k++)
        await(child[k]);
    *done = true;
    await(child[0]);
    if (is_there(temporary))
        mismatch("while several save: the temporary file is left");
}

/* ---- killed at any moment */

typedef struct {
    volatile int32_t begun, completed;
} progress;

static _Noreturn void save_for_ever(progress *p) {
    for (;;) {
        number_record(1, p->begun + 1);
        p->begun++;
        save_saved();
        p->completed = p->begun;
    }
}

static void kill_once(chance *with, progress *p, unsigned *inside) {
    int status;
    int32_t writer;
    p->begun = p->completed;
    const pid_t child = forked();
    if (child == 0)
        save_for_ever(p);
    usleep(below(with, 4000));
    if (kill(child, SIGKILL) != 0 || waitpid(child, &status, 0) != child)
        stop("kill");
    if (WIFEXITED(status))
        exit(WEXITSTATUS(status));
    *inside += is_there(temporary);
    must_load("killed at any moment");
    const int32_t number = number_loaded(&writer);
    if (number < p->completed || number > p->begun)
        mismatch("killed: record %d is loaded; %d was saved whole, and %d begun", number, p->completed, p->begun);
    p->completed = number;
    if (p->completed > 30000) {
        p->begun = p->completed = 0;
        number_record(1, 0);
        save_saved();
    }
}

static void killed(chance *with, progress *p) {
    enum { KILLS = 300 };
    unsigned inside = 0;
    make_lively(with, 100, true);
    p->completed = 0;
    number_record(1, 0);
    unlink(path);
    save_saved();
    fill_loaded();
    for (unsigned k = 0; k < KILLS; k++)
        kill_once(with, p, &inside);
    if (inside == 0)
        mismatch("of %d kills none fell inside a save", KILLS);
    printf("record_file: %d kills, %u left a temporary file\n", KILLS, inside);
}

/* ---- the whole */

static bool make_wrong(const char *name) {
    for (size_t i = 0; i < sizeof wrong / sizeof *wrong; i++)
        if (strcmp(wrong[i].name, name) == 0) {
            save = wrong[i].save;
            load = wrong[i].load;
            return true;
        }
    return false;
}

int main(int argc, char **argv) {
    if (argc == 2 && strcmp(argv[1], "--self-test-names") == 0) {
        for (size_t i = 0; i < sizeof wrong / sizeof *wrong; i++)
            printf("%s\n", wrong[i].name);
        return 0;
    }
    if (argc != 1 && (argc != 3 || strcmp(argv[1], "--self-test") != 0 || !make_wrong(argv[2]))) {
        fprintf(stderr, "usage: record_file [--self-test NAME | --self-test-names]\n");
        return 2;
    }
    void *shared = mmap(NULL, sizeof(progress), PROT_READ | PROT_WRITE, MAP_SHARED | MAP_ANONYMOUS, -1, 0);
    if (shared == MAP_FAILED)
        stop("mmap");
    chance with = chance_of(1);
    char folder[] = "record_file.XXXXXX";
    if (mkdtemp(folder) == NULL || chdir(folder) != 0)
        stop("mkdtemp");
    round_trips(&with);
    places(&with);
    forged(&with);
    syncs_indeed = true;
    at_once(&with, shared);
    killed(&with, shared);
    syncs_indeed = false;
    damaged(&with);
    return 0;
}
