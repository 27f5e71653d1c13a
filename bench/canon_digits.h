/* What the programs in C for `canon` share before names are read: the texts and their digits, room for more digits, and how a run ends.
 * All that is compared and written is digits in lowercase, since they have the order of the octets that they spell. */
#include <stdint.h>
#include <stdio.h>
#include <stdlib.h>
#include <string.h>
#include <unistd.h>

enum { ONE_TEXT = 131072, TWO_TEXTS = 262144, HEADER = 12, MOST_NAME = 255, MOST_LABELS = 127 };

/* Digits are copied STEP at a time, so up to STEP more than are wanted are read and written. Arrays have SLACK octets after them. */
enum { STEP = 32, SLACK = 4 * STEP };

enum status { SHORT = 1, ITEM, BAD_HEX, TOO_LONG, USAGE, READ_FAULT, WRITE_FAULT, NO_MEMORY };

/* The texts of the messages, and the same digits with the letters that they spell in lowercase. */
static char texts[TWO_TEXTS + SLACK], small_texts[TWO_TEXTS + SLACK];

/* The message that is read: its digits in both, its octets, and how many these are. */
static char *text, *small;
static uint8_t octets[TWO_TEXTS / 2 + SLACK];
static size_t size;

/* What is read: the number of the message, the section in it and the item in that. */
static unsigned reading, section, item;

/* ---- ends */

static _Noreturn void stop(enum status status, const char *note) {
    ssize_t written = write(2, note, strlen(note));
    (void)written;
    _exit(status);
}

static _Noreturn void refuse(void) {
    char note[48];
    snprintf(note, sizeof note, "item %u %u %u\n", reading, section, item);
    stop(ITEM, note);
}

static _Noreturn void refuse_as_short(void) {
    char note[32];
    snprintf(note, sizeof note, "short %u\n", reading);
    stop(SHORT, note);
}

static void write_all(const char *from, size_t n) {
    while (n > 0) {
        ssize_t done = write(1, from, n);
        if (done <= 0) stop(WRITE_FAULT, "write fault\n");
        from += done, n -= done;
    }
}

/* ---- room */

static char *room, *end_of_room;

/* Room for n digits, and SLACK after them. What is used of it ends where `room` is set next. */
static char *room_for(size_t n) {
    if ((size_t)(end_of_room - room) < n + SLACK) {
        size_t most = n + SLACK + (1 << 20);
        room = malloc(most);
        if (!room) stop(NO_MEMORY, "out of memory\n");
        end_of_room = room + most;
    }
    return room;
}

/* ---- digits */

/* Copies n digits and gives where they end. What is copied from room to room has STEP free octets after it, since up to STEP more than
 * the digits are read. */
static inline char *copy(char *to, const char *from, size_t n) {
    memcpy(to, from, STEP);
    for (size_t at = STEP; at < n; at += STEP) memcpy(to + at, from + at, STEP);
    return to + n;
}

/* Eight digits as one number that has their order. */
static inline uint64_t eight(const void *octets_or_digits) {
    const uint8_t *d = octets_or_digits;
    return (uint64_t)d[0] << 56 | (uint64_t)d[1] << 48 | (uint64_t)d[2] << 40 | (uint64_t)d[3] << 32 | (uint64_t)d[4] << 24 |
           (uint64_t)d[5] << 16 | (uint64_t)d[6] << 8 | (uint64_t)d[7];
}

static inline uint32_t number(size_t at) { return (uint16_t)(octets[at] << 8 | octets[at + 1]); }

static inline uint32_t long_number(size_t at) {
    return (uint32_t)octets[at] << 24 | (uint32_t)octets[at + 1] << 16 | (uint32_t)octets[at + 2] << 8 | octets[at + 3];
}

/* The n octets that digits spell, and the digits with A to Z in lowercase: 41 to 5a become 61 to 7a. The compiler makes blocks of this
 * loop. */
static void spell(uint8_t *restrict out, char *restrict lower, const char *restrict digits, size_t n) {
    for (size_t i = 0; i < n; i++) {
        signed char first = digits[2 * i], second = digits[2 * i + 1];
        uint8_t high = first - (first > '9' ? 'a' - 10 : '0'), low = second - (second > '9' ? 'a' - 10 : '0');
        uint8_t octet = high << 4 | low;
        uint16_t pair, two;
        memcpy(&pair, digits + 2 * i, 2);
        memcpy(&two, "\2", 2);
        pair += (uint8_t)(octet - 'A') < 26 ? two : 0;
        memcpy(lower + 2 * i, &pair, 2);
        out[i] = octet;
    }
}
