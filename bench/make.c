/* `dnscanon make N` as plain C. It is what the program's speed is measured against, and no part of it. It builds a
 * message of N generated records, and prints how many records its canonical list has, how many octets these have, and how many the
 * message has. `make N digits` prints the digits of the message instead. */
#include "canon_digits.h"
#include "plain_names.h"
#include "plain_owners.h"
#include "canon_records.h"
#include "plain_order.h"
#include "canon_list.h"

enum { MOST_RECORDS = 1000, MOST_PLACES = 128, LAST_PLACE = 16383, MOST_MADE = 4, MOST_OCTETS = 64 };

/* A name that is made: its octets, the same in lowercase, and where each label begins. */
struct made {
    uint8_t octets[MOST_OCTETS], lower[MOST_OCTETS];
    unsigned size, count, labels[MOST_MADE];
};

/* The places to which later names may point. */
static uint16_t known[MOST_PLACES];
static unsigned known_count;

/* The message that is built, and its names in lowercase. */
static uint8_t built[65535 + SLACK], built_lower[65535 + SLACK];
static size_t built_size = HEADER;

/* ---- octets */

static void put_byte(unsigned value) { built[built_size++] = value; }

static void put_short(unsigned value) {
    put_byte(value >> 8);
    put_byte(value & 255);
}

/* Writes a decimal number below 1,000. */
static uint8_t *put_decimal(uint8_t *out, unsigned value) {
    if (value >= 100) *out++ = '0' + value / 100;
    if (value >= 10) *out++ = '0' + value / 10 % 10;
    *out++ = '0' + value % 10;
    return out;
}

/* ---- names */

/* Adds a label: a text, and a number if it is not negative. */
static void add_label(struct made *name, const char *words, int value) {
    uint8_t *start = name->octets + name->size, *out = start + 1;
    while (*words) *out++ = *words++;
    if (value >= 0) out = put_decimal(out, value);
    *start = out - start - 1;
    name->labels[name->count++] = name->size;
    name->size = out - name->octets;
}

static void end_name(struct made *name) {
    name->octets[name->size++] = 0;
    copy_lower(name->lower, name->octets, MOST_OCTETS);
}

static struct made owner_of(unsigned index) {
    struct made name = {0};
    add_label(&name, "h", index % 97);
    add_label(&name, "z", index % 7);
    add_label(&name, "Example", -1);
    end_name(&name);
    return name;
}

static struct made server_of(unsigned index) {
    struct made name = {0};
    add_label(&name, "ns", index % 5);
    add_label(&name, "EXAMPLE", -1);
    end_name(&name);
    return name;
}

static struct made exchange_of(unsigned index) {
    struct made name = {0};
    add_label(&name, "mx", index % 3);
    add_label(&name, "example", -1);
    end_name(&name);
    return name;
}

/* Whether the name at a place of the message is this one. Both are in lowercase. */
static inline int is_name_at(size_t at, const uint8_t *name) {
    for (;;) {
        while (built[at] >= 192) at = (built[at] << 8 | built[at + 1]) & 0x3fff;
        unsigned n = *name;
        if (built[at] != n) return 0;
        if (n == 0) return 1;
        if (memcmp(built_lower + at + 1, name + 1, n) != 0) return 0;
        at += 1 + n, name += 1 + n;
    }
}

/* The first known place with a name, or 0. */
static unsigned place_of(const uint8_t *name) {
    for (unsigned i = 0; i < known_count; i++)
        if (is_name_at(known[i], name)) return known[i];
    return 0;
}

/* Writes a name: a pointer in place of its longest known suffix, and before that its labels, which are known from then on. */
static void put_made(const struct made *name) {
    unsigned cut = 0, target = 0;
    while (cut < name->count && !(target = place_of(name->lower + name->labels[cut]))) cut++;
    unsigned n = target ? name->labels[cut] : name->size;
    memcpy(built + built_size, name->octets, sizeof name->octets);
    memcpy(built_lower + built_size, name->lower, sizeof name->lower);
    for (unsigned i = 0; i < cut; i++) {
        size_t at = built_size + name->labels[i];
        if (known_count == MOST_PLACES || at > LAST_PLACE) break;
        known[known_count++] = at;
    }
    built_size += n;
    if (target) put_short(0xc000 | target);
}

/* ---- records */

/* Data of a type: an address, a server, an exchange or a text. */
static void put_data(unsigned index) {
    struct made name;
    uint8_t *start;
    switch (index % 4) {
    case 0:
        put_short(10 << 8);
        put_short(index);
        break;
    case 1:
        name = server_of(index);
        put_made(&name);
        break;
    case 2:
        name = exchange_of(index);
        put_short(index);
        put_made(&name);
        break;
    default:
        start = built + built_size;
        start[1] = 't';
        built_size = put_decimal(start + 2, index) - built;
        *start = built + built_size - start - 1;
    }
}

static void put_record(unsigned index) {
    static const uint8_t types[] = {1, 2, 15, 16};
    struct made owner = owner_of(index);
    put_made(&owner);
    put_short(types[index % 4]);
    put_short(1);
    put_short(0);
    put_short(60 + index % 3);
    size_t data = built_size + 2;
    built_size = data;
    put_data(index);
    size_t after = built_size;
    built_size = data - 2;
    put_short(after - data);
    built_size = after;
}

/* Puts the digits of the message into the texts. */
static void put_digits(char *restrict out, const uint8_t *restrict from, size_t n) {
    for (size_t i = 0; i < n; i++) {
        uint8_t high = from[i] >> 4, low = from[i] & 15;
        out[2 * i] = high + (high > 9 ? 'a' - 10 : '0');
        out[2 * i + 1] = low + (low > 9 ? 'a' - 10 : '0');
    }
}

/* The number that a word is: 0 to 1,000, without a sign or a leading zero. */
static unsigned count_in(const char *word) {
    unsigned value = 0, n = strlen(word);
    if (n < 1 || n > 4 || (n > 1 && word[0] == '0')) stop(USAGE, "usage\n");
    for (; *word; word++) {
        if (*word < '0' || *word > '9') stop(USAGE, "usage\n");
        value = 10 * value + (*word - '0');
    }
    if (value > MOST_RECORDS) stop(USAGE, "usage\n");
    return value;
}

int main(int words, char **word) {
    if (words < 2) stop(USAGE, "usage\n");
    unsigned count = count_in(word[1]);
    built[6] = count >> 8, built[7] = count;
    for (unsigned i = 0; i < count; i++) put_record(i);
    put_digits(texts, built, built_size);
    if (words > 2) {
        texts[2 * built_size] = '\n';
        write_all(texts, 2 * built_size + 1);
        return 0;
    }
    struct list list = list_of(0, 2 * built_size);
    size_t sum = 0;
    for (size_t i = 0; i < list.count; i++) {
        const struct record *r = list.entries[i].record;
        sum += (r->owner.digits_size + r->rest_size) / 2;
    }
    char line[96];
    snprintf(line, sizeof line, "records %zu octets %zu message %zu\n", list.count, sum, built_size);
    write_all(line, strlen(line));
    return 0;
}
