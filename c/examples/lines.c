/* Prints with the library what `dnscanon` prints: `lines canon`, `same`, `normal`, `keytags`, `zone APEX` and `hash NAME SALT N`. Messages come
 * as lines of hexadecimal digits on standard input. Names on the command line have no escapes. The status is the answer of the call. */
#include <nelgvasti.h>
#include <stdio.h>
#include <stdlib.h>
#include <string.h>

/* Some octets on the heap. */
struct octets {
    uint8_t *at;
    size_t length;
};

static void *checked(void *memory) {
    if (!memory) exit(NELGVASTI_MEMORY);
    return memory;
}

static struct octets room_for(size_t length) {
    /* No pointer is null, so at least one octet. */
    struct octets octets = {checked(calloc(length ? length : 1, 1)), length};
    return octets;
}

/* The octets that a text of hexadecimal digits spells. */
static struct octets octets_of(const char *text) {
    struct octets octets = room_for(strlen(text) / 2);
    for (size_t i = 0; i < octets.length; i++) {
        unsigned octet = 0;
        if (sscanf(text + 2 * i, "%2x", &octet) != 1) exit(3);
        octets.at[i] = (uint8_t)octet;
    }
    return octets;
}

/* A name in wire format, by its text. */
static struct octets name_of(const char *text) {
    struct octets name = room_for(strlen(text) + 1);
    size_t start = 0;
    for (size_t i = 0; text[i]; i++) {
        if (text[i] == '.') {
            name.at[start] = (uint8_t)(i - start);
            start = i + 1;
        } else {
            name.at[i + 1] = (uint8_t)text[i];
        }
    }
    name.at[start] = 0;
    name.length = start + 1;
    return name;
}

/* The messages on standard input: their octets one after the other, and the length of each. */
struct messages {
    struct octets octets;
    size_t lengths[4096];
    size_t count;
};

static void read_messages(struct messages *messages) {
    static char line[4200000];
    messages->octets = room_for(sizeof line);
    messages->octets.length = 0;
    messages->count = 0;
    while (messages->count < 4096 && fgets(line, sizeof line, stdin)) {
        line[strcspn(line, "\r\n")] = 0;
        struct octets one = octets_of(line);
        memcpy(messages->octets.at + messages->octets.length, one.at, one.length);
        messages->octets.length += one.length;
        messages->lengths[messages->count++] = one.length;
        free(one.at);
    }
}

static void print_line(const uint8_t *octets, size_t length) {
    for (size_t i = 0; i < length; i++) printf("%02x", octets[i]);
    putchar('\n');
}

/* How many octets the record has with which these begin: it says so itself. */
static size_t record_size(const uint8_t *octets) {
    size_t end = 0;
    while (octets[end]) end += 1 + octets[end];
    return end + 11 + ((size_t)octets[end + 9] << 8 | octets[end + 10]);
}

static uint32_t refused(uint32_t answer, const struct nelgvasti_item_position *position) {
    if (answer == NELGVASTI_SHORT) fprintf(stderr, "short %u\n", position->message);
    if (answer == NELGVASTI_ITEM) fprintf(stderr, "item %u %u %u\n", position->message, position->section, position->index);
    return answer;
}

/* The canonical list of a message, for which memory is taken once. */
static uint32_t list_of(const struct messages *messages, struct octets *list) {
    struct nelgvasti_item_position position = {0, 0, 0};
    size_t octets = 0, records = 0;
    uint32_t answer = nelgvasti_canonical_size(messages->octets.at, messages->octets.length, &octets, &records, &position);
    if (answer != NELGVASTI_DONE) return refused(answer, &position);
    *list = room_for(octets);
    return refused(nelgvasti_canonical(messages->octets.at, messages->octets.length, list->at, octets, &list->length, &position), &position);
}

static uint32_t canon(const struct messages *messages) {
    struct octets list;
    uint32_t answer = list_of(messages, &list);
    if (answer != NELGVASTI_DONE) return answer;
    for (size_t at = 0; at < list.length; at += record_size(list.at + at)) print_line(list.at + at, record_size(list.at + at));
    free(list.at);
    return answer;
}

static uint32_t keytags(const struct messages *messages) {
    struct octets list;
    uint32_t answer = list_of(messages, &list);
    if (answer != NELGVASTI_DONE) return answer;
    for (size_t at = 0, size; at < list.length; at += size) {
        const uint8_t *record = list.at + at, *owner_end = record;
        size = record_size(record);
        while (*owner_end) owner_end += 1 + *owner_end;
        if (owner_end[1] != 0 || owner_end[2] != 48) continue;
        uint16_t tag = 0;
        if (nelgvasti_key_tag(owner_end + 11, (size_t)(record + size - owner_end - 11), &tag) == NELGVASTI_DONE) printf("%u\n", tag);
        else puts("-");
    }
    free(list.at);
    return answer;
}

static uint32_t same(const struct messages *messages) {
    struct nelgvasti_item_position position = {0, 0, 0};
    uint32_t same = 0;
    size_t first = messages->count > 0 ? messages->lengths[0] : 0;
    const uint8_t *octets = messages->octets.at;
    uint32_t answer = nelgvasti_same(octets, first, octets + first, messages->octets.length - first, &same, &position);
    if (answer == NELGVASTI_DONE) puts(same ? "same" : "different");
    return refused(answer, &position);
}

static uint32_t normal(const struct messages *messages) {
    static uint8_t form[65535];
    struct nelgvasti_item_position position = {0, 0, 0};
    size_t length = 0;
    uint32_t answer = nelgvasti_normal(messages->octets.at, messages->octets.length, form, sizeof form, &length, &position);
    if (answer == NELGVASTI_DONE) print_line(form, length);
    return refused(answer, &position);
}

static uint32_t zone(const struct messages *messages, const char *apex) {
    struct nelgvasti_item_position position = {0, 0, 0};
    struct nelgvasti_digest digest;
    memset(&digest, 0, sizeof digest);
    struct octets name = name_of(apex);
    uint32_t answer = nelgvasti_zone_digest(messages->octets.at, messages->octets.length, messages->lengths, messages->count,
                                            name.at, name.length, &digest, &position);
    free(name.at);
    if (answer == NELGVASTI_DONE) {
        printf("records %llu octets %llu\ndigest ", (unsigned long long)digest.records, (unsigned long long)digest.octets);
        print_line(digest.digest, sizeof digest.digest);
    }
    return refused(answer, &position);
}

/* Prints 20 octets in base32hex (RFC 4648 section 7). */
static void print_hash(const uint8_t *octets) {
    for (unsigned digit = 0; digit < 32; digit++) {
        unsigned bit = 5 * digit, pair = (unsigned)octets[bit / 8] << 8 | (bit / 8 < 19 ? octets[bit / 8 + 1] : 0);
        putchar("0123456789abcdefghijklmnopqrstuv"[pair >> (11 - bit % 8) & 31]);
    }
    putchar('\n');
}

static uint32_t hash(const char *text, const char *salt_text, const char *iterations) {
    struct octets name = name_of(text), salt = octets_of(strcmp(salt_text, "-") ? salt_text : "");
    struct nelgvasti_hash hash = {{0}};
    uint32_t answer = nelgvasti_nsec3_hash(name.at, name.length, salt.at, salt.length, (uint16_t)atoi(iterations), &hash);
    free(name.at);
    free(salt.at);
    if (answer == NELGVASTI_DONE) print_hash(hash.octets);
    return answer;
}

int main(int count, char **words) {
    static struct messages messages;
    const char *command = count > 1 ? words[1] : "";
    if (nelgvasti_version() >> 8 != NELGVASTI_VERSION >> 8) return NELGVASTI_USAGE;
    if (count == 5 && !strcmp(command, "hash")) return (int)hash(words[2], words[3], words[4]);
    read_messages(&messages);
    uint32_t answer = NELGVASTI_USAGE;
    if (count == 2 && !strcmp(command, "canon")) answer = canon(&messages);
    if (count == 2 && !strcmp(command, "keytags")) answer = keytags(&messages);
    if (count == 2 && !strcmp(command, "same")) answer = same(&messages);
    if (count == 2 && !strcmp(command, "normal")) answer = normal(&messages);
    if (count == 3 && !strcmp(command, "zone")) answer = zone(&messages, words[2]);
    free(messages.octets.at);
    return (int)answer;
}
