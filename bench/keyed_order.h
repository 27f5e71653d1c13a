/* The order of records whose owners have keys. */

/* What is sorted: a record, and the first octets of its key that not all keys begin with. */
struct entry {
    uint64_t head;
    const struct record *record;
};

/* Where the octets after the heads begin in the keys. */
static size_t after_heads;

/* ---- comparing */

/* Compares two keys that are the same before a place. */
static inline int keys_cmp(const struct owner *a, const struct owner *b, size_t from) {
    size_t least = a->key_size < b->key_size ? a->key_size : b->key_size;
    for (size_t at = from; at < least; at += 8) {
        uint64_t x = eight(a->key + at), y = eight(b->key + at);
        if (x != y) return x < y ? -1 : 1;
    }
    return (a->key_size > b->key_size) - (a->key_size < b->key_size);
}

/* Compares records whose entries have the same head, by all but their TTL. The heads of the records have eight digits of the data. */
static inline int rest_cmp(const struct record *r, const struct record *s) {
    if (r->owner.key != s->owner.key && (r->owner.key_size != s->owner.key_size || r->owner.key_size > after_heads)) {
        int d = keys_cmp(&r->owner, &s->owner, after_heads);
        if (d) return d;
    }
    if (r->head != s->head) return r->head < s->head ? -1 : 1;
    return data_cmp(r, s, 8);
}

static inline int is_before(const struct entry *a, const struct entry *b) {
    if (a->head != b->head) return a->head < b->head;
    int d = rest_cmp(a->record, b->record);
    return d ? d < 0 : a->record->ttl < b->record->ttl;
}

/* Whether records are alike except for their TTL. */
static inline int are_alike(const struct entry *a, const struct entry *b) {
    return a->head == b->head && rest_cmp(a->record, b->record) == 0;
}

/* ---- entries */

/* The number that the first eight digits spell. If there are fewer, others are 0. */
static inline uint32_t four_octets(const char *digits, size_t n) {
    uint64_t value = eight(digits);
    if (n < 8) value = n == 0 ? 0 : value >> (64 - 8 * n) << (64 - 8 * n);
    value = (value & 0x0f0f0f0f0f0f0f0f) + 9 * (value >> 6 & 0x0101010101010101);
    value = (value >> 4 | value) & 0x00ff00ff00ff00ff;
    value = (value >> 8 | value) & 0x0000ffff0000ffff;
    return value >> 16 | value;
}

/* How many of the octets that a key begins with, at most `most`, another begins with. */
static size_t agreement(const struct owner *a, const struct owner *b, size_t most) {
    size_t least = b->key_size < most ? b->key_size : most, at = 0;
    if (a->key == b->key || memcmp(a->key, b->key, least) == 0) return least;
    while (a->key[at] == b->key[at]) at++;
    return at;
}

static void make_entries(struct entry *entries, struct record *all, size_t count) {
    size_t common = all[0].owner.key_size;
    for (size_t i = 1; i < count; i++) common = agreement(&all[0].owner, &all[i].owner, common);
    for (size_t i = 0; i < count; i++) {
        struct record *r = &all[i];
        r->head |= four_octets(r->rest + 2 * FIXED, r->rest_size - 2 * FIXED);
        entries[i] = (struct entry){eight(r->owner.key + common), r};
    }
    after_heads = common + 8;
}
