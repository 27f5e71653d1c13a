/* Owners in full, which are compared label by label from the root on. */

/* An owner: its digits; its octets, which are in lowercase, and where in these each label begins; and how many labels it has. */
struct owner {
    const char *digits;
    const uint8_t *octets, *labels;
    unsigned digits_size, count;
};

/* Copies n octets with A to Z in lowercase and gives where they end. They are copied 16 at a time, of which the compiler makes blocks. */
static inline uint8_t *copy_lower(uint8_t *restrict to, const uint8_t *restrict from, size_t n) {
    for (size_t at = 0; at < n; at += 16)
        for (size_t i = at; i < at + 16; i++) to[i] = from[i] + ((uint8_t)(from[i] - 'A') < 26 ? 32 : 0);
    return to + n;
}

static inline size_t read_owner(size_t at, struct owner *owner) {
    struct name name;
    uint8_t *lower = (uint8_t *)read_in_full(at, &name, &owner->digits), *labels = lower;
    owner->digits_size = 2 * name.octets;
    owner->count = name.count;
    owner->octets = lower;
    for (unsigned i = 0; i < name.run_count; i++) labels = copy_lower(labels, octets + name.runs[i].start, name.runs[i].size);
    owner->labels = labels;
    for (unsigned i = 0, begins = 0; i < name.count; i++) {
        labels[i] = begins;
        begins += 1 + lower[begins];
    }
    room = (char *)labels + name.count;
    return name.end;
}

/* Compares two labels, of which the first octet is the length. If they begin with the same eight octets, they have one length. */
static inline int label_cmp(const uint8_t *a, const uint8_t *b) {
    unsigned m = *a, n = *b;
    if (memcmp(a, b, 8) == 0) return m < 8 ? 0 : memcmp(a + 8, b + 8, m - 7);
    unsigned least = m < n ? m : n;
    uint64_t x = eight(a + 1), y = eight(b + 1);
    if (least < 8) x >>= 64 - 8 * least, y >>= 64 - 8 * least;
    if (x != y) return x < y ? -1 : 1;
    int d = least > 8 ? memcmp(a + 9, b + 9, least - 8) : 0;
    return d ? d : (int)m - (int)n;
}

static inline int owner_cmp(const struct owner *a, const struct owner *b) {
    const uint8_t *p = a->labels + a->count, *q = b->labels + b->count;
    for (unsigned left = a->count < b->count ? a->count : b->count; left > 0; left--) {
        int d = label_cmp(a->octets + *--p, b->octets + *--q);
        if (d) return d;
    }
    return (int)a->count - (int)b->count;
}
