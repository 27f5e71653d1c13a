/* How the programs in C for `canon` make the canonical list: a merge sort of small entries, of which each leads to a record. */

static void insert_each(struct entry *entries, size_t n) {
    for (size_t i = 1; i < n; i++) {
        struct entry taken = entries[i];
        size_t at = i;
        for (; at > 0 && is_before(&taken, &entries[at - 1]); at--) entries[at] = entries[at - 1];
        entries[at] = taken;
    }
}

/* Merges the first `half` entries, which are taken to `other`, with those after them. */
static void merge(struct entry *entries, struct entry *other, size_t half, size_t n) {
    memcpy(other, entries, half * sizeof *entries);
    const struct entry *a = other, *end_of_a = other + half, *b = entries + half, *end_of_b = entries + n;
    for (;;) {
        if (is_before(b, a)) {
            *entries++ = *b++;
            if (b == end_of_b) break;
        } else {
            *entries++ = *a++;
            if (a == end_of_a) return;
        }
    }
    memcpy(entries, a, (end_of_a - a) * sizeof *a);
}

static void sort(struct entry *entries, struct entry *other, size_t n) {
    if (n <= 8) {
        insert_each(entries, n);
        return;
    }
    size_t half = n / 2;
    sort(entries, other, half);
    sort(entries + half, other, n - half);
    if (is_before(&entries[half], &entries[half - 1])) merge(entries, other, half, n);
}

/* ---- the canonical list */

struct list {
    struct entry *entries;
    size_t count;
};

/* Keeps one of alike records. The first has the least TTL. */
static size_t keep_one_of_alike(struct entry *entries, size_t n) {
    size_t kept = 0;
    for (size_t i = 0; i < n; i++)
        if (kept == 0 || !are_alike(&entries[kept - 1], &entries[i])) entries[kept++] = entries[i];
    return kept;
}

/* The records of the message whose digits begin at a place of the texts, in canonical order. */
static struct list list_of(size_t place, size_t digits) {
    text = texts + place, small = small_texts + place;
    size = digits / 2;
    spell(octets, small, text, size);
    if (size < HEADER) refuse_as_short();
    struct records read = read_message();
    struct list list = {malloc((2 * read.count + 1) * sizeof *list.entries), 0};
    if (!list.entries) stop(NO_MEMORY, "out of memory\n");
    if (read.count == 0) return list;
    make_entries(list.entries, read.all, read.count);
    sort(list.entries, list.entries + read.count, read.count);
    list.count = keep_one_of_alike(list.entries, read.count);
    return list;
}
