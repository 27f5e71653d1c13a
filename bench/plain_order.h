/* The order of records that are compared in place: by owner, class, type, canonical data and TTL. */

struct entry {
    const struct record *record;
};

static void make_entries(struct entry *entries, const struct record *all, size_t count) {
    for (size_t i = 0; i < count; i++) entries[i].record = &all[i];
}

static inline int cmp_but_ttl(const struct record *r, const struct record *s) {
    int d = owner_cmp(&r->owner, &s->owner);
    if (d) return d;
    if (r->head != s->head) return r->head < s->head ? -1 : 1;
    return data_cmp(r, s, 0);
}

static inline int is_before(const struct entry *a, const struct entry *b) {
    int d = cmp_but_ttl(a->record, b->record);
    return d ? d < 0 : a->record->ttl < b->record->ttl;
}

/* Whether records are alike except for their TTL. */
static inline int are_alike(const struct entry *a, const struct entry *b) { return cmp_but_ttl(a->record, b->record) == 0; }
