/* Names whose pointers are followed each time that a name is read. */

/* A name that is read: where each of its labels begins, the runs of labels that follow each other in the message, how many octets it has
 * in full with the root, whether it has a pointer, and where it ends. */
struct name {
    uint32_t labels[MOST_LABELS + 1];   /* with one more, for which a name is refused */
    struct run {
        uint32_t start, size;
    } runs[MOST_LABELS + 2];    /* those of a pointer and of a root alone are empty */
    unsigned count, run_count, octets;
    int has_pointer;
    size_t end;
};

/* Where pointers lead in the end. The first is at a place and has to lead before `start`. */
static inline size_t follow(size_t at, size_t start) {
    do {
        size_t target = number(at) & 0x3fff;
        if (target < HEADER || target >= start) refuse();
        start = at = target;
    } while (octets[at] >= 192);
    return at;
}

/* Reads the name at a place, whose octets are all before the bound. A pointer leads before the labels that led to it. */
static inline void read_name(size_t at, size_t bound, int pointers, struct name *name) {
    unsigned count = 0, run_count = 0, left = MOST_NAME - 1, length;
    size_t end = 0;
    for (;;) {
        size_t start = at, last = at + left < bound ? at + left : bound - 1;
        if (at >= bound) refuse();
        while (length = octets[at], length - 1 < 63) {
            name->labels[count++] = at;
            at += 1 + length;
            if (at > last) refuse();
        }
        name->runs[run_count++] = (struct run){start, at - start};
        left -= at - start;
        if (length == 0) break;
        if (!pointers || length < 192 || at + 2 > bound) refuse();
        if (!end) end = at + 2;
        at = follow(at, start);
    }
    name->count = count;
    name->run_count = run_count;
    name->octets = MOST_NAME - left;
    name->has_pointer = end != 0;
    name->end = end ? end : at + 1;
}

/* Writes the digits of a name with its letters in lowercase. */
static inline char *put_name(char *out, const struct name *name) {
    for (unsigned i = 0; i < name->run_count; i++) out = copy(out, small + 2 * name->runs[i].start, 2 * name->runs[i].size);
    out[0] = out[1] = '0';
    return out + 2;
}

/* Reads a name, and gives room after it. Its digits are those that stand in the message if it has no pointer, and else are written first in that room. */
static inline char *read_in_full(size_t at, struct name *name, const char **digits) {
    read_name(at, size, 1, name);
    char *out = room_for(4 * MOST_NAME + STEP);
    *digits = name->has_pointer ? out : small + 2 * at;
    return name->has_pointer ? put_name(out, name) : out;
}
