/* What the programs in C for `canon` share once names are read: records and their data. */

/* A record: its owner, and the digits of all that follows the owner in its line, which are borrowed from the text where they can be.
 * Records of one owner are first compared by class and type, which are the upper half of one number. */
struct record {
    struct owner owner;
    const char *rest;
    uint32_t rest_size, ttl;
    uint64_t head;
};

enum { FIXED = 10, OPT = 41 };

/* ---- data */

static void check_strings(size_t at, size_t end) {
    do {
        if (at >= end) refuse();
        at += 1 + octets[at];
    } while (at < end);
    if (at != end) refuse();
}

static void check_bitmap(size_t at, size_t end) {
    int last = -1;
    while (at < end) {
        if (at + 2 > end) refuse();
        int window = octets[at];
        unsigned many = octets[at + 1];
        at += 2 + many;
        if (window <= last || many < 1 || many > 32 || at > end || octets[at - 1] == 0) refuse();
        last = window;
    }
}

static void check_options(size_t at, size_t end) {
    while (at < end) {
        if (at + 4 > end) refuse();
        at += 4 + number(at + 2);
    }
    if (at != end) refuse();
}

/* Where the string at a place ends. */
static size_t string_end(size_t at, size_t end) {
    if (at >= end || at + 1 + octets[at] > end) refuse();
    return at + 1 + octets[at];
}

static void check_nsec(size_t at, size_t end) {
    struct name next;
    read_name(at, end, 0, &next);
    if (next.end == end) refuse();
    check_bitmap(next.end, end);
}

/* Data that are written as they stand. */
static void check_data(unsigned type, size_t at, size_t end) {
    size_t many = end - at;
    int is_good = 1;
    switch (type) {
    case 1: is_good = many == 4; break;
    case 13: is_good = string_end(string_end(at, end), end) == end; break;
    case 16: check_strings(at, end); break;
    case 28: is_good = many == 16; break;
    case OPT: check_options(at, end); break;
    case 43: case 48: case 59: case 60: is_good = many >= 4; break;
    case 47: check_nsec(at, end); break;
    case 50: check_bitmap(string_end(string_end(at + 4, end), end), end); break;
    case 51: is_good = string_end(at + 4, end) == end; break;
    case 63: is_good = many >= 6; break;
    }
    if (!is_good) refuse();
}

/* Data with names in lowercase: how many octets are before the names, how many names there are, whether they may have pointers, and
 * how many octets follow, or ANY. */
struct shape {
    uint8_t before, names, pointers;
    int8_t after;
};

enum { ANY = -1, MOST_NAMES = 2 };

static const struct shape shapes[64] = {
    [2] = {0, 1, 1, 0}, [5] = {0, 1, 1, 0}, [6] = {0, 2, 1, 20}, [12] = {0, 1, 1, 0}, [15] = {2, 1, 1, 0}, [17] = {0, 2, 1, 0},
    [33] = {6, 1, 0, 0}, [39] = {0, 1, 0, 0}, [46] = {18, 1, 0, ANY},
};

/* Puts four digits. */
static char *put_number(char *out, unsigned number) {
    for (int shift = 12; shift >= 0; shift -= 4) *out++ = "0123456789abcdef"[number >> shift & 15];
    return out;
}

/* Puts what follows the owner where names have pointers: they are written in full. */
static void put_rest(struct record *r, const struct shape *shape, size_t data, size_t after, size_t end, const struct name *names) {
    char *out = room_for(2 * (FIXED + shape->before + MOST_NAMES * MOST_NAME + (end - after)));
    char *from = out;
    out = copy(out, text + 2 * (data - FIXED), 2 * (FIXED + shape->before));
    for (unsigned i = 0; i < shape->names; i++) out = put_name(out, &names[i]);
    out = copy(out, text + 2 * after, 2 * (end - after));
    put_number(from + 2 * FIXED - 4, (out - from) / 2 - FIXED);
    r->rest = from;
    r->rest_size = out - from;
    room = out;
}

static void read_names(struct record *r, const struct shape *shape, size_t data, size_t end) {
    struct name names[MOST_NAMES];
    size_t first = data + shape->before, at = first;
    int has_pointer = 0;
    for (unsigned i = 0; i < shape->names; i++) {
        read_name(at, end, shape->pointers, &names[i]);
        at = names[i].end;
        has_pointer |= names[i].has_pointer;
    }
    if (shape->after != ANY && at + shape->after != end) refuse();
    if (has_pointer) put_rest(r, shape, data, at, end, names);
    else memcpy(text + 2 * first, small + 2 * first, 2 * (at - first));
}

/* ---- reading */

static size_t read_record(size_t at, struct record *r) {
    size_t fixed = read_owner(at, &r->owner), data = fixed + FIXED;
    if (data > size) refuse();
    unsigned type = number(fixed);
    size_t end = data + number(fixed + 8);
    if (end > size) refuse();
    r->ttl = long_number(fixed + 4);
    r->rest = text + 2 * fixed;
    r->rest_size = 2 * (end - fixed);
    r->head = (uint64_t)number(fixed + 2) << 48 | (uint64_t)type << 32;
    if (type < 64 && shapes[type].names) read_names(r, &shapes[type], data, end);
    else check_data(type, data, end);
    return end;
}

static size_t read_question(size_t at) {
    struct name name;
    read_name(at, size, 1, &name);
    if (name.end + 4 > size) refuse();
    return name.end + 4;
}

struct records {
    struct record *all;
    size_t count;
};

/* Reads all items, and gives the records other than OPT. */
static struct records read_message(void) {
    unsigned counts[4], most = 0;
    for (int i = 0; i < 4; i++) counts[i] = number(4 + 2 * i);
    for (int i = 1; i < 4; i++) most += counts[i];
    if (most > size / 11) most = size / 11;
    struct records read = {malloc((most + 1) * sizeof *read.all), 0};
    if (!read.all) stop(NO_MEMORY, "out of memory\n");
    size_t at = HEADER;
    for (section = 0; section < 4; section++)
        for (item = 0; item < counts[section]; item++) {
            if (section == 0) {
                at = read_question(at);
                continue;
            }
            at = read_record(at, &read.all[read.count]);
            if ((read.all[read.count].head >> 32 & 0xffff) != OPT) read.count++;
        }
    return read;
}

/* Compares the data of two records from a digit on, up to which they are the same. */
static int data_cmp(const struct record *r, const struct record *s, size_t same) {
    size_t m = r->rest_size, n = s->rest_size, least = m < n ? m : n, from = 2 * FIXED + same;
    int d = least > from ? memcmp(r->rest + from, s->rest + from, least - from) : 0;
    return d ? d : (m > n) - (m < n);
}
