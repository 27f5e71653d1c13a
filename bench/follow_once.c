/* As `keyed.c`, but what is at the target of a pointer is read once: a table has the name at each place that a pointer led to. It is what
 * the program's speed is measured against on messages that are all pointers. */
#include "canon_digits.h"
#include "keyed_owners.h"

/* The name that is at a place, how far reading it looked, and in which message it was read, from 1. */
struct target {
    struct owner name;
    uint32_t reach, known_in;
};

enum { PLACES = 16384 };

static struct target targets[PLACES];

/* The labels of a name before its pointer or its root: where each begins, how many octets they have, where the name ends, and where the
 * pointer leads, or 0. */
struct labels {
    uint32_t each[MOST_LABELS];
    unsigned count, octets;
    size_t start, end, target;
};

static inline void read_labels(size_t at, size_t bound, int pointers, struct labels *read) {
    unsigned count = 0, length;
    size_t start = at;
    for (;;) {
        if (at >= bound) refuse();
        length = octets[at];
        if (length == 0 || length > 63) break;
        if (at + length - start >= MOST_NAME - 1) refuse();
        read->each[count++] = at;
        at += 1 + length;
    }
    read->count = count;
    read->octets = at - start;
    read->start = start;
    read->end = at + 1;
    read->target = 0;
    if (length == 0) return;
    if (!pointers || length < 192 || at + 2 > bound) refuse();
    read->end = at + 2;
    read->target = number(at) & 0x3fff;
    if (read->target < HEADER || read->target >= start) refuse();
}

/* A name: its own labels, and the name that its pointer leads to, or NULL. */
struct name {
    struct labels own;
    const struct owner *base;
    unsigned octets;
    int has_pointer;
    size_t end;
};

/* Writes the digits of a name with its letters in lowercase. */
static inline char *put_parts(char *out, const struct labels *own, const struct owner *base) {
    out = copy(out, small + 2 * own->start, 2 * own->octets + 2);
    return base ? copy(out - 2, base->digits, base->digits_size) : out;
}

/* Makes one name of labels and the name that their pointer leads to, or NULL. */
static inline void join(struct owner *made, const struct labels *own, const struct owner *base) {
    char *out = room_for(4 * MOST_NAME + STEP);
    made->digits = base ? out : small + 2 * own->start;
    made->digits_size = 2 * own->octets + (base ? base->digits_size : 2);
    if (made->digits_size > 2 * MOST_NAME) refuse();
    if (base) out = put_parts(out, own, base);
    const char *key = out;
    if (base) out = copy(out, base->key, base->key_size);
    end_key(made, key, out, own->each, own->count);
}

/* Puts the name at a place in the table. The target of its pointer is there already. */
static void settle(size_t place) {
    struct labels own;
    struct target *made = &targets[place];
    read_labels(place, size, 1, &own);
    const struct target *base = own.target ? &targets[own.target] : NULL;
    if (base && own.count == 0) made->name = base->name;
    else join(&made->name, &own, base ? &base->name : NULL);
    made->reach = base && base->reach > own.end ? base->reach : own.end;
    made->known_in = reading + 1;
}

/* The name at the target of a pointer. Targets on the way that are not known are settled from the last one back. */
static const struct target *target_at(size_t place) {
    static uint16_t open[PLACES];
    unsigned count = 0;
    for (size_t at = place; at && targets[at].known_in != reading + 1;) {
        struct labels own;
        read_labels(at, size, 1, &own);
        open[count++] = at;
        at = own.target;
    }
    while (count-- > 0) settle(open[count]);
    return &targets[place];
}

/* Reads the name at a place, whose octets are all before the bound. */
static inline void read_name(size_t at, size_t bound, int pointers, struct name *name) {
    read_labels(at, bound, pointers, &name->own);
    name->base = NULL;
    name->octets = name->own.octets + 1;
    name->end = name->own.end;
    name->has_pointer = name->own.target != 0;
    if (!name->has_pointer) return;
    const struct target *target = target_at(name->own.target);
    if (target->reach > bound) refuse();
    name->base = &target->name;
    name->octets += target->name.digits_size / 2 - 1;
    if (name->octets > MOST_NAME) refuse();
}

static inline char *put_name(char *out, const struct name *name) { return put_parts(out, &name->own, name->base); }

static inline size_t read_owner(size_t at, struct owner *owner) {
    struct name name;
    read_name(at, size, 1, &name);
    if (name.base && name.own.count == 0) *owner = *name.base;
    else join(owner, &name.own, name.base);
    return name.end;
}

#include "canon_records.h"
#include "keyed_order.h"
#include "canon_list.h"
#include "canon_commands.h"
