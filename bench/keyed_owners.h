/* Owners by keys, for `keyed.c` and `follow_once.c`. */

/* An owner: its digits, and its key, which has the order of owners: the digits of its labels from the last to the first, each with a 0
 * after it. Eight octets 0 follow a key. */
struct owner {
    const char *digits, *key;
    unsigned digits_size, key_size;
};

/* Gives an owner a key, which is in room and of which the octets before `out` are written. Its labels, by where they begin in the message,
 * follow from the last to the first. */
static inline void end_key(struct owner *owner, const char *key, char *out, const uint32_t *labels, unsigned count) {
    for (unsigned i = count; i-- > 0;) {
        size_t label = labels[i];
        out = copy(out, small + 2 * label + 2, 2 * octets[label]);
        *out++ = 0;
    }
    owner->key = key;
    owner->key_size = out - key;
    memset(out, 0, 8);
    room = out + STEP;
}
