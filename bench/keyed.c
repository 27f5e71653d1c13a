/* As `plain.c`, but owners have keys, so that two are compared by words, and the part that all keys begin with is passed over. It is a
 * further mark. */
#include "canon_digits.h"
#include "keyed_owners.h"
#include "plain_names.h"

static inline size_t read_owner(size_t at, struct owner *owner) {
    struct name name;
    char *out = read_in_full(at, &name, &owner->digits);
    owner->digits_size = 2 * name.octets;
    end_key(owner, out, out, name.labels, name.count);
    return name.end;
}

#include "canon_records.h"
#include "keyed_order.h"
#include "canon_list.h"
#include "canon_commands.h"
