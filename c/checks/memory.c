/* Refuses the first request for memory of each call, then the second, and so on until the call ends without a refusal. A call that is refused
 * must answer NELGVASTI_MEMORY, leave all that it may write as it was, and give back all that it took. Prints how many requests each call
 * made, or what was wrong. It is linked with --wrap for malloc, realloc and free. */
#include "message.h"
#include <nelgvasti.h>
#include <stdlib.h>

void *__real_malloc(size_t size);
void *__real_realloc(void *memory, size_t size);
void __real_free(void *memory);

static long left = -1, taken;

static int is_refused(void) {
    if (left == 0) return 1;
    if (left > 0) left--;
    return 0;
}

void *__wrap_malloc(size_t size) {
    if (is_refused()) return 0;
    void *memory = __real_malloc(size);
    if (memory) taken++;
    return memory;
}

void *__wrap_realloc(void *memory, size_t size) {
    return is_refused() ? 0 : __real_realloc(memory, size);
}

void __wrap_free(void *memory) {
    if (memory) taken--;
    __real_free(memory);
}

/* What the calls may write. */
struct state {
    uint8_t out[262144];
    size_t out_length, records;
    uint32_t same;
    struct nelgvasti_digest digest;
    struct nelgvasti_item_position position;
};

static struct state state, before;
static size_t length;

static uint32_t call_size(void) {
    return nelgvasti_canonical_size(message, length, &state.out_length, &state.records, &state.position);
}

static uint32_t call_canonical(void) {
    return nelgvasti_canonical(message, length, state.out, sizeof state.out, &state.out_length, &state.position);
}

static uint32_t call_size_by(void) {
    return nelgvasti_canonical_size_by(NELGVASTI_LISTED, message, length, &state.out_length, &state.records, &state.position);
}

static uint32_t call_canonical_by(void) {
    return nelgvasti_canonical_by(NELGVASTI_LISTED, message, length, state.out, sizeof state.out, &state.out_length, &state.position);
}

static uint32_t call_same(void) {
    return nelgvasti_same(message, length, message, length, &state.same, &state.position);
}

static uint32_t call_normal(void) {
    return nelgvasti_normal(message, length, state.out, sizeof state.out, &state.out_length, &state.position);
}

static uint32_t call_zone(void) {
    static const uint8_t apex[] = "\7example";
    return nelgvasti_zone_digest(message, length, &length, 1, apex, sizeof apex, &state.digest, &state.position);
}

static uint32_t call_zone_by(void) {
    static const uint8_t apex[] = "\7example";
    return nelgvasti_zone_digest_by(NELGVASTI_LISTED, message, length, &length, 1, apex, sizeof apex, &state.digest, &state.position);
}

static int check(const char *name, uint32_t (*call)(void)) {
    for (long requests = 0; requests < 1000; requests++) {
        memset(&state, 7, sizeof state);
        before = state;
        left = requests;
        taken = 0;
        uint32_t answer = call();
        left = -1;
        if (taken != 0) return printf("%s: kept memory at request %ld\n", name, requests), 1;
        if (answer == NELGVASTI_DONE) return printf("%s: %ld requests\n", name, requests), 0;
        if (answer != NELGVASTI_MEMORY) return printf("%s: answer %u at request %ld\n", name, answer, requests), 1;
        if (memcmp(&state, &before, sizeof state)) return printf("%s: wrote at request %ld\n", name, requests), 1;
    }
    return printf("%s: too many requests\n", name), 1;
}

int main(void) {
    length = read_message();
    int wrong = check("nelgvasti_canonical_size", call_size) + check("nelgvasti_canonical", call_canonical) + check("nelgvasti_same", call_same) +
                check("nelgvasti_normal", call_normal) + check("nelgvasti_zone_digest", call_zone) +
                check("nelgvasti_canonical_size_by", call_size_by) + check("nelgvasti_canonical_by", call_canonical_by) +
                check("nelgvasti_zone_digest_by", call_zone_by);
    return wrong != 0;
}
