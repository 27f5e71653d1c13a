/* Four threads call the library a thousand times each, on stacks of 64 KB, with one message that all of them read, which has the zone
 * `example.`. Each must get what one call alone gets. Prints `same` if so. */
#include "message.h"
#include <nelgvasti.h>
#include <pthread.h>
#include <stdlib.h>

enum { THREADS = 4, CALLS = 1000, ROOM = 262144 };

static size_t length;

struct list {
    uint8_t octets[ROOM];
    size_t length;
    uint8_t form[65535];
    size_t form_length;
    struct nelgvasti_digest digest;
};

static int fill(struct list *list) {
    struct nelgvasti_item_position position = {0, 0, 0};
    uint32_t same = 0;
    static const uint8_t apex[] = "\7example";
    return nelgvasti_zone_digest(message, length, &length, 1, apex, sizeof apex, &list->digest, &position) == NELGVASTI_DONE &&
           nelgvasti_canonical(message, length, list->octets, ROOM, &list->length, &position) == NELGVASTI_DONE &&
           nelgvasti_normal(message, length, list->form, sizeof list->form, &list->form_length, &position) == NELGVASTI_DONE &&
           nelgvasti_same(message, length, list->form, list->form_length, &same, &position) == NELGVASTI_DONE && same == 1;
}

static struct list alone;

static void *calls(void *argument) {
    struct list *list = calloc(1, sizeof *list);
    int agree = list != 0;
    for (int call = 0; agree && call < CALLS; call++) {
        memset(list, 0, sizeof *list);
        agree = fill(list) && memcmp(list, &alone, sizeof *list) == 0;
    }
    free(list);
    return agree ? argument : 0;
}

int main(void) {
    pthread_t threads[THREADS];
    pthread_attr_t attributes;
    length = read_message();
    int agree = fill(&alone) && pthread_attr_init(&attributes) == 0 && pthread_attr_setstacksize(&attributes, 65536) == 0;
    int started = 0;
    while (agree && started < THREADS && pthread_create(&threads[started], &attributes, calls, &alone) == 0) started++;
    agree = agree && started == THREADS;
    for (int i = 0; i < started; i++) {
        void *result = 0;
        pthread_join(threads[i], &result);
        agree = agree && result;
    }
    puts(agree ? "same" : "different");
    return !agree;
}
