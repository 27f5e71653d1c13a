/* The canonical list of one message, a number of times in one process: by the C library, or by ldns if WITH_LDNS is defined. The message comes as
 * a line of hexadecimal digits. With 0 times the list is printed, as one line. Else nothing is. */
#include <stdint.h>
#include <stdio.h>
#include <stdlib.h>
#include <string.h>

enum { ROOM = 4000000 };

static uint8_t message[65536];
static const uint8_t *list;

static void stop(const char *what) {
    fprintf(stderr, "%s\n", what);
    exit(1);
}

#ifdef WITH_LDNS
#include <ldns/ldns.h>

static void keep(ldns_rr_list *all, const ldns_rr_list *section) {
    for (size_t i = 0; i < ldns_rr_list_rr_count(section); i++) {
        ldns_rr *rr = ldns_rr_list_rr(section, i);
        ldns_rr2canonical(rr);
        ldns_rr_list_push_rr(all, rr);
    }
}

/* ldns keeps OPT apart from the other records. Of alike records, which come together, the one with the least TTL is written. */
static size_t list_of(size_t length) {
    ldns_pkt *pkt;
    if (ldns_wire2pkt(&pkt, message, length) != LDNS_STATUS_OK) stop("no message");
    ldns_rr_list *all = ldns_rr_list_new();
    keep(all, ldns_pkt_answer(pkt));
    keep(all, ldns_pkt_authority(pkt));
    keep(all, ldns_pkt_additional(pkt));
    ldns_rr_list_sort(all);
    static ldns_buffer *buffer;
    if (!buffer) buffer = ldns_buffer_new(ROOM);
    ldns_buffer_clear(buffer);
    size_t count = ldns_rr_list_rr_count(all);
    for (size_t i = 0; i < count;) {
        ldns_rr *least = ldns_rr_list_rr(all, i);
        for (i++; i < count && ldns_rr_compare(least, ldns_rr_list_rr(all, i)) == 0; i++)
            if (ldns_rr_ttl(ldns_rr_list_rr(all, i)) < ldns_rr_ttl(least)) least = ldns_rr_list_rr(all, i);
        if (ldns_rr2buffer_wire_canonical(buffer, least, LDNS_SECTION_ANSWER) != LDNS_STATUS_OK) stop("no octets");
    }
    ldns_rr_list_free(all);
    ldns_pkt_free(pkt);
    list = ldns_buffer_begin(buffer);
    return ldns_buffer_position(buffer);
}
#else
#include <nelgvasti.h>

static size_t list_of(size_t length) {
    struct nelgvasti_item_position position = {0, 0, 0};
    static uint8_t out[ROOM];
    size_t written = 0;
    list = out;
    if (nelgvasti_canonical(message, length, out, ROOM, &written, &position) != NELGVASTI_DONE) stop("no message");
    return written;
}
#endif

int main(int count, char **words) {
    static char line[131074];
    if (count != 2 || !fgets(line, sizeof line, stdin)) stop("usage: calls TIMES < MESSAGE");
    size_t length = strcspn(line, "\r\n") / 2, written = 0;
    for (size_t i = 0; i < length; i++) {
        unsigned octet = 0;
        if (sscanf(line + 2 * i, "%2x", &octet) != 1) stop("no digits");
        message[i] = (uint8_t)octet;
    }
    long times = atol(words[1]);
    for (long i = 0; i < times; i++) written += list_of(length);
    if (times) return written == 0;
    written = list_of(length);
    for (size_t i = 0; i < written; i++) printf("%02x", list[i]);
    putchar('\n');
    return 0;
}
