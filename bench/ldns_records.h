/* Records of messages in hexadecimal, read by ldns, and walked in canonical order. */
#include <ldns/ldns.h>
#include <stdio.h>
#include <stdlib.h>
#include <string.h>

static void fail(const char *what) {
    fprintf(stderr, "%s\n", what);
    exit(1);
}

static unsigned value(char c) {
    return c <= '9' ? c - '0' : (c | 32) - 'a' + 10;
}

static void keep(ldns_rr_list *all, ldns_rr_list *section) {
    for (size_t i = 0; i < ldns_rr_list_rr_count(section); i++) {
        ldns_rr *rr = ldns_rr_list_rr(section, i);
        ldns_rr2canonical(rr);
        ldns_rr_list_push_rr(all, rr);
    }
}

/* Adds the records of a message to a list, and gives the message, which owns them. */
static ldns_pkt *read_message(ldns_rr_list *all, const char *line, size_t digits) {
    static uint8_t message[65536];
    for (size_t i = 0; i + 1 < digits; i += 2) message[i / 2] = value(line[i]) << 4 | value(line[i + 1]);
    ldns_pkt *pkt;
    if (ldns_wire2pkt(&pkt, message, digits / 2) != LDNS_STATUS_OK) fail("no message");
    keep(all, ldns_pkt_answer(pkt));
    keep(all, ldns_pkt_authority(pkt));
    keep(all, ldns_pkt_additional(pkt));
    return pkt;
}

/* Writes the canonical octets of the record at `i` to the buffer, and gives where the next one is. Alike records are together, since
   ldns does not compare TTLs: of those that are alike the one with the least TTL is written. */
static size_t write_next(ldns_buffer *buffer, ldns_rr_list *sorted, size_t i) {
    size_t count = ldns_rr_list_rr_count(sorted);
    ldns_rr *least = ldns_rr_list_rr(sorted, i);
    for (i++; i < count && ldns_rr_compare(least, ldns_rr_list_rr(sorted, i)) == 0; i++)
        if (ldns_rr_ttl(ldns_rr_list_rr(sorted, i)) < ldns_rr_ttl(least)) least = ldns_rr_list_rr(sorted, i);
    ldns_buffer_clear(buffer);
    if (ldns_rr2buffer_wire_canonical(buffer, least, LDNS_SECTION_ANSWER) != LDNS_STATUS_OK) fail("no octets");
    return i;
}
