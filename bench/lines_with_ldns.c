/* The digest of the canonical octets of each message's records, by ldns: one message a line, one digest a line. */
#include "ldns_records.h"

static char line[131074];

int main(void) {
    ldns_buffer *buffer = ldns_buffer_new(65800);
    while (fgets(line, sizeof line, stdin)) {
        ldns_rr_list *all = ldns_rr_list_new();
        ldns_pkt *message = read_message(all, line, strcspn(line, "\n"));
        ldns_rr_list_sort(all);
        ldns_sha384_CTX hash;
        ldns_sha384_init(&hash);
        size_t count = ldns_rr_list_rr_count(all);
        for (size_t i = 0; i < count;) {
            i = write_next(buffer, all, i);
            ldns_sha384_update(&hash, ldns_buffer_begin(buffer), ldns_buffer_position(buffer));
        }
        uint8_t digest[LDNS_SHA384_DIGEST_LENGTH];
        ldns_sha384_final(digest, &hash);
        for (size_t i = 0; i < sizeof digest; i++) printf("%02x", digest[i]);
        putchar('\n');
        ldns_rr_list_free(all);
        ldns_pkt_free(message);
    }
    return 0;
}
