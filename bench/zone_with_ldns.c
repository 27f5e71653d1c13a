/* The input of a zone's digest, and the digest, by ldns: one message a line. With the word `stream`, the input itself is written. */
#include "ldns_records.h"

static char text[4194305];

int main(int argc, char **argv) {
    int writes = argc > 1 && strcmp(argv[1], "stream") == 0;
    size_t n = fread(text, 1, sizeof text, stdin);
    ldns_rr_list *all = ldns_rr_list_new();
    for (size_t at = 0; at < n;) {
        char *end = memchr(text + at, '\n', n - at);
        size_t stop = end ? (size_t)(end - text) : n;
        if (stop > at) read_message(all, text + at, stop - at);
        at = stop + 1;
    }
    ldns_rr_list_sort(all);
    ldns_buffer *buffer = ldns_buffer_new(65800);
    ldns_sha384_CTX hash;
    ldns_sha384_init(&hash);
    size_t count = ldns_rr_list_rr_count(all), records = 0, octets = 0;
    for (size_t i = 0; i < count; records++) {
        i = write_next(buffer, all, i);
        size_t size = ldns_buffer_position(buffer);
        octets += size;
        if (writes) fwrite(ldns_buffer_begin(buffer), 1, size, stdout);
        ldns_sha384_update(&hash, ldns_buffer_begin(buffer), size);
    }
    uint8_t digest[LDNS_SHA384_DIGEST_LENGTH];
    ldns_sha384_final(digest, &hash);
    if (writes) return 0;
    printf("records %zu octets %zu\ndigest ", records, octets);
    for (size_t i = 0; i < sizeof digest; i++) printf("%02x", digest[i]);
    putchar('\n');
    return 0;
}
