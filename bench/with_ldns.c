/* The canonical lines of one message's records, as ldns reads, sorts and writes them. */
#include "ldns_records.h"

static char text[131073];

int main(void) {
    size_t n = fread(text, 1, sizeof text, stdin);
    while (n && text[n - 1] == '\n') n--;
    ldns_rr_list *all = ldns_rr_list_new();
    read_message(all, text, n);
    ldns_rr_list_sort(all);
    ldns_buffer *buffer = ldns_buffer_new(65800);
    size_t count = ldns_rr_list_rr_count(all);
    for (size_t i = 0; i < count;) {
        i = write_next(buffer, all, i);
        const uint8_t *octets = ldns_buffer_begin(buffer);
        for (size_t j = 0; j < ldns_buffer_position(buffer); j++) {
            putchar_unlocked("0123456789abcdef"[octets[j] >> 4]);
            putchar_unlocked("0123456789abcdef"[octets[j] & 15]);
        }
        putchar_unlocked('\n');
    }
    return 0;
}
