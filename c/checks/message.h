/* The message that a line of hexadecimal digits on standard input spells. */
#include <stdint.h>
#include <stdio.h>
#include <string.h>

static uint8_t message[65536];

static size_t read_message(void) {
    static char line[131074];
    if (!fgets(line, sizeof line, stdin)) return 0;
    size_t length = strcspn(line, "\r\n") / 2;
    for (size_t i = 0; i < length; i++) {
        unsigned octet = 0;
        if (sscanf(line + 2 * i, "%2x", &octet) != 1) return 0;
        message[i] = (uint8_t)octet;
    }
    return length;
}
