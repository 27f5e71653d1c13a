/* The commands of `plain.c`, `follow_once.c` and `keyed.c`, as those of `dnscanon`: `canon` and `same`. */

/* ---- the text */

static int is_blank(char c) { return c == ' ' || c == '\t' || c == '\r'; }

/* Reads the whole text, and gives its size without the blanks and line ends at its end. */
static size_t read_text(size_t most) {
    size_t n = 0;
    for (;;) {
        ssize_t got = read(0, texts + n, most + 1 - n);
        if (got < 0) stop(READ_FAULT, "read fault\n");
        if (got == 0) break;
        n += got;
        if (n > most) stop(TOO_LONG, "too long\n");
    }
    while (n && (is_blank(texts[n - 1]) || texts[n - 1] == '\n')) n--;
    return n;
}

static inline uint8_t excess(uint8_t value, uint8_t most) { return (value > most ? value : most) - most; }

/* Whether all are digits, in either case; they are put in lowercase. The compiler makes blocks of this loop. */
static int are_digits(uint8_t *digits, size_t n) {
    uint8_t wrong = 0;
    for (size_t i = 0; i < n; i++) {
        uint8_t low = digits[i] | 32;
        uint8_t decimal = excess(digits[i] - '0', 9), letter = excess(low - 'a', 5);
        wrong |= decimal < letter ? decimal : letter;
        digits[i] = low;
    }
    return !wrong;
}

/* ---- what is printed */

static char out[2 * (2 * (MOST_NAME + FIXED + 65535) + 1) + SLACK];

static void print_lines(struct list list) {
    char *end = out;
    for (size_t i = 0; i < list.count; i++) {
        const struct record *r = list.entries[i].record;
        size_t line = r->owner.digits_size + r->rest_size + 1;
        if (line + SLACK > (size_t)(out + sizeof out - end)) write_all(out, end - out), end = out;
        end = copy(end, r->owner.digits, r->owner.digits_size);
        end = copy(end, r->rest, r->rest_size);
        *end++ = '\n';
    }
    write_all(out, end - out);
}

static int are_same_digits(const char *a, size_t m, const char *b, size_t n) { return m == n && memcmp(a, b, n) == 0; }

/* Whether the lines of two lists are the same. */
static int are_same(struct list a, struct list b) {
    if (a.count != b.count) return 0;
    for (size_t i = 0; i < a.count; i++) {
        const struct record *r = a.entries[i].record, *s = b.entries[i].record;
        if (!are_same_digits(r->owner.digits, r->owner.digits_size, s->owner.digits, s->owner.digits_size)) return 0;
        if (!are_same_digits(r->rest, r->rest_size, s->rest, s->rest_size)) return 0;
    }
    return 1;
}

/* ---- the two commands */

static void check_digits(size_t place, size_t n) {
    if (n % 2 || !are_digits((uint8_t *)texts + place, n)) stop(BAD_HEX, "bad hex\n");
}

/* The size of a text without blanks at its end. */
static size_t trimmed(size_t place, size_t n) {
    while (n && is_blank(texts[place + n - 1])) n--;
    return n;
}

static void canon(void) {
    size_t n = read_text(ONE_TEXT);
    check_digits(0, n);
    print_lines(list_of(0, n));
}

static void same(void) {
    size_t n = read_text(TWO_TEXTS);
    const char *line_end = memchr(texts, '\n', n);
    size_t first = line_end ? (size_t)(line_end - texts) : n, place = line_end ? first + 1 : n;
    size_t sizes[2] = {trimmed(0, first), trimmed(place, n - place)};
    check_digits(0, sizes[0]);
    check_digits(place, sizes[1]);
    struct list a = list_of(0, sizes[0]);
    reading = 1;
    struct list b = list_of(place, sizes[1]);
    const char *word = are_same(a, b) ? "same\n" : "different\n";
    write_all(word, strlen(word));
}

int main(int count, char **words) {
    if (count == 2 && strcmp(words[1], "canon") == 0) canon();
    else if (count == 2 && strcmp(words[1], "same") == 0) same();
    else stop(USAGE, "usage\n");
    return 0;
}
