/* Transforms the page on the command line, in hex, and prints the answer and both outputs in hex. With the word tag
   before it, reads the tag text there, in hex, and prints the answer and the field in hex. With the word find before it,
   looks the numbers behind it up in the templates there, in hex, and prints the answer and the places. With the word up
   or down before them, converts the templates and the page out there, in hex, and prints the answer and both in hex. With
   the word fill before them, fills the templates by the order there, in hex, and prints the answer and the HTML in hex. With
   the word add before them, puts the page with the templates and the page out there, in hex, into a catalogue of 100 bytes
   once for each house behind them, by the name of the house, and has the page of the last of these names leave; every house
   is guaranteed 1 byte and may have 60. Prints each answer, and the catalogue in hex. */
#include "jsx_precompile.h"
#include <stdio.h>
#include <stdlib.h>
#include <string.h>

static uint8_t input[JSX_PRECOMPILE_MAX_PAGE + 1], page[JSX_PRECOMPILE_MAX_PAGE + 1];
static uint8_t options[1], scratch[JSX_PRECOMPILE_MIN_SCRATCH];
static uint8_t templates[1000], out[1000], tag[JSX_PRECOMPILE_MAX_TAG];
static uint32_t numbers[JSX_PRECOMPILE_MAX_NUMBERS + 1], shares[2 * JSX_PRECOMPILE_HOUSES];
static uint8_t catalogue[100];

static void print(const uint8_t *bytes, size_t length) {
    size_t i;
    putchar(' ');
    for (i = 0; i < length; i++) printf("%02x", bytes[i]);
}

static uint32_t transform(size_t length) {
    jsx_precompile_answer answer = jsx_precompile_transform(input, length, options, 0, scratch, sizeof scratch, templates,
                                                            sizeof templates, out, sizeof out);
    printf("%u %lu", (unsigned)answer.number, (unsigned long)answer.templates);
    print(templates, answer.templates_bytes);
    print(out, answer.page_bytes);
    return answer.number;
}

static uint32_t read_tag(size_t length) {
    jsx_precompile_tag_answer answer = jsx_precompile_read_tag(input, length, tag, sizeof tag);
    printf("%u %lu", (unsigned)answer.number, (unsigned long)answer.tag_bytes);
    print(tag, answer.tag_bytes);
    return answer.number;
}

static uint32_t find(size_t length, size_t count) {
    jsx_precompile_places answer = jsx_precompile_find(input, length, numbers, count);
    size_t i;
    printf("%u %lu", (unsigned)answer.number, (unsigned long)answer.records);
    for (i = 0; i < JSX_PRECOMPILE_MAX_NUMBERS; i++) {
        if (answer.places[i] != JSX_PRECOMPILE_ABSENT) printf(" %lu", (unsigned long)answer.places[i]);
        else if (i < count) printf(" absent");
    }
    return answer.number;
}

static uint32_t convert(int up, size_t length, size_t page_length) {
    jsx_precompile_converted answer =
        up ? jsx_precompile_upgrade(input, length, page, page_length, templates, sizeof templates, out, sizeof out)
           : jsx_precompile_downgrade(input, length, page, page_length, templates, sizeof templates, out, sizeof out);
    printf("%u", (unsigned)answer.number);
    print(templates, answer.templates_bytes);
    print(out, answer.page_bytes);
    return answer.number;
}

static uint32_t fill(size_t length, size_t order_length) {
    jsx_precompile_filled answer = jsx_precompile_fill(input, length, page, order_length, out, sizeof out);
    printf("%u %lu", (unsigned)answer.number, (unsigned long)answer.html_bytes);
    print(out, answer.html_bytes);
    return answer.number;
}

static uint32_t catalogued(jsx_precompile_catalogued answer) {
    printf("%u %lu %lu ", (unsigned)answer.number, (unsigned long)answer.used, (unsigned long)answer.pages);
    return answer.number;
}

static uint32_t add(size_t length, size_t page_length, int houses, char **words) {
    uint32_t house = 0, number;
    int i;
    for (i = 0; i < JSX_PRECOMPILE_HOUSES; i++) shares[2 * i] = 1, shares[2 * i + 1] = 60;
    for (i = 0; i < houses; i++) {
        house = (uint32_t)strtoul(words[i], NULL, 10);
        catalogued(jsx_precompile_catalogue_add(catalogue, sizeof catalogue, house, house, shares,
                                                sizeof shares / sizeof *shares, input, length, page, page_length));
    }
    print(catalogue, sizeof catalogue);
    putchar(' ');
    number = catalogued(jsx_precompile_catalogue_remove(catalogue, sizeof catalogue, house));
    print(catalogue, sizeof catalogue);
    return number;
}

static size_t unhex(const char *digits, uint8_t *bytes, size_t most) {
    size_t length = strlen(digits) / 2, i;
    if (length > most) exit(2);
    for (i = 0; i < length; i++) {
        unsigned byte;
        if (sscanf(digits + 2 * i, "%2x", &byte) != 1) exit(2);
        bytes[i] = (uint8_t)byte;
    }
    return length;
}

int main(int argc, char **argv) {
    const char *word = argc > 1 ? argv[1] : "";
    int is_tag = strcmp(word, "tag") == 0, is_find = strcmp(word, "find") == 0;
    int is_up = strcmp(word, "up") == 0, is_down = strcmp(word, "down") == 0;
    int is_fill = strcmp(word, "fill") == 0, is_add = strcmp(word, "add") == 0;
    int first = 1 + (is_tag || is_find || is_up || is_down || is_fill || is_add), behind = first + 1;
    size_t length = unhex(argc > first ? argv[first] : "", input, sizeof input), count = 0;
    uint32_t number;
    if (is_up || is_down) {
        number = convert(is_up, length, unhex(argc > behind ? argv[behind] : "", page, sizeof page));
    } else if (is_fill) {
        number = fill(length, unhex(argc > behind ? argv[behind] : "", page, sizeof page));
    } else if (is_add) {
        size_t page_length = unhex(argc > behind ? argv[behind] : "", page, sizeof page);
        number = add(length, page_length, argc - behind - 1, argv + behind + 1);
    } else if (is_find) {
        while (behind < argc && count < sizeof numbers / sizeof *numbers) {
            numbers[count++] = (uint32_t)strtoul(argv[behind++], NULL, 10);
        }
        number = find(length, count);
    } else {
        number = is_tag ? read_tag(length) : transform(length);
    }
    putchar('\n');
    return number == JSX_PRECOMPILE_ACCEPTED ? 0 : 1;
}
