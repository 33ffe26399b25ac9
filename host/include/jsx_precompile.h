/* JSX pages into templates and calls: the functions of libjsx_precompile.a. */
#ifndef JSX_PRECOMPILE_H
#define JSX_PRECOMPILE_H

#include <stddef.h>
#include <stdint.h>

#ifdef __cplusplus
extern "C" {
#endif

/* The version of this header, of the library and of the pkg-config file. */
#define JSX_PRECOMPILE_VERSION "0.2.0"
#define JSX_PRECOMPILE_VERSION_NUMBER 200

/* That of the library that is linked: major * 10,000 + minor * 100 + patch. */
uint32_t jsx_precompile_version(void);

/* Limits. */
#define JSX_PRECOMPILE_MAX_PAGE 32768
#define JSX_PRECOMPILE_MAX_OPTIONS 4096
#define JSX_PRECOMPILE_MAX_DEPTH 48
#define JSX_PRECOMPILE_MAX_TAG_TEXT 32768
#define JSX_PRECOMPILE_MAX_TAG 65538 /* the longest field of a tag */
#define JSX_PRECOMPILE_MIN_SCRATCH 65536
#define JSX_PRECOMPILE_MAX_OLD_NUMBER 65535 /* of a template in an 80 */
#define JSX_PRECOMPILE_MAX_NUMBERS 256 /* of templates that are looked up at once */
#define JSX_PRECOMPILE_MAX_CATALOGUE 16777216
#define JSX_PRECOMPILE_HOUSES 16 /* of a catalogue, numbered from 1 */

/* The numbers of an answer. 9 is reserved and never given. 16 and 19 are given behind 10 and before 11. 17
   is a conversion's and a catalogue's, 18 a filling's, 20 a lookup's, 21 to 26 are a catalogue's. 23 is not given. */
enum jsx_precompile_number {
    JSX_PRECOMPILE_ACCEPTED = 0,
    JSX_PRECOMPILE_SCRATCH_TOO_SMALL = 1,
    JSX_PRECOMPILE_INPUT_TOO_LONG = 2,
    JSX_PRECOMPILE_TRUNCATED = 3,
    JSX_PRECOMPILE_MISPLACED = 4,
    JSX_PRECOMPILE_BAD_NAME = 5,
    JSX_PRECOMPILE_NOT_UTF8 = 6,
    JSX_PRECOMPILE_NUMBER_TOO_LARGE = 7,
    JSX_PRECOMPILE_TOO_DEEP = 8,
    JSX_PRECOMPILE_TAG_LEFT = 10,
    JSX_PRECOMPILE_OUTPUT_TOO_LONG = 11,
    JSX_PRECOMPILE_TEMPLATES_TOO_SMALL = 12,
    JSX_PRECOMPILE_PAGE_TOO_SMALL = 13, /* of a tag or a filling: tag_out or html_out is too small */
    JSX_PRECOMPILE_NO_READING = 14,
    JSX_PRECOMPILE_NAMES_DIFFER = 15,
    JSX_PRECOMPILE_REPEATED_ATTRIBUTE = 16,
    JSX_PRECOMPILE_DISAGREEING = 17,
    JSX_PRECOMPILE_UNFITTING = 18,
    JSX_PRECOMPILE_MIXED_CASE_VOID = 19,
    JSX_PRECOMPILE_NOT_RISING = 20,
    JSX_PRECOMPILE_NAME_PRESENT = 21,
    JSX_PRECOMPILE_NAME_ABSENT = 22,
    JSX_PRECOMPILE_OVER_MOST = 24,
    JSX_PRECOMPILE_NOT_COVERED = 25,
    JSX_PRECOMPILE_BAD_SHARES = 26
};

/* A refusal has its number and zeros. */
typedef struct jsx_precompile_answer {
    uint32_t number;
    size_t templates_bytes; /* written to templates_out: a field 84 for each template */
    size_t page_bytes;      /* written to page_out: the import, the place of the templates, the items with their calls */
    size_t templates;       /* how many there are, numbered from 1 */
} jsx_precompile_answer;

/* Takes the page apart into templates and calls of them. The options are fields 02 to 05 (docs/FORMAT.md), or no bytes:
   elements and attributes that are not serialized, the import source, and 05 00 00 where sums in braces are to be worked
   out. The page and the options are read, the other three are written; none is kept, and calls in several threads do not
   meet. No pointer may be null, not even with a length of 0, and the five parts may not overlap. Half a megabyte of stack
   is enough.

   Accepted: the outputs stand at the front of templates_out and page_out, the bytes behind them are as before. A
   template is 84, a length of two bytes, its number of four, how many dynamic expressions it has, in two, a byte for each
   of these, 1 of an attribute and 2 of a child, and its static strings, one more, each 81, a length of two bytes and its
   text. A call of it is 90, a length of two bytes, the number of four, and its dynamic expressions (docs/FORMAT.md).
   Refused: both are all zero. The scratch is all zero after every call but SCRATCH_TOO_SMALL, which leaves it.
   TEMPLATES_TOO_SMALL and PAGE_TOO_SMALL: lend more and call again. */
jsx_precompile_answer jsx_precompile_transform(
    const uint8_t *page, size_t page_length,
    const uint8_t *options, size_t options_length,
    uint8_t *scratch, size_t scratch_length,
    uint8_t *templates_out, size_t templates_out_length,
    uint8_t *page_out, size_t page_out_length);

/* A refusal has its number and a zero. */
typedef struct jsx_precompile_tag_answer {
    uint32_t number;
    size_t tag_bytes; /* written to tag_out */
} jsx_precompile_tag_answer;

/* Reads the text of one element or fragment into its field, 30 or 31, as a page holds it. The text is read, tag_out is
   written; neither is kept, and calls in several threads do not meet. No pointer may be null, not even with a length of
   0, and the two parts may not overlap. Half a megabyte of stack is enough.

   Accepted: the field stands at the front of tag_out, the bytes behind it are as before. Refused: tag_out is all zero.
   The numbers are INPUT_TOO_LONG, NOT_UTF8, NO_READING, NAMES_DIFFER, NUMBER_TOO_LARGE, TOO_DEEP, OUTPUT_TOO_LONG and
   PAGE_TOO_SMALL, the first of these that there is cause for. With MAX_TAG bytes lent tag_out is never too small. */
jsx_precompile_tag_answer jsx_precompile_read_tag(
    const uint8_t *text, size_t text_length,
    uint8_t *tag_out, size_t tag_out_length);

/* The place of a template that is not there: all bits set. */
#define JSX_PRECOMPILE_ABSENT SIZE_MAX

/* A refusal has its number, a zero, and no place. */
typedef struct jsx_precompile_places {
    uint32_t number;
    size_t records; /* templates read: up to the last one found, all where a number is absent, none where none was named */
    size_t places[JSX_PRECOMPILE_MAX_NUMBERS]; /* of each number, in the order of the numbers; behind them ABSENT */
} jsx_precompile_places;

/* Looks up to MAX_NUMBERS numbers up in templates out, in one walk over it. They rise, none stands twice; numbers_length
   is how many there are. The place of a number is that of the byte 84 with which the first template with this number
   begins, or ABSENT. Both parts are read, neither is kept, and calls in several threads do not meet. No pointer may be
   null, not even with a length of 0. Half a megabyte of stack is enough.

   The numbers of a refusal are TRUNCATED, MISPLACED and NOT_UTF8, the first that is met in the templates from front to
   back, and behind these NOT_RISING: over MAX_NUMBERS numbers, or one that is not greater than the one before it. */
jsx_precompile_places jsx_precompile_find(
    const uint8_t *templates, size_t templates_length,
    const uint32_t *numbers, size_t numbers_length);

/* A refusal has its number and a zero. */
typedef struct jsx_precompile_filled {
    uint32_t number;
    size_t html_bytes; /* written to html_out */
} jsx_precompile_filled;

/* Fills templates: writes, as HTML, the static strings of the template that the order names and the order's fillings in
   turn. An order is 85, a length of two bytes, the number of a template in four, and a filling for each of its dynamic
   expressions: 86, a length and a text for an attribute's, written as it is, 87, a length and a text for a child, written
   with its five signs escaped, or another order for a child; up to MAX_DEPTH of these lie within each other. The first two
   parts are read, html_out is written; none is kept, and calls in several threads do not meet. No pointer may be null, not
   even with a length of 0, and the three parts may not overlap. Half a megabyte of stack is enough.

   Accepted: the HTML stands at the front of html_out, the bytes behind it are as before. It is well nested where the
   templates are those of a page. Refused: html_out is all zero. The numbers are TRUNCATED, MISPLACED and NOT_UTF8 for the
   templates, then these and TOO_DEEP for the order, the first that is met from front to back; UNFITTING where the
   fillings are not as many as the template has dynamic expressions or not of their kinds, where a number is that of no
   template or of two, or where an attribute's text has `<` or `>`; then PAGE_TOO_SMALL. */
jsx_precompile_filled jsx_precompile_fill(
    const uint8_t *templates, size_t templates_length,
    const uint8_t *order, size_t order_length,
    uint8_t *html_out, size_t html_out_length);

/* A refusal has its number and zeros. */
typedef struct jsx_precompile_catalogued {
    uint32_t number;
    size_t used;  /* the bytes that pages take after the call */
    size_t pages; /* how many there are after the call */
} jsx_precompile_catalogued;

/* The pages of up to HOUSES houses in one buffer, the catalogue: at most MAX_CATALOGUE bytes, zeros before the first call.
   A page is 97, its name in four bytes, its house in one, the lengths of its two parts in four each, and the parts: its
   templates and its page out, as jsx_precompile_transform writes them, with its n templates numbered on from those of the
   pages before it, in templates and calls alike. Zeros follow the last page. No two pages have one name.

   catalogue_add: a page arrives and stands behind the others. The shares are 2 * HOUSES numbers, guaranteed and most of
   house 1, of house 2, and so on, in bytes of pages, counted from their 97. The page is accepted where its house stays
   within its most, and the bytes that are left free cover what the other houses have not used of their guarantees. As long
   as the shares and the catalogue's length stay as they were when it was empty, a page within its house's guarantee is so
   always accepted.
   catalogue_remove: the page of that name leaves, and later ones close up.

   The catalogue is read and written, the other parts are read; none is kept. Calls on one catalogue may not meet. No pointer
   may be null, not even with a length of 0, and the parts may not overlap. Half a megabyte of stack is enough.

   Accepted: the catalogue is as if built afresh from the pages that remain, in the order of their arrival; nothing before
   the place was touched. Refused: it is as it was. The numbers of an arrival: MISPLACED where the catalogue is none;
   TRUNCATED, MISPLACED and NOT_UTF8 for the templates, TRUNCATED to NUMBER_TOO_LARGE for the page out; DISAGREEING where a
   gap's kind is not that of its place, or the numbers are not 1 up to the count, each recorded once and called once;
   BAD_SHARES where there is no such house, shares_length is another, a guarantee is above its most, or all together are
   more than the catalogue; NAME_PRESENT; OVER_MOST; NOT_COVERED. Of a leaving: MISPLACED, then NAME_ABSENT. */
jsx_precompile_catalogued jsx_precompile_catalogue_add(
    uint8_t *catalogue, size_t catalogue_length,
    uint32_t name, uint32_t house,
    const uint32_t *shares, size_t shares_length,
    const uint8_t *templates, size_t templates_length,
    const uint8_t *page, size_t page_length);
jsx_precompile_catalogued jsx_precompile_catalogue_remove(
    uint8_t *catalogue, size_t catalogue_length,
    uint32_t name);

/* A refusal has its number and zeros. */
typedef struct jsx_precompile_converted {
    uint32_t number;
    size_t templates_bytes; /* written to templates_out */
    size_t page_bytes;      /* written to page_out */
} jsx_precompile_converted;

/* The way up: templates of 80s, and a page out with numbers of two bytes, as version 0.1.0 wrote them, become templates
   of 84s and a page out with numbers of four. The kinds are worked out from the static strings. The way down: the other
   way; the kinds are dropped. What goes up and down, or down and up, comes back byte for byte, wherever both are accepted.
   Either input may be empty. The first two parts are read, the others are written; none is kept, and calls in several
   threads do not meet. No pointer may be null, not even with a length of 0, and the four parts may not overlap. Half a
   megabyte of stack is enough.

   Accepted: the outputs stand at the front of templates_out and page_out, the bytes behind them are as before. Refused:
   both are all zero. The numbers are TRUNCATED to NUMBER_TOO_LARGE for the templates, then for the page out, the first
   that is met from front to back; DISAGREEING where a gap lies neither in an opening tag behind a space nor outside of
   tags, where its kind is not that of its place, or on the way down where a number is over MAX_OLD_NUMBER; then
   OUTPUT_TOO_LONG, TEMPLATES_TOO_SMALL and PAGE_TOO_SMALL. One and a half times the length of its input is always enough
   for an output on the way up, the length of its input on the way down. */
jsx_precompile_converted jsx_precompile_upgrade(
    const uint8_t *templates, size_t templates_length,
    const uint8_t *page, size_t page_length,
    uint8_t *templates_out, size_t templates_out_length,
    uint8_t *page_out, size_t page_out_length);
jsx_precompile_converted jsx_precompile_downgrade(
    const uint8_t *templates, size_t templates_length,
    const uint8_t *page, size_t page_length,
    uint8_t *templates_out, size_t templates_out_length,
    uint8_t *page_out, size_t page_out_length);

#ifdef __cplusplus
}
#endif

#endif
