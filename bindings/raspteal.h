/* Raspteal for C: mapping lines, maps and the line store of the hub.
 *
 * Link with target/staticlib/libexports.a, which `bindings/library` writes (x86-64 Linux). Each function is proved: it
 * takes every input, ends, and answers what its definition says; no call keeps memory, and there is no state but the
 * buffers that you lend.
 *
 * How to pass things
 *   A slice is two arguments, a pointer and a number of elements (bytes, or 32-bit codes). The pointer is never NULL,
 *   also where the number is 0. A slice that is written (no `const`) must not overlap any other slice of the call.
 *   Structs go in and come back by value.
 *   A flag (`bool`) is false or true; no other value may stand in its byte.
 *
 * Threads
 *   A call touches only what it is lent, and keeps nothing when it returns: calls on unlike buffers may run at the same
 *   time, and so may calls that only read the same ones (`const`). While a call writes to a buffer, no other call and
 *   nobody else may read or write it.
 *
 * Stack
 *   A call takes up to RASPTEAL_STACK bytes of the caller's stack, 384 KB; a call of the store on an index of more than
 *   65535 bytes takes up to RASPTEAL_STACK_LARGE, 4.5 MiB, and RASPTEAL_STACK_FOR says what one on a shorter index takes.
 *   bindings/c/stack.c runs every call on a thread that has no more, on the dearest stores there are. A program's first
 *   thread has 8 MB as a rule, which hold any; others may have less, and pthread_attr_setstacksize gives them more.
 *
 * What numbers mean
 *   A code is an event code of the pad, 32 bits (10130 hexadecimal is the first gamepad button of Linux).
 *   A button number is 0 to 19 and an axis number 0 to 8; 0 is unknown. An element is a button or an axis.
 *   raspteal_numbers.h has them by name, and the native codes.
 *   A refusal number is one of 1 to 27; 0 means that nothing was refused. raspteal_meaning says what it means.
 *   Where a struct has a flag beside a value (`found`, `valid`, `has_place`), the value is 0 while the flag is false.
 */
#ifndef RASPTEAL_H
#define RASPTEAL_H

#include <stdbool.h>
#include <stddef.h>
#include <stdint.h>

#include "raspteal_numbers.h"

#ifdef __cplusplus
extern "C" {
#endif

#define RASPTEAL_CODES_MAX 256    /* codes in a map */
#define RASPTEAL_LIST_MAX 1024    /* codes in a list of buttons or axes */
#define RASPTEAL_NAME_MAX 8192    /* bytes of a name */
#define RASPTEAL_LINE_MAX 16384   /* bytes of a stored line */
#define RASPTEAL_INDEX_MAX 1048576 /* bytes of an index */
#define RASPTEAL_TEXT_MAX 16777216 /* bytes of a text */
#define RASPTEAL_BUTTONS 20       /* slots for buttons */
#define RASPTEAL_AXES 9           /* slots for axes */
#define RASPTEAL_IDENT_MAX 13     /* bytes of a key name */
#define RASPTEAL_KEYS 512         /* key codes in the table of buttons */
#define RASPTEAL_KEY_FIRST 0x10100 /* the first of them */
#define RASPTEAL_HELD_MAX 256     /* codes that a pad holds */
#define RASPTEAL_ELEMENTS 27      /* elements that have events: buttons 1 to 19, axes 1 to 8 */

/* The bytes of stack that a call takes at most: the first on an index of up to RASPTEAL_SMALL_MAX bytes, the second on a
 * longer one; by the index's length 384 KB, 640 KB, 1.25 MiB, 2.25 MiB or 4.5 MiB. The smaller of a hub's store files
 * has RASPTEAL_SMALL_MAX bytes of index and as many of text. */
#define RASPTEAL_SMALL_MAX 65535
#define RASPTEAL_STACK 393216
#define RASPTEAL_STACK_LARGE 4718592
#define RASPTEAL_STACK_FOR(index_len)                                                                                  \
    ((index_len) <= RASPTEAL_SMALL_MAX ? RASPTEAL_STACK                                                                \
     : (index_len) <= 131072           ? 655360                                                                        \
     : (index_len) <= 262144           ? 1310720                                                                       \
     : (index_len) <= 524288           ? 2359296                                                                       \
                                       : RASPTEAL_STACK_LARGE)

/* ---- What crosses ---------------------------------------------------------------------------------------------- */

/* A refusal. The place is a byte's place in the line, name or text that was given; 15 carries its code. */
typedef struct {
    uint8_t number; /* 0: not refused */
    bool has_place;
    size_t place;
    bool has_code;
    uint32_t code;
} raspteal_refusal;

/* Where a writer stopped: the place after its last byte. fits is false, and nothing was written, where it had no
 * room. */
typedef struct {
    bool fits;
    size_t next;
} raspteal_written;

/* A UUID: its first eight bytes and its last eight, high byte first. */
typedef struct {
    uint64_t high;
    uint64_t low;
} raspteal_uuid;

/* Who calls the store: the hall, or a league organiser by its owner byte, 1 to 255. Where organiser is false the byte is
 * not read; an organiser with owner 0 is refused: 24. */
typedef struct {
    bool organiser;
    uint8_t owner;
} raspteal_party;

static const raspteal_party RASPTEAL_HALL = {false, 0};

/* How a UUID is spelled. */
enum {
    RASPTEAL_SIMPLE = 1,     /* 32 digits */
    RASPTEAL_HYPHENATED = 2, /* with hyphens, 36 characters */
    RASPTEAL_BRACED = 3,     /* that in braces */
    RASPTEAL_URN = 4,        /* that after `urn:uuid:` */
    RASPTEAL_XINPUT = 5      /* the word `xinput`, in the walker alone */
};

/* A UUID and its form; 0 where there is none. */
typedef struct {
    bool valid;
    raspteal_uuid id;
    uint8_t form;
} raspteal_uuid_parse;

typedef struct {
    bool valid;
    uint16_t number;
} raspteal_index_parse;

typedef struct {
    bool is_axis; /* else a button */
    uint16_t number;
} raspteal_element;

/* An element, if there is one. */
typedef struct {
    bool found;
    raspteal_element element;
} raspteal_mapped;

/* A code, if there is one. */
typedef struct {
    bool found;
    uint32_t code;
} raspteal_code;

/* An axis number, if there is one. */
typedef struct {
    bool found;
    uint16_t number;
} raspteal_axis;

/* A key name: the first len bytes of name; len is 0 where the element has none. */
typedef struct {
    uint8_t name[RASPTEAL_IDENT_MAX];
    size_t len;
} raspteal_ident;

/* A code and its element. input and output: 0 the lower half of an axis, 1 the upper half, 2 all of it; any other number
 * is read as 2. inverted: the axis counts the other way round. */
typedef struct {
    uint32_t code;
    raspteal_element element;
    uint8_t input;
    uint8_t output;
    bool inverted;
} raspteal_entry;

/* An entry, if there is one; else an unused one. */
typedef struct {
    bool found;
    raspteal_entry entry;
} raspteal_entered;

/* The value of an element, if there is one. */
typedef struct {
    bool found;
    int16_t value;
} raspteal_value;

/* An element's value, if there is one. */
typedef struct {
    bool found;
    raspteal_element element;
    int16_t value;
} raspteal_emitted;

/* A pad while a game runs: the first count of held are the codes that it has reported, in the order of their first
 * events, and the first entry_count of entries are those of its map (numbers of raspteal_entry_number). A held code is
 * the code times 2^32 and its last raw value: 0 released, 1 pressed, from 2 on an axis value v as v + 32770. Start with
 * raspteal_pad_new, and hand each call the pad that the last one gave; any other numbers mean something too, and a count
 * over 256 is read as 256. */
typedef struct {
    size_t count;
    uint64_t held[RASPTEAL_HELD_MAX];
    size_t entry_count;
    uint64_t entries[RASPTEAL_CODES_MAX];
} raspteal_pad;

/* An element's value. */
typedef struct {
    raspteal_element element;
    int16_t value;
} raspteal_event;

/* A pad after a call, and the first count events: one for each element whose value changed, buttons then axes,
 * ascending. The others are button 0 with value 0. On a refusal the pad is as it was, and there is no event. */
typedef struct {
    raspteal_refusal refusal;
    raspteal_pad pad;
    size_t count;
    raspteal_event events[RASPTEAL_ELEMENTS];
} raspteal_told;

/* Two pads for one player. */
typedef struct {
    raspteal_pad first;
    raspteal_pad second;
} raspteal_pads;

/* Two pads after a call, and the first count events, as in raspteal_told. */
typedef struct {
    raspteal_refusal refusal;
    raspteal_pads pads;
    size_t count;
    raspteal_event events[RASPTEAL_ELEMENTS];
} raspteal_pads_told;

/* A map from codes to elements: the first count entries, ascending by code, the others unused: code 0, button 0, input
 * and output 2, not inverted. An unused entry is not all 0. The name is name_len bytes at name_start of the line that
 * the map was read from. hats_mapped has a bit for each direction of hat 0. */
typedef struct {
    size_t count;
    raspteal_entry entries[RASPTEAL_CODES_MAX];
    size_t name_start;
    size_t name_len;
    bool is_default;
    uint8_t hats_mapped;
} raspteal_mapping;

/* A map, or a refusal with the empty map (a refused put has the map as it was). */
typedef struct {
    raspteal_refusal refusal;
    raspteal_mapping map;
} raspteal_answer;

/* The button number of each key code: that of code RASPTEAL_KEY_FIRST + i stands at i, 0 where it has no button. */
typedef struct {
    uint8_t buttons[RASPTEAL_KEYS];
} raspteal_keys;

/* What a pair of a line says: from is the index, or the hat's number. input and output: 0 the lower half of an axis,
 * 1 the upper half, 2 all of it. */
typedef struct {
    uint16_t from;
    uint16_t direction;
    raspteal_element to;
    uint8_t input;
    uint8_t output;
    bool inverted;
} raspteal_pair;

enum {
    RASPTEAL_END = 0,      /* the line's end */
    RASPTEAL_REFUSED = 1,  /* refusal */
    RASPTEAL_UUID = 2,     /* id */
    RASPTEAL_PLATFORM = 3, /* start, len */
    RASPTEAL_NAME = 4,     /* start, len */
    RASPTEAL_AXIS = 5,     /* pair: an axis value, a */
    RASPTEAL_BUTTON = 6,   /* pair: a button value, b */
    RASPTEAL_HAT = 7       /* pair: a hat value, h, with a direction */
};

/* An answer of the walker, by its kind. What the kind does not name is 0. */
typedef struct {
    uint8_t kind;
    raspteal_refusal refusal;
    raspteal_uuid id;
    size_t start;
    size_t len;
    raspteal_pair pair;
} raspteal_token;

/* A step of the walker: its answer, and the position and state for the next step. */
typedef struct {
    raspteal_token token;
    size_t pos;
    uint8_t state;
} raspteal_step;

/* The number of tokens of a line, and the last refusal. */
typedef struct {
    size_t count;
    raspteal_refusal last;
} raspteal_tokens;

/* A slot: a code, if it is filled; where it is not, its code is not read. */
typedef struct {
    bool filled;
    uint32_t code;
} raspteal_slot;

/* The slots of all buttons and axes, by number. */
typedef struct {
    raspteal_slot buttons[RASPTEAL_BUTTONS];
    raspteal_slot axes[RASPTEAL_AXES];
} raspteal_data;

/* The slots after a change, and the code that the slot held before. */
typedef struct {
    raspteal_code former;
    raspteal_data slots;
} raspteal_changed;

/* A built line's map and length; on a refusal the empty map and 0. */
typedef struct {
    raspteal_refusal refusal;
    raspteal_mapping map;
    size_t len;
} raspteal_built;

/* What an insert did: the lines walked, all of them or those before the refused one; and how many of them were filed
 * with a UUID that is not spelled in 32 digits. */
typedef struct {
    raspteal_refusal refusal;
    size_t count;
    size_t not_simple;
} raspteal_inserted;

/* Whether a line is held, or was until it was taken out; 19 where the store is not sound, 24 where an organiser has owner
 * 0. */
typedef struct {
    raspteal_refusal refusal;
    bool found;
} raspteal_look;

/* What is held under a UUID, its checksum set aside where need be: 0 nothing, 1 a line under the whole UUID (exact),
 * 2 only one under the UUID without its checksum (near); 19 where the store is not sound, 24 where an organiser has
 * owner 0. */
typedef struct {
    raspteal_refusal refusal;
    uint8_t how;
} raspteal_near_look;

/* A party's share of the text, 0 where it has none, and the bytes of its lines; 19 where the store is not sound. */
typedef struct {
    raspteal_refusal refusal;
    size_t share;
    size_t used;
} raspteal_share;

/* A record of an index, if one stands there: of the share of the party with that owner byte, 0 being the hall; or of a
 * line that is held under owner and id and is the len bytes at offset of the text. What the other kind has is 0. The
 * record has size bytes. */
typedef struct {
    bool found;
    bool is_share;
    uint8_t owner;
    raspteal_uuid id;
    size_t offset;
    size_t len;
    size_t share;
    size_t size;
} raspteal_record;

/* A line of a text, if one follows: its bytes, without LF and CR, and the place of the next line. */
typedef struct {
    bool found;
    size_t len;
    size_t next;
} raspteal_cut;

/* ---- Text ------------------------------------------------------------------------------------------------------ */

/* Whether two byte strings are the same. */
bool raspteal_same_bytes(const uint8_t *a, size_t a_len, const uint8_t *b, size_t b_len);

/* Writes v at place `at` of out. Where it does not fit, out is left as it is. */
raspteal_written raspteal_write_bytes(uint8_t *out, size_t out_len, size_t at, const uint8_t *v, size_t v_len);

/* The length of the longest run of whole UTF-8 characters from the first byte on; s_len where all of s is UTF-8. */
size_t raspteal_valid_up_to(const uint8_t *s, size_t s_len);

/* Whether all of s is UTF-8. */
bool raspteal_is_utf8(const uint8_t *s, size_t s_len);

/* The UUID that s spells: 32 hexadecimal digits, the form with hyphens, that form in braces, or after `urn:uuid:`. */
raspteal_uuid_parse raspteal_uuid_parse_str(const uint8_t *s, size_t s_len);

/* The same UUID with bytes 2 and 3, counted from 0 (digits 5 to 8), zero: recent SDL releases put a checksum there. */
raspteal_uuid raspteal_uuid_without_checksum(raspteal_uuid id);

/* Writes the 32 lower-case digits of a UUID at place `at` of out. Where they do not fit, out is left as it is. */
raspteal_written raspteal_uuid_write_simple(raspteal_uuid id, uint8_t *out, size_t out_len, size_t at);

/* The number that s spells in base ten, one `+` allowed before it, at most 65535. */
raspteal_index_parse raspteal_parse_u16(const uint8_t *s, size_t s_len);

/* How many digits raspteal_write_index writes for n. */
size_t raspteal_index_len(size_t n);

/* Writes n in base ten at place `at` of out. Where it does not fit, out is left as it is. */
raspteal_written raspteal_write_index(uint8_t *out, size_t out_len, size_t at, size_t n);

/* ---- Elements: a number over 19, or 8 for an axis, counts as 0 ------------------------------------------------- */

/* The native code of a button. */
raspteal_code raspteal_button_to_nec(uint16_t button);

/* Whether a button is a stick's, pressed (14 and 15). */
bool raspteal_button_is_stick(uint16_t button);

/* Whether a button is one of the directional pad (16 to 19). */
bool raspteal_button_is_dpad(uint16_t button);

/* Whether an axis is one of a stick (1, 2, 4, 5). */
bool raspteal_axis_is_stick(uint16_t axis);

/* The other axis of the same stick, or of the directional pad. */
raspteal_axis raspteal_axis_second_axis(uint16_t axis);

/* Whether an element is a button. */
bool raspteal_element_is_button(raspteal_element e);

/* Whether two elements are the same, by their whole numbers. */
bool raspteal_element_eq(raspteal_element a, raspteal_element b);

/* The element that a key of a line names, as `leftx` or `a`. */
raspteal_mapped raspteal_find_element(const uint8_t *key, size_t key_len);

/* The key name of an element. */
raspteal_ident raspteal_ident_of(raspteal_element e);

/* ---- Maps ------------------------------------------------------------------------------------------------------ */

/* The entry of a code and an element, full on both sides and not inverted. Any element number is taken as it is. */
raspteal_entry raspteal_entry_new(uint32_t code, raspteal_element element);

/* The entry with its ranges. */
raspteal_entry raspteal_entry_ranged(uint32_t code, raspteal_element element, uint8_t input, uint8_t output,
                                     bool inverted);

/* An entry as one number: the code times 2^32, the shape times 2^16, and the element's number. The shape is 1 for an
 * axis, and twice the ranges: the input, four times the output, and 16 where inverted; in it full is 0, upper 1, lower
 * 2. raspteal_entry_of_number gives the entry back. */
uint64_t raspteal_entry_number(raspteal_entry e);

/* The entry of a number. */
raspteal_entry raspteal_entry_of_number(uint64_t x);

/* The empty map: no entries, all of them unused, name, flag and hats 0. */
raspteal_mapping raspteal_mapping_new(void);

/* The map with one entry more, onto the one of its code if there is one. 11 where it would be the 257th code. */
raspteal_answer raspteal_mapping_put(raspteal_mapping map, raspteal_entry e);

/* The element of the first entry with that code. A count over 256 is read as 256. */
raspteal_mapped raspteal_mapping_map(raspteal_mapping map, uint32_t code);

/* The first entry with that code, with its ranges. A count over 256 is read as 256. */
raspteal_entered raspteal_mapping_entry(raspteal_mapping map, uint32_t code);

/* The look-up of an element for a program that keeps a map and turns codes into elements all day: the map stands in two lists of
 * your own, copied once from its entries, and nothing else crosses. elements[i] belongs to codes[i] and is a button's
 * number, or 65536 plus an axis's; where the lists differ in length, the shorter one counts. */
raspteal_mapped raspteal_lists_map(const uint32_t *codes, size_t codes_len, const uint32_t *elements,
                                   size_t elements_len, uint32_t code);

/* The least code of an element. A count over 256 is read as 256. */
raspteal_code raspteal_mapping_map_rev(raspteal_mapping map, raspteal_element e);

/* ---- Lines ----------------------------------------------------------------------------------------------------- */

/* The state of a walker over a line before its first step, whose position is 0. */
uint8_t raspteal_parser_start(const uint8_t *line, size_t line_len);

/* One step of the walker. Call it again with the position and the state of the step before, over the same line, until
 * the kind is RASPTEAL_END. After refusals 1, 2 and 10 no end comes: the next steps say 9, or 10 again. */
raspteal_step raspteal_parser_step(const uint8_t *line, size_t line_len, size_t pos, uint8_t state);

/* How the UUID of a line's first token is spelled, RASPTEAL_XINPUT for `xinput`; 0 where that token is no UUID. */
uint8_t raspteal_first_form(const uint8_t *line, size_t line_len);

/* How many tokens a walker gives over a line, up to its end or to a refusal after which it doesn't go on (1, 2, 10);
 * and the last refusal on the way, number 0 where there is none. */
raspteal_tokens raspteal_count_tokens(const uint8_t *line, size_t line_len);

/* The map of a line, by the lists of the pad's button and axis codes. Refusals: 10, 12, then 1 to 7 and 11 in the
 * order of the line. */
raspteal_answer raspteal_parse_sdl_mapping(const uint8_t *line, size_t line_len, const uint32_t *buttons,
                                           size_t buttons_len, const uint32_t *axes, size_t axes_len);

/* ---- Slots, build and default ---------------------------------------------------------------------------------- */

/* No slot is filled. */
raspteal_data raspteal_data_new(void);

/* The code in a slot. A button over 19 and an axis over 8 have no slot. */
raspteal_code raspteal_data_button(raspteal_data data, uint16_t button);
raspteal_code raspteal_data_axis(raspteal_data data, uint16_t axis);

/* Fills a slot, or empties it. A number that has no slot changes nothing. */
raspteal_changed raspteal_data_insert_btn(raspteal_data data, uint32_t code, uint16_t button);
raspteal_changed raspteal_data_insert_axis(raspteal_data data, uint32_t code, uint16_t axis);
raspteal_changed raspteal_data_remove_button(raspteal_data data, uint16_t button);
raspteal_changed raspteal_data_remove_axis(raspteal_data data, uint16_t axis);

/* Builds the line of the filled slots and writes it at the start of out; later bytes of out stay as they are, and all
 * of them do on a refusal: 10, 17, 12, 13, 14, 15, 16, 18. 8544 bytes hold every line. */
raspteal_built raspteal_from_data(raspteal_data data, const uint32_t *buttons, size_t buttons_len,
                                  const uint32_t *axes, size_t axes_len, const uint8_t *name, size_t name_len,
                                  raspteal_uuid id, uint8_t *out, size_t out_len);

/* The button number of a key code, by the table that the default map goes by; 0 where it has none, and outside the
 * table. */
uint16_t raspteal_key_button(uint32_t code);

/* The table as data. */
raspteal_keys raspteal_key_table(void);

/* The default map of a pad with these lists: of the 31 usual codes those that stand in their list, a button's among the
 * buttons and an axis's among the axes. Refusal: 12. */
raspteal_answer raspteal_default(const uint32_t *buttons, size_t buttons_len, const uint32_t *axes, size_t axes_len);

/* ---- The store: an index of at most 1048576 bytes and a text of at most 16777216, all 0 when fresh ----------------
 * Lend the same two buffers, of the same lengths, to each call, and let nothing else write there. A hub's store file is
 * index and text, one behind the other: 65535 bytes each, or, of the large one, as many as can be. Zeros may be put behind
 * the bytes of both buffers where a store becomes too small: the longer store holds the same lines and shares.
 * A line takes its own length of the text, where the lines lie end to end in the order of their filing, and a record of
 * the index: 21 bytes, an organiser's 22, and 2 more where it lies beyond the first 65535 bytes of the text. When lines
 * before it close up, its record becomes short again. A share takes 4 bytes of the index, one over 65535 takes 6. Where
 * there is no room the records are counted as they would then stand.
 * Records start with their kind: 1 the hall's line, 2 with a long offset, 3 an organiser's, 5 with a long offset, 4 a
 * share, 6 a share over 65535.
 * The hall and the organisers share the two. A call names its party (RASPTEAL_HALL, or {true, 7}), and files and finds
 * lines of that party alone; each may hold a line under the same UUID. Refusal of each such call, before any other and
 * with nothing changed: 24. */

/* Sets every byte of both buffers to 0: no party has a line or a share then. Refusal: 23, nothing changed. */
raspteal_refusal raspteal_store_clear(uint8_t *index, size_t index_len, uint8_t *text, size_t text_len);

/* Files the lines of a text that are for Linux and start with a UUID, each in place of the party's one under its UUID.
 * Refusals: 24, 19 and 10 with nothing changed; 20, 21 and 25 stop at one line, and those before it are filed. 21 is
 * for the index, 25 for the text: with that line the sum over all parties of the larger of use and share exceeds it. */
raspteal_inserted raspteal_store_insert(uint8_t *index, size_t index_len, uint8_t *text, size_t text_len,
                                        raspteal_party party, const uint8_t *lines, size_t lines_len);

/* Builds a line, as raspteal_from_data does, and files it. Refusals, with nothing changed: 24, build's without 18,
 * then 22, 19, 21, 25. */
raspteal_answer raspteal_store_save(uint8_t *index, size_t index_len, uint8_t *text, size_t text_len,
                                    raspteal_party party, raspteal_data data, const uint32_t *buttons,
                                    size_t buttons_len, const uint32_t *axes, size_t axes_len, const uint8_t *name,
                                    size_t name_len, raspteal_uuid id);

/* Takes the party's line under a UUID out; found says whether it held one. The lines behind it move down, in their order,
 * and the shares stay. Refusals, with nothing changed: 24, 19. */
raspteal_look raspteal_store_remove(uint8_t *index, size_t index_len, uint8_t *text, size_t text_len,
                                    raspteal_party party, raspteal_uuid id);

/* Gives a party a share of the text, in bytes; 0 takes it away. The owner byte names it, 0 is the hall. A line that
 * leaves its party within its share is never refused for text (25), whatever the others file. Refusals, with nothing
 * changed: 19; 26, where the sum over all parties of the larger of use and share would exceed the text; 21. */
raspteal_refusal raspteal_store_set_share(uint8_t *index, size_t index_len, const uint8_t *text, size_t text_len,
                                          uint8_t owner, size_t bytes);

/* The share and the use of the party with that owner byte. Refusal: 19. */
raspteal_share raspteal_store_share(const uint8_t *index, size_t index_len, const uint8_t *text, size_t text_len,
                                    uint8_t owner);

/* The record that stands at place `at` of an index; found is false where no whole one does. A walk goes on at
 * at + size. From place 0 on it meets the shares of a sound store, by owner, and then its lines in list order, each of
 * which lies where its record says. Whether a store is sound the calls that answer 19 tell. */
raspteal_record raspteal_store_record_at(const uint8_t *index, size_t index_len, size_t at);

/* The line of a text that starts at place `at`, as an insert cuts it: up to the next LF, and without a CR before that;
 * found is false from the text's end on. A walk goes on at next. */
raspteal_cut raspteal_next_line(const uint8_t *lines, size_t lines_len, size_t at);

/* Whether the party holds a line under a UUID. Refusals: 24, 19. */
raspteal_look raspteal_store_found(const uint8_t *index, size_t index_len, const uint8_t *text, size_t text_len,
                                   raspteal_party party, raspteal_uuid id);

/* Copies the party's line under a UUID to the start of out; next is its length, 0 where it holds none, the store is not
 * sound or an organiser has owner 0. fits is false, and out is left as it is, where out is shorter than the line. */
raspteal_written raspteal_store_get(const uint8_t *index, size_t index_len, const uint8_t *text, size_t text_len,
                                    raspteal_party party, raspteal_uuid id, uint8_t *out, size_t out_len);

/* The same two for a pad whose UUID may carry a checksum: they try the whole UUID, then raspteal_uuid_without_checksum
 * of it. An exact find is the line of raspteal_store_get. A line that is held with a checksum is not found without it,
 * nor with another. */
raspteal_near_look raspteal_store_found_near(const uint8_t *index, size_t index_len, const uint8_t *text,
                                             size_t text_len, raspteal_party party, raspteal_uuid id);
raspteal_written raspteal_store_get_near(const uint8_t *index, size_t index_len, const uint8_t *text, size_t text_len,
                                         raspteal_party party, raspteal_uuid id, uint8_t *out, size_t out_len);

/* ---- Pads ------------------------------------------------------------------------------------------------------ */

/* What a raw value gives to the element of an entry, or none. raw: 1 a button pressed, 2 the axis value v (-32768 to
 * 32767), any other number a button released. A value is -32768 to 32767, a button's 0 to 32767. An axis value on the
 * wrong side of a half input gives none. At v = 0 a full axis gives 16383 to a button. */
raspteal_value raspteal_entry_value(raspteal_entry e, uint8_t raw, int16_t v);

/* The same by the first entry of a code, with its element; none where the map has no such code. A program that keeps
 * its map asks raspteal_entry_value of the entry itself, and hands over no map. */
raspteal_emitted raspteal_mapping_event(raspteal_mapping map, uint32_t code, uint8_t raw, int16_t v);

/* ---- A pad while a game runs ---------------------------------------------------------------------------------------
 * The value of an element is, of the values that the pad's held codes give it by the current map, the one farthest from
 * zero, between equal distances that of the smallest code, and 0 if there is none. A program that starts with every
 * element at 0 and takes each event's value holds the values of all elements, after any raw events and changes of map. */

/* No codes and the empty map. */
raspteal_pad raspteal_pad_new(void);

/* A raw value of a code: raw and v as in raspteal_entry_value. It is held from now on, also where it gives no value or
 * the map lacks the code. At most one event. Refusal: 27, a 257th code. */
raspteal_told raspteal_pad_raw_event(raspteal_pad pad, uint32_t code, uint8_t raw, int16_t v);

/* Another map: the held codes count by it from now on. */
raspteal_told raspteal_pad_change_map(raspteal_pad pad, raspteal_mapping map);

/* The value of an element; 0 for one other than buttons 1 to 19 and axes 1 to 8. */
int16_t raspteal_pad_value(raspteal_pad pad, raspteal_element e);

/* ---- Two pads for one player ---------------------------------------------------------------------------------------
 * A second pad plays along. The value of an element is, of the two pads' values, the one farther from zero, and the first
 * pad's between equal distances. The events are those of these values. second says which pad a call is for: false the
 * first one, true the second. */

/* No codes and the empty map, on both pads. */
raspteal_pads raspteal_pads_new(void);

/* A raw value of a code of one pad, as raspteal_pad_raw_event. Refusal: 27, a 257th code of that pad. */
raspteal_pads_told raspteal_pads_raw_event(raspteal_pads pads, bool second, uint32_t code, uint8_t raw, int16_t v);

/* Another map for one pad. */
raspteal_pads_told raspteal_pads_change_map(raspteal_pads pads, bool second, raspteal_mapping map);

/* The value of an element; 0 for one other than buttons 1 to 19 and axes 1 to 8. */
int16_t raspteal_pads_value(raspteal_pads pads, raspteal_element e);

/* ---- Refusals by number: raspteal_meaning in raspteal_numbers.h has their words ------------------------------------
 * Only the walker says 8 and 9, only clear 23: an index of more than 1048576 bytes or a text of more than 16777216; all
 * other calls of the store say 19 of those. 15 carries its code.
 * Places: 1, 2, 7 and 9 at 0; 3, 5, 6, 8 and 11 at the pair's start; 4 there or, for a hat, further on; 10 at the end
 * of the longest run of whole characters. The others have none. */

#ifdef __cplusplus
}
#endif

#endif
