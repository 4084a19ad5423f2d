/* What a hub does with the library: load a list of mapping lines, look a pad up by its GUID, read its line with the
 * pad's code lists, turn a code into an element, and save what staff have bound.
 *
 *     gcc -o hub bindings/c/example.c target/staticlib/libexports.a && ./hub bindings/example/pads.txt
 */
#include <inttypes.h>
#include <stdio.h>
#include <stdlib.h>
#include <string.h>

#include "../raspteal.h"

/* What the pad's driver reports, in its order: a line's `b1` is the second button of this list. */
static const uint32_t buttons[] = {RASPTEAL_NEC_BTN_SOUTH, RASPTEAL_NEC_BTN_EAST, RASPTEAL_NEC_BTN_C,
                                   RASPTEAL_NEC_BTN_NORTH, RASPTEAL_NEC_BTN_WEST};
static const uint32_t axes[] = {RASPTEAL_NEC_AXIS_LSTICKX, RASPTEAL_NEC_AXIS_LSTICKY};
#define BUTTONS buttons, sizeof buttons / sizeof buttons[0]
#define AXES axes, sizeof axes / sizeof axes[0]

/* A store of the smaller size; RASPTEAL_INDEX_MAX and RASPTEAL_TEXT_MAX bytes are the larger one. Keep the two buffers
 * between runs, e.g. in a file; fresh ones are all 0. */
static uint8_t index_[RASPTEAL_SMALL_MAX], text[RASPTEAL_SMALL_MAX];
#define STORE index_, sizeof index_, text, sizeof text
#define HALL RASPTEAL_HALL /* the hall's own lines; a league organiser's are {true, 7}'s */

/* Ends the program where a call was refused. */
static void accept(raspteal_refusal r, const char *what) {
    if (r.number != 0) {
        fprintf(stderr, "%s: refused %d: %s\n", what, r.number, raspteal_meaning(r.number));
        exit(1);
    }
}

/* An element by the name that lines have for it; some have none. */
static void show(raspteal_mapping map, uint32_t code) {
    raspteal_mapped m = raspteal_mapping_map(map, code);
    raspteal_ident ident = raspteal_ident_of(m.element);
    if (!m.found)
        printf("  code %" PRIx32 " is not mapped\n", code);
    else if (ident.len == 0)
        printf("  code %" PRIx32 " is %s %d\n", code, m.element.is_axis ? "axis" : "button", m.element.number);
    else
        printf("  code %" PRIx32 " is %.*s\n", code, (int)ident.len, (const char *)ident.name);
}

/* Binds a button to a code, and empties every other slot of that code: of two elements with one code, one would be lost
 * when the line is read. */
static raspteal_data bind(raspteal_data data, uint32_t code, uint16_t button) {
    for (uint16_t k = 0; k < RASPTEAL_BUTTONS; k++)
        if (raspteal_data_button(data, k).found && raspteal_data_button(data, k).code == code)
            data = raspteal_data_remove_button(data, k).slots;
    for (uint16_t k = 0; k < RASPTEAL_AXES; k++)
        if (raspteal_data_axis(data, k).found && raspteal_data_axis(data, k).code == code)
            data = raspteal_data_remove_axis(data, k).slots;
    return raspteal_data_insert_btn(data, code, button).slots;
}

/* Whether a list has a code. */
static bool listed(const uint32_t *list, size_t len, uint32_t code) {
    for (size_t k = 0; k < len; k++)
        if (list[k] == code)
            return true;
    return false;
}

static size_t load(const char *path, uint8_t *to, size_t room) {
    FILE *f = fopen(path, "rb");
    if (f == NULL) {
        perror(path);
        exit(1);
    }
    size_t n = fread(to, 1, room, f);
    fclose(f);
    return n;
}

/* The line under a UUID: its length, 0 where none is held. */
static size_t line_of(raspteal_uuid pad, uint8_t line[RASPTEAL_LINE_MAX]) {
    raspteal_look l = raspteal_store_found(STORE, HALL, pad);
    accept(l.refusal, "look-up");
    return raspteal_store_get(STORE, HALL, pad, line, RASPTEAL_LINE_MAX).next;
}

int main(int argc, char **argv) {
    static uint8_t list[1 << 20], line[RASPTEAL_LINE_MAX];
    if (argc != 2) {
        fprintf(stderr, "usage: hub LIST\n");
        return 1;
    }
    raspteal_inserted i = raspteal_store_insert(STORE, HALL, list, load(argv[1], list, sizeof list));
    printf("%zu lines\n", i.count);
    if (i.refusal.number == 21 || i.refusal.number == 25)
        printf("refused %d: %s; the lines before it are filed\n", i.refusal.number, raspteal_meaning(i.refusal.number));
    else
        accept(i.refusal, "insert");

    /* A pad is plugged in: by its line, else by the usual meaning of its codes. */
    static const char guid[] = "03000000aabb00000100000011010000";
    raspteal_uuid pad = raspteal_uuid_parse_str((const uint8_t *)guid, strlen(guid)).id;
    size_t len = line_of(pad, line);
    raspteal_answer a =
        len > 0 ? raspteal_parse_sdl_mapping(line, len, BUTTONS, AXES) : raspteal_default(BUTTONS, AXES);
    accept(a.refusal, "reading");
    printf("pad %s, %zu codes\n", guid, a.map.count);
    show(a.map, 0x10131);
    show(a.map, 0x30000);
    show(a.map, 0x10132);

    /* Staff bind South and East anew. */
    raspteal_data bound = raspteal_data_new();
    for (size_t k = 0; k < a.map.count; k++) {
        raspteal_entry e = a.map.entries[k];
        if (e.element.is_axis && listed(AXES, e.code))
            bound = raspteal_data_insert_axis(bound, e.code, e.element.number).slots;
        if (!e.element.is_axis && listed(BUTTONS, e.code))
            bound = raspteal_data_insert_btn(bound, e.code, e.element.number).slots;
    }
    bound = bind(bound, RASPTEAL_NEC_BTN_SOUTH, RASPTEAL_BUTTON_SOUTH);
    bound = bind(bound, RASPTEAL_NEC_BTN_EAST, RASPTEAL_BUTTON_EAST);
    raspteal_answer saved =
        raspteal_store_save(STORE, HALL, bound, BUTTONS, AXES, (const uint8_t *)"Seat 7", 6, pad);
    accept(saved.refusal, "save");
    len = line_of(pad, line);
    printf("saved %.*s\n", (int)len, (const char *)line);
    show(saved.map, 0x10131);
    raspteal_answer again = raspteal_parse_sdl_mapping(line, len, BUTTONS, AXES);
    bool same = again.refusal.number == 0 && again.map.count == saved.map.count &&
                again.map.name_start == saved.map.name_start && again.map.name_len == saved.map.name_len;
    for (size_t k = 0; same && k < saved.map.count; k++)
        same = again.map.entries[k].code == saved.map.entries[k].code &&
               raspteal_element_eq(again.map.entries[k].element, saved.map.entries[k].element);
    printf("reads back %s\n", same ? "the same" : "differently");

    /* A name that may not be saved is refused, and the store stays as it was. */
    saved = raspteal_store_save(STORE, HALL, bound, BUTTONS, AXES, (const uint8_t *)"Seat 7, left", 12, pad);
    if (saved.refusal.number != 0)
        printf("refused %d: %s\n", saved.refusal.number, raspteal_meaning(saved.refusal.number));
    return 0;
}
