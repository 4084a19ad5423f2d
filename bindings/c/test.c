/* The C boundary: layout of what crosses, and a handful of calls; stores.c has those of the store. Prints a line for
 * each check that fails, and last 'N passed, M failed'. */
#include "checks.h"

static void layout(void) {
    CHECK(sizeof(raspteal_refusal) == 24);
    CHECK(offsetof(raspteal_refusal, place) == 8);
    CHECK(offsetof(raspteal_refusal, code) == 20);
    CHECK(sizeof(raspteal_written) == 16);
    CHECK(sizeof(raspteal_party) == 2 && offsetof(raspteal_party, owner) == 1);
    CHECK(sizeof(raspteal_uuid_parse) == 32 && offsetof(raspteal_uuid_parse, form) == 24);
    CHECK(sizeof(raspteal_inserted) == 40 && offsetof(raspteal_inserted, not_simple) == 32);
    CHECK(sizeof(raspteal_index_parse) == 4);
    CHECK(sizeof(raspteal_element) == 4);
    CHECK(sizeof(raspteal_mapped) == 6);
    CHECK(sizeof(raspteal_code) == 8);
    CHECK(sizeof(raspteal_ident) == 24);
    CHECK(sizeof(raspteal_entry) == 12);
    CHECK(offsetof(raspteal_entry, inverted) == 10);
    CHECK(offsetof(raspteal_entered, entry) == 4);
    CHECK(sizeof(raspteal_value) == 4);
    CHECK(sizeof(raspteal_emitted) == 8);
    CHECK(sizeof(raspteal_pad) == 16 + 512 * 8);
    CHECK(offsetof(raspteal_pad, entry_count) == 8 + 256 * 8);
    CHECK(sizeof(raspteal_event) == 6);
    CHECK(offsetof(raspteal_told, pad) == 24);
    CHECK(sizeof(raspteal_pads) == 2 * sizeof(raspteal_pad));
    CHECK(offsetof(raspteal_pads_told, count) == 24 + sizeof(raspteal_pads));
    CHECK(offsetof(raspteal_told, events) == 24 + sizeof(raspteal_pad) + 8);
    CHECK(offsetof(raspteal_mapping, name_start) == 8 + 256 * 12);
    CHECK(offsetof(raspteal_mapping, hats_mapped) == 8 + 256 * 12 + 17);
    CHECK(sizeof(raspteal_mapping) == 8 + 256 * 12 + 24);
    CHECK(offsetof(raspteal_answer, map) == 24);
    CHECK(sizeof(raspteal_pair) == 12);
    CHECK(offsetof(raspteal_token, pair) == 64);
    CHECK(sizeof(raspteal_token) == 80);
    CHECK(offsetof(raspteal_step, state) == 88);
    CHECK(sizeof(raspteal_data) == 29 * 8);
    CHECK(offsetof(raspteal_changed, slots) == 8);
    CHECK(offsetof(raspteal_built, len) == 24 + sizeof(raspteal_mapping));
    CHECK(offsetof(raspteal_inserted, count) == 24);
    CHECK(offsetof(raspteal_look, found) == 24);
    CHECK(sizeof(raspteal_share) == 40 && offsetof(raspteal_share, used) == 32);
    CHECK(sizeof(raspteal_record) == 56 && offsetof(raspteal_record, id) == 8 && offsetof(raspteal_record, size) == 48);
    CHECK(sizeof(raspteal_cut) == 24 && offsetof(raspteal_cut, next) == 16);
}

/* The names of numbers against the calls, and the words of refusals. */
static void numbers(void) {
    CHECK(raspteal_button_to_nec(RASPTEAL_BUTTON_SOUTH).code == RASPTEAL_NEC_BTN_SOUTH);
    CHECK(raspteal_button_to_nec(RASPTEAL_BUTTON_DPAD_RIGHT).code == RASPTEAL_NEC_BTN_DPAD_RIGHT);
    CHECK(raspteal_axis_second_axis(RASPTEAL_AXIS_DPAD_X).number == RASPTEAL_AXIS_DPAD_Y);
    CHECK(raspteal_find_element(TEXT("leftx")).element.number == RASPTEAL_AXIS_LEFT_STICK_X);
    CHECK(raspteal_entry_new(5, (raspteal_element){true, 1}).input == RASPTEAL_FULL);
    CHECK(strcmp(raspteal_meaning(0), "not refused") == 0 && strcmp(raspteal_meaning(13), "the name has a comma") == 0);
    CHECK(strcmp(raspteal_meaning(255), "no refusal has this number") == 0);
}

static void text(void) {
    uint8_t out[40];
    memset(out, '.', sizeof out);
    CHECK(raspteal_valid_up_to(TEXT("T\xc3\xa9\xff")) == 3);
    CHECK(raspteal_is_utf8(TEXT("")));
    CHECK(raspteal_same_bytes(TEXT("ab"), TEXT("ab")));
    CHECK(!raspteal_same_bytes(TEXT("ab"), TEXT("abc")));
    raspteal_uuid_parse u = raspteal_uuid_parse_str(TEXT("urn:uuid:F81D4FAE-7DEC-11D0-A765-00A0C91E6BF6"));
    CHECK(u.valid && u.id.high == 0xf81d4fae7dec11d0 && u.id.low == 0xa76500a0c91e6bf6);
    CHECK(!raspteal_uuid_parse_str(TEXT("{" U "}")).valid);
    raspteal_written w = raspteal_uuid_write_simple(u.id, BUFFER(out), 8);
    CHECK(w.fits && w.next == 40 && memcmp(out, "........f81d4fae7dec11d0a76500a0c91e6bf6", 40) == 0);
    w = raspteal_uuid_write_simple(u.id, BUFFER(out), 9);
    CHECK(!w.fits && w.next == 0);
    CHECK(raspteal_parse_u16(TEXT("+065535")).number == 65535);
    CHECK(!raspteal_parse_u16(TEXT("65536")).valid);
    w = raspteal_write_index(BUFFER(out), 0, 1023);
    CHECK(w.fits && w.next == 4 && raspteal_index_len(1023) == 4 && memcmp(out, "1023....", 8) == 0);
    w = raspteal_write_bytes(BUFFER(out), 38, TEXT("xyz"));
    CHECK(!w.fits && out[38] == 'f');
}

static void elements(void) {
    raspteal_element stick = {true, 1};
    CHECK(raspteal_button_to_nec(1).code == 0x10130 && raspteal_button_to_nec(19).code == 0x10223);
    CHECK(!raspteal_button_to_nec(0).found && !raspteal_button_to_nec(20).found);
    CHECK(raspteal_button_is_stick(14) && raspteal_button_is_dpad(16) && raspteal_axis_is_stick(5));
    CHECK(raspteal_axis_second_axis(7).number == 8 && !raspteal_axis_second_axis(3).found);
    CHECK(!raspteal_element_is_button(stick) && raspteal_element_eq(stick, stick));
    raspteal_mapped m = raspteal_find_element(TEXT("leftx"));
    CHECK(m.found && raspteal_element_eq(m.element, stick));
    CHECK(!raspteal_find_element(TEXT("left")).found);
    raspteal_ident i = raspteal_ident_of(stick);
    CHECK(i.len == 5 && memcmp(i.name, "leftx", 5) == 0);
}

static void lines(void) {
    static const char line[] = U ",T,dpup:h0.1,";
    uint8_t state = raspteal_parser_start(TEXT(line));
    raspteal_step s = raspteal_parser_step(TEXT(line), 0, state);
    CHECK(s.token.kind == RASPTEAL_UUID && s.pos == 33);
    s = raspteal_parser_step(TEXT(line), s.pos, s.state);
    CHECK(s.token.kind == RASPTEAL_NAME && s.token.start == 33 && s.token.len == 1);
    s = raspteal_parser_step(TEXT(line), s.pos, s.state);
    CHECK(s.token.kind == RASPTEAL_HAT && s.token.pair.direction == 1 && s.token.pair.to.number == 16);
    s = raspteal_parser_step(TEXT(line), s.pos, s.state);
    CHECK(s.token.kind == RASPTEAL_END);
    raspteal_token t = raspteal_parser_step(TEXT("xinput,T"), 0, raspteal_parser_start(TEXT("xinput,T"))).token;
    CHECK(t.kind == RASPTEAL_UUID && t.id.high == 0 && t.id.low == 0);
    t = raspteal_parser_step(TEXT("T\xff"), 0, raspteal_parser_start(TEXT("T\xff"))).token;
    CHECK(t.kind == RASPTEAL_REFUSED && t.refusal.number == 10 && t.refusal.place == 1);
    CHECK(raspteal_parser_step(TEXT(""), 0, raspteal_parser_start(TEXT(""))).token.kind == RASPTEAL_END);
    raspteal_tokens n = raspteal_count_tokens(TEXT(line));
    CHECK(n.count == 3 && n.last.number == 0);
    n = raspteal_count_tokens(TEXT(U ",T,a:,b:b1,"));
    CHECK(n.count == 3 && n.last.number == 8 && n.last.place == 35);
    n = raspteal_count_tokens(TEXT("q,T"));
    CHECK(n.count == 0 && n.last.number == 1 && n.last.place == 0);

    raspteal_answer r = raspteal_parse_sdl_mapping(TEXT(line), LIST(buttons), LIST(axes));
    CHECK(r.refusal.number == 0 && r.map.count == 2 && r.map.hats_mapped == 1);
    CHECK(r.map.name_start == 33 && r.map.name_len == 1 && !r.map.is_default);
    CHECK(r.map.entries[0].code == 0x10220 && r.map.entries[0].element.number == 16);
    CHECK(r.map.entries[1].code == 0x30011);
    CHECK(r.map.entries[1].element.is_axis && r.map.entries[1].element.number == 8);
    CHECK(raspteal_mapping_map(r.map, 0x10220).element.number == 16);
    CHECK(raspteal_mapping_map_rev(r.map, (raspteal_element){true, 8}).code == 0x30011);
    CHECK(!raspteal_mapping_map(r.map, 0).found);

    const uint32_t codes[] = {9, 7, 9}, elements[] = {65536 + 8, 3};
    raspteal_mapped m = raspteal_lists_map(LIST(codes), LIST(elements), 9);
    CHECK(m.found && m.element.is_axis && m.element.number == 8);
    m = raspteal_lists_map(LIST(codes), LIST(elements), 7);
    CHECK(m.found && !m.element.is_axis && m.element.number == 3);
    CHECK(!raspteal_lists_map(LIST(codes), LIST(elements), 8).found);
    CHECK(!raspteal_lists_map(codes + 2, 1, elements, 0, 9).found);

    raspteal_entry e = raspteal_entry_new(7, (raspteal_element){false, 3});
    CHECK(e.code == 7 && !e.element.is_axis && e.element.number == 3);
    e = raspteal_entry_new(7, (raspteal_element){true, 65535});
    CHECK(e.element.is_axis && e.element.number == 65535);
    CHECK(e.input == 2 && e.output == 2 && !e.inverted);
    raspteal_answer p = raspteal_mapping_put(raspteal_mapping_new(), e);
    CHECK(p.refusal.number == 0 && p.map.count == 1 && p.map.entries[0].code == 7);
    CHECK(p.map.entries[1].code == 0 && p.map.entries[1].input == 2 && p.map.entries[1].output == 2);
    e = raspteal_entry_ranged(7, (raspteal_element){true, 3}, 0, 1, true);
    CHECK(raspteal_entry_number(e) == ((uint64_t)7 << 32 | (1 + 2 * (2 + 4 + 16)) << 16 | 3));
    e = raspteal_entry_of_number(raspteal_entry_number(e));
    CHECK(e.code == 7 && e.element.is_axis && e.element.number == 3 && e.input == 0 && e.output == 1 && e.inverted);
    CHECK(raspteal_entry_ranged(7, (raspteal_element){true, 3}, 9, 3, false).input == 2);
    raspteal_entered found = raspteal_mapping_entry(raspteal_mapping_put(p.map, e).map, 7);
    CHECK(found.found && found.entry.input == 0 && found.entry.output == 1 && found.entry.inverted);
    found = raspteal_mapping_entry(p.map, 8);
    CHECK(!found.found && found.entry.code == 0 && found.entry.input == 2 && found.entry.output == 2);
    r = raspteal_parse_sdl_mapping(TEXT(U ",T,-leftx:+a0~,dpup:h0.1"), LIST(buttons), LIST(axes));
    found = raspteal_mapping_entry(r.map, axes[0]);
    CHECK(found.found && found.entry.input == 1 && found.entry.output == 0 && found.entry.inverted);
    CHECK(raspteal_mapping_entry(r.map, 0x30011).entry.output == 2);

    r = raspteal_parse_sdl_mapping(TEXT(U ",T,a:h0.q"), LIST(buttons), LIST(axes));
    CHECK(r.refusal.number == 4 && r.refusal.has_place && r.refusal.place == 38 && r.map.count == 0);
    r = raspteal_parse_sdl_mapping(TEXT("\xff"), LIST(buttons), LIST(axes));
    CHECK(r.refusal.number == 10 && r.refusal.place == 0);
}

static void builds(void) {
    uint8_t out[64];
    memset(out, '.', sizeof out);
    raspteal_data slots = raspteal_data_new();
    slots.buttons[1] = (raspteal_slot){true, 0x10131};
    CHECK(raspteal_data_button(slots, 1).code == 0x10131);
    slots.buttons[1].filled = false;
    CHECK(!raspteal_data_button(slots, 1).found && raspteal_data_button(slots, 1).code == 0);
    raspteal_changed c = raspteal_data_insert_btn(raspteal_data_new(), 0x10131, 1);
    CHECK(!c.former.found && raspteal_data_button(c.slots, 1).code == 0x10131);
    raspteal_uuid nil = {0, 0};
    raspteal_built b = raspteal_from_data(c.slots, LIST(buttons), LIST(axes), TEXT("T"), nil, BUFFER(out));
    CHECK(b.refusal.number == 0 && b.len == 40 && memcmp(out, U ",T,a:b1,.", 41) == 0);
    CHECK(b.map.count == 1 && b.map.entries[0].code == 0x10131 && b.map.entries[0].element.number == 1);
    b = raspteal_from_data(c.slots, axes, 1, LIST(axes), TEXT("T"), one, BUFFER(out));
    CHECK(b.refusal.number == 15 && b.refusal.has_code && b.refusal.code == 0x10131 && b.len == 0 && out[31] == '0');
    b = raspteal_from_data(c.slots, LIST(buttons), LIST(axes), TEXT("T"), one, out, 39);
    CHECK(b.refusal.number == 18);
    c = raspteal_data_insert_axis(c.slots, 5, 8);
    c = raspteal_data_remove_axis(c.slots, 8);
    CHECK(c.former.found && c.former.code == 5 && !raspteal_data_axis(c.slots, 8).found);
    c = raspteal_data_remove_button(c.slots, 20);
    CHECK(!c.former.found && raspteal_data_button(c.slots, 1).found);
    raspteal_keys keys = raspteal_key_table();
    CHECK(keys.buttons[0x30] == 1 && keys.buttons[0x3e] == 15 && keys.buttons[0x120] == 16 && keys.buttons[0x123] == 19);
    CHECK(keys.buttons[0] == 0 && keys.buttons[0x3f] == 0 && keys.buttons[RASPTEAL_KEYS - 1] == 0);
    CHECK(raspteal_key_button(0x10131) == 2 && raspteal_key_button(0x10223) == 19 && raspteal_key_button(0x10224) == 0);
    CHECK(raspteal_key_button(RASPTEAL_KEY_FIRST - 1) == 0 && raspteal_key_button(RASPTEAL_KEY_FIRST + RASPTEAL_KEYS) == 0);
    raspteal_answer d = raspteal_default(LIST(buttons), LIST(axes));
    CHECK(d.refusal.number == 0 && d.map.is_default && d.map.count == 3);
    d = raspteal_default(buttons, 1, LIST(axes));
    CHECK(d.map.is_default && d.map.count == 2 && d.map.entries[0].code == 0x10130 && d.map.entries[1].code == 0x30000);
    d = raspteal_default(buttons, 0, LIST(buttons));
    CHECK(d.refusal.number == 0 && d.map.is_default && d.map.count == 0);
}

static void pads(void) {
    raspteal_entry e = raspteal_entry_ranged(5, (raspteal_element){true, 1}, 2, 0, false);
    raspteal_value v = raspteal_entry_value(e, 2, 0);
    CHECK(v.found && v.value == -16384);
    CHECK(raspteal_entry_value(e, 1, 7).value == -32768);
    CHECK(raspteal_entry_value(e, 0, 7).found && raspteal_entry_value(e, 9, 7).value == 0);
    e = raspteal_entry_ranged(5, (raspteal_element){false, 1}, 1, 2, false);
    v = raspteal_entry_value(e, 2, -1);
    CHECK(!v.found && v.value == 0);
    raspteal_mapping map = raspteal_mapping_put(raspteal_mapping_new(), e).map;
    raspteal_emitted t = raspteal_mapping_event(map, 5, 2, 32767);
    CHECK(t.found && !t.element.is_axis && t.element.number == 1 && t.value == 32767);
    t = raspteal_mapping_event(map, 6, 1, 0);
    CHECK(!t.found && !t.element.is_axis && t.element.number == 0 && t.value == 0);
    /* the first entry of a code, in a map that is not ascending; a count over 256; elements that pads leave out */
    map.count = 300;
    map.entries[0] = raspteal_entry_new(9, (raspteal_element){true, 8});
    map.entries[1] = raspteal_entry_new(3, (raspteal_element){false, 0});
    map.entries[2] = raspteal_entry_new(9, (raspteal_element){false, 1});
    map.entries[255] = raspteal_entry_new(2, (raspteal_element){true, 65535});
    t = raspteal_mapping_event(map, 9, 2, -5);
    CHECK(t.found && t.element.is_axis && t.element.number == 8 && t.value == -5);
    t = raspteal_mapping_event(map, 3, 1, 0);
    CHECK(t.found && !t.element.is_axis && t.element.number == 0 && t.value == 32767);
    t = raspteal_mapping_event(map, 2, 0, 0);
    CHECK(t.found && t.element.number == 65535 && t.value == 0);
    t = raspteal_mapping_event(map, 0, 1, 0);
    CHECK(t.found && !t.element.is_axis && t.element.number == 0 && t.value == 32767);
    map.count = 0;
    CHECK(!raspteal_mapping_event(map, 9, 1, 0).found);
}

static bool told_one(raspteal_told t, bool is_axis, uint16_t number, int16_t value) {
    return t.refusal.number == 0 && t.count == 1 && t.events[0].element.is_axis == is_axis &&
           t.events[0].element.number == number && t.events[0].value == value && t.events[1].element.number == 0;
}

/* The stuck trigger: pressed under one map, let go under another, and back. */
static void games(void) {
    raspteal_element trigger = {false, 10}, south = {false, 1};
    raspteal_mapping a = raspteal_mapping_put(raspteal_mapping_new(), raspteal_entry_new(7, trigger)).map;
    raspteal_mapping b = raspteal_mapping_put(raspteal_mapping_new(), raspteal_entry_new(7, south)).map;
    raspteal_told t = raspteal_pad_change_map(raspteal_pad_new(), a);
    CHECK(t.refusal.number == 0 && t.count == 0 && t.pad.count == 0 && t.pad.entry_count == 1);
    t = raspteal_pad_raw_event(t.pad, 7, 1, 0);
    CHECK(told_one(t, false, 10, 32767) && t.pad.held[0] == ((uint64_t)7 << 32) + 1);
    CHECK(raspteal_pad_value(t.pad, trigger) == 32767 && raspteal_pad_value(t.pad, south) == 0);
    t = raspteal_pad_change_map(t.pad, b);
    CHECK(t.count == 2 && t.events[0].element.number == 1 && t.events[0].value == 32767);
    CHECK(t.events[1].element.number == 10 && t.events[1].value == 0);
    CHECK(told_one(raspteal_pad_raw_event(t.pad, 7, 2, -32768), false, 1, 0));
    t = raspteal_pad_raw_event(t.pad, 7, 0, 0);
    CHECK(told_one(t, false, 1, 0));
    t = raspteal_pad_change_map(t.pad, a);
    CHECK(t.count == 0 && raspteal_pad_value(t.pad, trigger) == 0);
    raspteal_pad p = t.pad;
    for (uint32_t code = 0; code < 256; code++) p = raspteal_pad_raw_event(p, code, 1, 0).pad;
    t = raspteal_pad_raw_event(p, 256, 1, 0);
    CHECK(p.count == 256 && t.refusal.number == 27 && !t.refusal.has_place && t.count == 0);
    CHECK(memcmp(&t.pad, &p, sizeof p) == 0);
}

/* A carer plays along. */
static void two_pads(void) {
    raspteal_element stick = {true, 1};
    raspteal_mapping a = raspteal_mapping_put(raspteal_mapping_new(), raspteal_entry_new(7, stick)).map;
    raspteal_mapping b = raspteal_mapping_put(raspteal_mapping_new(), raspteal_entry_new(8, stick)).map;
    raspteal_pads_told t = raspteal_pads_change_map(raspteal_pads_new(), false, a);
    t = raspteal_pads_change_map(t.pads, true, b);
    CHECK(t.refusal.number == 0 && t.count == 0 && t.pads.first.entry_count == 1 && t.pads.second.entry_count == 1);
    t = raspteal_pads_raw_event(t.pads, false, 7, 2, -5);
    CHECK(t.count == 1 && t.events[0].element.is_axis && t.events[0].value == -5);
    t = raspteal_pads_raw_event(t.pads, true, 8, 2, 5);
    CHECK(t.count == 0 && t.pads.second.count == 1 && raspteal_pads_value(t.pads, stick) == -5);
    t = raspteal_pads_raw_event(t.pads, true, 8, 2, 6);
    CHECK(t.count == 1 && t.events[0].value == 6 && raspteal_pads_value(t.pads, stick) == 6);
    t = raspteal_pads_change_map(t.pads, true, raspteal_mapping_new());
    CHECK(t.count == 1 && t.events[0].value == -5);
    raspteal_pads p = t.pads;
    for (uint32_t code = 0; code < 256; code++) p = raspteal_pads_raw_event(p, true, code, 1, 0).pads;
    t = raspteal_pads_raw_event(p, true, 256, 1, 0);
    CHECK(p.second.count == 256 && t.refusal.number == 27 && t.count == 0 && memcmp(&t.pads, &p, sizeof p) == 0);
    CHECK(raspteal_pads_raw_event(p, false, 256, 1, 0).refusal.number == 0);
}

int main(void) {
    layout();
    numbers();
    text();
    elements();
    lines();
    builds();
    pads();
    games();
    two_pads();
    printf("%d passed, %d failed\n", passed, failed);
    return failed != 0;
}
