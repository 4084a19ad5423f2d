//! The functions of bindings/raspteal.h, in its order. `bindings/declared` compares these declarations with it and
//! with the Rattle source. A slice is a pointer and a length; a struct passes by value.
#![allow(unsafe_code, missing_docs)]

pub mod lock;
pub mod safe;

pub const CODES_MAX: usize = 256;
pub const BUTTONS: usize = 20;
pub const AXES: usize = 9;
pub const IDENT_MAX: usize = 13;
pub const KEYS: usize = 512;
pub const LIST_MAX: usize = 1024;
pub const NAME_MAX: usize = 8192;
pub const LINE_MAX: usize = 16384;
pub const INDEX_MAX: usize = 1048576;
pub const TEXT_MAX: usize = 16777216;
pub const SMALL_MAX: usize = 65535;
pub const STACK: usize = 393216;
pub const STACK_LARGE: usize = 4718592;
pub const HELD_MAX: usize = 256;
pub const ELEMENTS: usize = 27;

/// The kinds of a token.
pub const END: u8 = 0;
pub const REFUSED: u8 = 1;
pub const UUID: u8 = 2;
pub const PLATFORM: u8 = 3;
pub const NAME: u8 = 4;
pub const AXIS: u8 = 5;
pub const BUTTON: u8 = 6;
pub const HAT: u8 = 7;

#[repr(C)]
#[derive(Clone, Copy, Debug, PartialEq, Eq)]
pub struct Written {
    pub fits: bool,
    pub next: usize,
}

#[repr(C)]
#[derive(Clone, Copy, Debug, PartialEq, Eq)]
pub struct Uuid {
    pub high: u64,
    pub low: u64,
}

#[repr(C)]
#[derive(Clone, Copy, Debug, PartialEq, Eq)]
pub struct Party {
    pub organiser: bool,
    pub owner: u8,
}

#[repr(C)]
#[derive(Clone, Copy, Debug, PartialEq, Eq)]
pub struct UuidParse {
    pub valid: bool,
    pub id: Uuid,
    pub form: u8,
}

#[repr(C)]
#[derive(Clone, Copy, Debug, PartialEq, Eq)]
pub struct IndexParse {
    pub valid: bool,
    pub number: u16,
}

#[repr(C)]
#[derive(Clone, Copy, Debug, PartialEq, Eq)]
pub struct Element {
    pub is_axis: bool,
    pub number: u16,
}

#[repr(C)]
#[derive(Clone, Copy, Debug, PartialEq, Eq)]
pub struct Refusal {
    pub number: u8,
    pub has_place: bool,
    pub place: usize,
    pub has_code: bool,
    pub code: u32,
}

#[repr(C)]
#[derive(Clone, Copy, Debug, PartialEq, Eq)]
pub struct Code {
    pub found: bool,
    pub code: u32,
}

#[repr(C)]
#[derive(Clone, Copy, Debug, PartialEq, Eq)]
pub struct AxisNumber {
    pub found: bool,
    pub number: u16,
}

#[repr(C)]
#[derive(Clone, Copy, Debug, PartialEq, Eq)]
pub struct Mapped {
    pub found: bool,
    pub element: Element,
}

#[repr(C)]
#[derive(Clone, Copy, Debug, PartialEq, Eq)]
pub struct Ident {
    pub name: [u8; IDENT_MAX],
    pub len: usize,
}

#[repr(C)]
#[derive(Clone, Copy, Debug, PartialEq, Eq)]
pub struct Entry {
    pub code: u32,
    pub element: Element,
    pub input: u8,
    pub output: u8,
    pub inverted: bool,
}

#[repr(C)]
#[derive(Clone, Copy, Debug, PartialEq, Eq)]
pub struct Value {
    pub found: bool,
    pub value: i16,
}

#[repr(C)]
#[derive(Clone, Copy, Debug, PartialEq, Eq)]
pub struct Emitted {
    pub found: bool,
    pub element: Element,
    pub value: i16,
}

#[repr(C)]
#[derive(Clone, Copy, Debug, PartialEq, Eq)]
pub struct Pad {
    pub count: usize,
    pub held: [u64; HELD_MAX],
    pub entry_count: usize,
    pub entries: [u64; CODES_MAX],
}

#[repr(C)]
#[derive(Clone, Copy, Debug, PartialEq, Eq)]
pub struct Event {
    pub element: Element,
    pub value: i16,
}

#[repr(C)]
#[derive(Clone, Copy, Debug, PartialEq, Eq)]
pub struct Told {
    pub refusal: Refusal,
    pub pad: Pad,
    pub count: usize,
    pub events: [Event; ELEMENTS],
}

#[repr(C)]
#[derive(Clone, Copy, Debug, PartialEq, Eq)]
pub struct Pads {
    pub first: Pad,
    pub second: Pad,
}

#[repr(C)]
#[derive(Clone, Copy, Debug, PartialEq, Eq)]
pub struct PadsTold {
    pub refusal: Refusal,
    pub pads: Pads,
    pub count: usize,
    pub events: [Event; ELEMENTS],
}

#[repr(C)]
#[derive(Clone, Copy, Debug, PartialEq, Eq)]
pub struct Entered {
    pub found: bool,
    pub entry: Entry,
}

#[repr(C)]
#[derive(Clone, Copy, Debug, PartialEq, Eq)]
pub struct Mapping {
    pub count: usize,
    pub entries: [Entry; CODES_MAX],
    pub name_start: usize,
    pub name_len: usize,
    pub is_default: bool,
    pub hats_mapped: u8,
}

/// The button number of each key code.
#[repr(C)]
#[derive(Clone, Copy, Debug, PartialEq, Eq)]
pub struct Keys {
    pub buttons: [u8; KEYS],
}

/// The answer of a put, a reading, a default and a save: on a refusal the map is empty (a put's as it was).
#[repr(C)]
#[derive(Clone, Copy, Debug, PartialEq, Eq)]
pub struct Answer {
    pub refusal: Refusal,
    pub map: Mapping,
}

#[repr(C)]
#[derive(Clone, Copy, Debug, PartialEq, Eq)]
pub struct Pair {
    pub from: u16,
    pub direction: u16,
    pub to: Element,
    pub input: u8,
    pub output: u8,
    pub inverted: bool,
}

#[repr(C)]
#[derive(Clone, Copy, Debug, PartialEq, Eq)]
pub struct Token {
    pub kind: u8,
    pub refusal: Refusal,
    pub id: Uuid,
    pub start: usize,
    pub len: usize,
    pub pair: Pair,
}

#[repr(C)]
#[derive(Clone, Copy, Debug, PartialEq, Eq)]
pub struct Step {
    pub token: Token,
    pub pos: usize,
    pub state: u8,
}

#[repr(C)]
#[derive(Clone, Copy, Debug, PartialEq, Eq)]
pub struct Tokens {
    pub count: usize,
    pub last: Refusal,
}

#[repr(C)]
#[derive(Clone, Copy, Debug, PartialEq, Eq)]
pub struct Slot {
    pub filled: bool,
    pub code: u32,
}

#[repr(C)]
#[derive(Clone, Copy, Debug, PartialEq, Eq)]
pub struct MappingData {
    pub buttons: [Slot; BUTTONS],
    pub axes: [Slot; AXES],
}

#[repr(C)]
#[derive(Clone, Copy, Debug, PartialEq, Eq)]
pub struct Changed {
    pub former: Code,
    pub slots: MappingData,
}

#[repr(C)]
#[derive(Clone, Copy, Debug, PartialEq, Eq)]
pub struct Built {
    pub refusal: Refusal,
    pub map: Mapping,
    pub len: usize,
}

#[repr(C)]
#[derive(Clone, Copy, Debug, PartialEq, Eq)]
pub struct Inserted {
    pub refusal: Refusal,
    pub count: usize,
    pub not_simple: usize,
}

#[repr(C)]
#[derive(Clone, Copy, Debug, PartialEq, Eq)]
pub struct Look {
    pub refusal: Refusal,
    pub found: bool,
}

#[repr(C)]
#[derive(Clone, Copy, Debug, PartialEq, Eq)]
pub struct NearLook {
    pub refusal: Refusal,
    pub how: u8,
}

#[repr(C)]
#[derive(Clone, Copy, Debug, PartialEq, Eq)]
pub struct Share {
    pub refusal: Refusal,
    pub share: usize,
    pub used: usize,
}

#[repr(C)]
#[derive(Clone, Copy, Debug, PartialEq, Eq)]
pub struct Record {
    pub found: bool,
    pub is_share: bool,
    pub owner: u8,
    pub id: Uuid,
    pub offset: usize,
    pub len: usize,
    pub share: usize,
    pub size: usize,
}

#[repr(C)]
#[derive(Clone, Copy, Debug, PartialEq, Eq)]
pub struct Cut {
    pub found: bool,
    pub len: usize,
    pub next: usize,
}

extern "C" {
    pub fn raspteal_same_bytes(a: *const u8, a_len: usize, b: *const u8, b_len: usize) -> bool;
    pub fn raspteal_write_bytes(out: *mut u8, out_len: usize, at: usize, v: *const u8, v_len: usize) -> Written;
    pub fn raspteal_valid_up_to(s: *const u8, s_len: usize) -> usize;
    pub fn raspteal_is_utf8(s: *const u8, s_len: usize) -> bool;
    pub fn raspteal_uuid_parse_str(s: *const u8, s_len: usize) -> UuidParse;
    pub fn raspteal_uuid_without_checksum(id: Uuid) -> Uuid;
    pub fn raspteal_uuid_write_simple(id: Uuid, out: *mut u8, out_len: usize, at: usize) -> Written;
    pub fn raspteal_parse_u16(s: *const u8, s_len: usize) -> IndexParse;
    pub fn raspteal_index_len(n: usize) -> usize;
    pub fn raspteal_write_index(out: *mut u8, out_len: usize, at: usize, n: usize) -> Written;

    pub fn raspteal_button_to_nec(button: u16) -> Code;
    pub fn raspteal_button_is_stick(button: u16) -> bool;
    pub fn raspteal_button_is_dpad(button: u16) -> bool;
    pub fn raspteal_axis_is_stick(axis: u16) -> bool;
    pub fn raspteal_axis_second_axis(axis: u16) -> AxisNumber;
    pub fn raspteal_element_is_button(e: Element) -> bool;
    pub fn raspteal_element_eq(a: Element, b: Element) -> bool;
    pub fn raspteal_find_element(key: *const u8, key_len: usize) -> Mapped;
    pub fn raspteal_ident_of(e: Element) -> Ident;

    pub fn raspteal_entry_new(code: u32, element: Element) -> Entry;
    pub fn raspteal_entry_ranged(code: u32, element: Element, input: u8, output: u8, inverted: bool) -> Entry;
    pub fn raspteal_entry_number(e: Entry) -> u64;
    pub fn raspteal_entry_of_number(x: u64) -> Entry;
    pub fn raspteal_mapping_new() -> Mapping;
    pub fn raspteal_mapping_put(map: Mapping, e: Entry) -> Answer;
    pub fn raspteal_mapping_map(map: Mapping, code: u32) -> Mapped;
    pub fn raspteal_mapping_entry(map: Mapping, code: u32) -> Entered;
    pub fn raspteal_lists_map(
        codes: *const u32,
        codes_len: usize,
        elements: *const u32,
        elements_len: usize,
        code: u32,
    ) -> Mapped;
    pub fn raspteal_mapping_map_rev(map: Mapping, e: Element) -> Code;
    pub fn raspteal_parser_start(line: *const u8, line_len: usize) -> u8;
    pub fn raspteal_parser_step(line: *const u8, line_len: usize, pos: usize, state: u8) -> Step;
    pub fn raspteal_first_form(line: *const u8, line_len: usize) -> u8;
    pub fn raspteal_count_tokens(line: *const u8, line_len: usize) -> Tokens;
    pub fn raspteal_parse_sdl_mapping(
        line: *const u8,
        line_len: usize,
        buttons: *const u32,
        buttons_len: usize,
        axes: *const u32,
        axes_len: usize,
    ) -> Answer;

    pub fn raspteal_data_new() -> MappingData;
    pub fn raspteal_data_button(data: MappingData, button: u16) -> Code;
    pub fn raspteal_data_axis(data: MappingData, axis: u16) -> Code;
    pub fn raspteal_data_insert_btn(data: MappingData, code: u32, button: u16) -> Changed;
    pub fn raspteal_data_insert_axis(data: MappingData, code: u32, axis: u16) -> Changed;
    pub fn raspteal_data_remove_button(data: MappingData, button: u16) -> Changed;
    pub fn raspteal_data_remove_axis(data: MappingData, axis: u16) -> Changed;
    pub fn raspteal_from_data(
        data: MappingData,
        buttons: *const u32,
        buttons_len: usize,
        axes: *const u32,
        axes_len: usize,
        name: *const u8,
        name_len: usize,
        id: Uuid,
        out: *mut u8,
        out_len: usize,
    ) -> Built;
    pub fn raspteal_key_button(code: u32) -> u16;
    pub fn raspteal_key_table() -> Keys;
    pub fn raspteal_default(buttons: *const u32, buttons_len: usize, axes: *const u32, axes_len: usize) -> Answer;

    pub fn raspteal_store_clear(index: *mut u8, index_len: usize, text: *mut u8, text_len: usize) -> Refusal;
    pub fn raspteal_store_insert(
        index: *mut u8,
        index_len: usize,
        text: *mut u8,
        text_len: usize,
        party: Party,
        lines: *const u8,
        lines_len: usize,
    ) -> Inserted;
    pub fn raspteal_store_save(
        index: *mut u8,
        index_len: usize,
        text: *mut u8,
        text_len: usize,
        party: Party,
        data: MappingData,
        buttons: *const u32,
        buttons_len: usize,
        axes: *const u32,
        axes_len: usize,
        name: *const u8,
        name_len: usize,
        id: Uuid,
    ) -> Answer;
    pub fn raspteal_store_remove(
        index: *mut u8,
        index_len: usize,
        text: *mut u8,
        text_len: usize,
        party: Party,
        id: Uuid,
    ) -> Look;
    pub fn raspteal_store_set_share(
        index: *mut u8,
        index_len: usize,
        text: *const u8,
        text_len: usize,
        owner: u8,
        bytes: usize,
    ) -> Refusal;
    pub fn raspteal_store_share(
        index: *const u8,
        index_len: usize,
        text: *const u8,
        text_len: usize,
        owner: u8,
    ) -> Share;
    pub fn raspteal_store_record_at(index: *const u8, index_len: usize, at: usize) -> Record;
    pub fn raspteal_next_line(lines: *const u8, lines_len: usize, at: usize) -> Cut;
    pub fn raspteal_store_found(
        index: *const u8,
        index_len: usize,
        text: *const u8,
        text_len: usize,
        party: Party,
        id: Uuid,
    ) -> Look;
    pub fn raspteal_store_get(
        index: *const u8,
        index_len: usize,
        text: *const u8,
        text_len: usize,
        party: Party,
        id: Uuid,
        out: *mut u8,
        out_len: usize,
    ) -> Written;
    pub fn raspteal_store_found_near(
        index: *const u8,
        index_len: usize,
        text: *const u8,
        text_len: usize,
        party: Party,
        id: Uuid,
    ) -> NearLook;
    pub fn raspteal_store_get_near(
        index: *const u8,
        index_len: usize,
        text: *const u8,
        text_len: usize,
        party: Party,
        id: Uuid,
        out: *mut u8,
        out_len: usize,
    ) -> Written;
    pub fn raspteal_entry_value(e: Entry, raw: u8, v: i16) -> Value;
    pub fn raspteal_mapping_event(map: Mapping, code: u32, raw: u8, v: i16) -> Emitted;
    pub fn raspteal_pad_new() -> Pad;
    pub fn raspteal_pad_raw_event(pad: Pad, code: u32, raw: u8, v: i16) -> Told;
    pub fn raspteal_pad_change_map(pad: Pad, map: Mapping) -> Told;
    pub fn raspteal_pad_value(pad: Pad, e: Element) -> i16;
    pub fn raspteal_pads_new() -> Pads;
    pub fn raspteal_pads_raw_event(pads: Pads, second: bool, code: u32, raw: u8, v: i16) -> PadsTold;
    pub fn raspteal_pads_change_map(pads: Pads, second: bool, map: Mapping) -> PadsTold;
    pub fn raspteal_pads_value(pads: Pads, e: Element) -> i16;
}
