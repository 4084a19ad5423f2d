//! Each function of the library on slices. What makes the calls sound: a slice's pointer is never null and reaches
//! over its length, the compiler keeps a `&mut` slice apart from all others, and every input is taken.
use super::*;
use crate::Code as EventCode;

pub fn same_bytes(a: &[u8], b: &[u8]) -> bool {
    unsafe { raspteal_same_bytes(a.as_ptr(), a.len(), b.as_ptr(), b.len()) }
}

pub fn write_bytes(out: &mut [u8], at: usize, v: &[u8]) -> Written {
    unsafe { raspteal_write_bytes(out.as_mut_ptr(), out.len(), at, v.as_ptr(), v.len()) }
}

pub fn valid_up_to(s: &[u8]) -> usize {
    unsafe { raspteal_valid_up_to(s.as_ptr(), s.len()) }
}

pub fn is_utf8(s: &[u8]) -> bool {
    unsafe { raspteal_is_utf8(s.as_ptr(), s.len()) }
}

pub fn uuid_parse_str(s: &[u8]) -> UuidParse {
    unsafe { raspteal_uuid_parse_str(s.as_ptr(), s.len()) }
}

pub fn uuid_without_checksum(id: Uuid) -> Uuid {
    unsafe { raspteal_uuid_without_checksum(id) }
}

pub fn uuid_write_simple(id: Uuid, out: &mut [u8], at: usize) -> Written {
    unsafe { raspteal_uuid_write_simple(id, out.as_mut_ptr(), out.len(), at) }
}

pub fn parse_u16(s: &[u8]) -> IndexParse {
    unsafe { raspteal_parse_u16(s.as_ptr(), s.len()) }
}

pub fn index_len(n: usize) -> usize {
    unsafe { raspteal_index_len(n) }
}

pub fn write_index(out: &mut [u8], at: usize, n: usize) -> Written {
    unsafe { raspteal_write_index(out.as_mut_ptr(), out.len(), at, n) }
}

pub fn button_to_nec(button: u16) -> Code {
    unsafe { raspteal_button_to_nec(button) }
}

pub fn button_is_stick(button: u16) -> bool {
    unsafe { raspteal_button_is_stick(button) }
}

pub fn button_is_dpad(button: u16) -> bool {
    unsafe { raspteal_button_is_dpad(button) }
}

pub fn axis_is_stick(axis: u16) -> bool {
    unsafe { raspteal_axis_is_stick(axis) }
}

pub fn axis_second_axis(axis: u16) -> AxisNumber {
    unsafe { raspteal_axis_second_axis(axis) }
}

pub fn element_is_button(e: Element) -> bool {
    unsafe { raspteal_element_is_button(e) }
}

pub fn element_eq(a: Element, b: Element) -> bool {
    unsafe { raspteal_element_eq(a, b) }
}

pub fn find_element(key: &[u8]) -> Mapped {
    unsafe { raspteal_find_element(key.as_ptr(), key.len()) }
}

pub fn ident_of(e: Element) -> Ident {
    unsafe { raspteal_ident_of(e) }
}

pub fn entry_new(code: u32, element: Element) -> Entry {
    unsafe { raspteal_entry_new(code, element) }
}

pub fn entry_ranged(code: u32, element: Element, input: u8, output: u8, inverted: bool) -> Entry {
    unsafe { raspteal_entry_ranged(code, element, input, output, inverted) }
}

pub fn entry_number(e: Entry) -> u64 {
    unsafe { raspteal_entry_number(e) }
}

pub fn entry_of_number(x: u64) -> Entry {
    unsafe { raspteal_entry_of_number(x) }
}

pub fn mapping_new() -> Mapping {
    unsafe { raspteal_mapping_new() }
}

pub fn mapping_put(map: Mapping, e: Entry) -> Answer {
    unsafe { raspteal_mapping_put(map, e) }
}

pub fn mapping_map(map: Mapping, code: u32) -> Mapped {
    unsafe { raspteal_mapping_map(map, code) }
}

pub fn mapping_entry(map: Mapping, code: u32) -> Entered {
    unsafe { raspteal_mapping_entry(map, code) }
}

pub fn lists_map(codes: &[u32], elements: &[u32], code: u32) -> Mapped {
    unsafe { raspteal_lists_map(codes.as_ptr(), codes.len(), elements.as_ptr(), elements.len(), code) }
}

pub fn mapping_map_rev(map: Mapping, e: Element) -> Code {
    unsafe { raspteal_mapping_map_rev(map, e) }
}

pub fn parser_start(line: &[u8]) -> u8 {
    unsafe { raspteal_parser_start(line.as_ptr(), line.len()) }
}

pub fn parser_step(line: &[u8], pos: usize, state: u8) -> Step {
    unsafe { raspteal_parser_step(line.as_ptr(), line.len(), pos, state) }
}

pub fn first_form(line: &[u8]) -> u8 {
    unsafe { raspteal_first_form(line.as_ptr(), line.len()) }
}

pub fn count_tokens(line: &[u8]) -> Tokens {
    unsafe { raspteal_count_tokens(line.as_ptr(), line.len()) }
}

/// A list of codes as it crosses: `Code` has the layout of a `u32`.
fn list(codes: &[EventCode]) -> (*const u32, usize) {
    (codes.as_ptr().cast(), codes.len())
}

pub fn parse_sdl_mapping(line: &[u8], buttons: &[EventCode], axes: &[EventCode]) -> Answer {
    let ((b, b_len), (a, a_len)) = (list(buttons), list(axes));
    unsafe { raspteal_parse_sdl_mapping(line.as_ptr(), line.len(), b, b_len, a, a_len) }
}

pub fn data_new() -> MappingData {
    unsafe { raspteal_data_new() }
}

pub fn data_button(data: MappingData, button: u16) -> Code {
    unsafe { raspteal_data_button(data, button) }
}

pub fn data_axis(data: MappingData, axis: u16) -> Code {
    unsafe { raspteal_data_axis(data, axis) }
}

pub fn data_insert_btn(data: MappingData, code: u32, button: u16) -> Changed {
    unsafe { raspteal_data_insert_btn(data, code, button) }
}

pub fn data_insert_axis(data: MappingData, code: u32, axis: u16) -> Changed {
    unsafe { raspteal_data_insert_axis(data, code, axis) }
}

pub fn data_remove_button(data: MappingData, button: u16) -> Changed {
    unsafe { raspteal_data_remove_button(data, button) }
}

pub fn data_remove_axis(data: MappingData, axis: u16) -> Changed {
    unsafe { raspteal_data_remove_axis(data, axis) }
}

pub fn from_data(
    data: MappingData,
    buttons: &[EventCode],
    axes: &[EventCode],
    name: &[u8],
    id: Uuid,
    out: &mut [u8],
) -> Built {
    let ((b, b_len), (a, a_len)) = (list(buttons), list(axes));
    unsafe {
        raspteal_from_data(data, b, b_len, a, a_len, name.as_ptr(), name.len(), id, out.as_mut_ptr(), out.len())
    }
}

pub fn key_button(code: u32) -> u16 {
    unsafe { raspteal_key_button(code) }
}

pub fn key_table() -> Keys {
    unsafe { raspteal_key_table() }
}

pub fn default(buttons: &[EventCode], axes: &[EventCode]) -> Answer {
    let ((b, b_len), (a, a_len)) = (list(buttons), list(axes));
    unsafe { raspteal_default(b, b_len, a, a_len) }
}

pub fn store_clear(index: &mut [u8], text: &mut [u8]) -> Refusal {
    unsafe { raspteal_store_clear(index.as_mut_ptr(), index.len(), text.as_mut_ptr(), text.len()) }
}

pub fn store_insert(index: &mut [u8], text: &mut [u8], party: Party, lines: &[u8]) -> Inserted {
    unsafe {
        raspteal_store_insert(
            index.as_mut_ptr(),
            index.len(),
            text.as_mut_ptr(),
            text.len(),
            party,
            lines.as_ptr(),
            lines.len(),
        )
    }
}

// what the header asks for
#[allow(clippy::too_many_arguments)]
pub fn store_save(
    index: &mut [u8],
    text: &mut [u8],
    party: Party,
    data: MappingData,
    buttons: &[EventCode],
    axes: &[EventCode],
    name: &[u8],
    id: Uuid,
) -> Answer {
    let ((b, b_len), (a, a_len)) = (list(buttons), list(axes));
    let (index_len, text_len) = (index.len(), text.len());
    let (index, text) = (index.as_mut_ptr(), text.as_mut_ptr());
    let (n, n_len) = (name.as_ptr(), name.len());
    unsafe { raspteal_store_save(index, index_len, text, text_len, party, data, b, b_len, a, a_len, n, n_len, id) }
}

pub fn store_remove(index: &mut [u8], text: &mut [u8], party: Party, id: Uuid) -> Look {
    let (index, index_len, text, text_len) = (index.as_mut_ptr(), index.len(), text.as_mut_ptr(), text.len());
    unsafe { raspteal_store_remove(index, index_len, text, text_len, party, id) }
}

pub fn store_set_share(index: &mut [u8], text: &[u8], owner: u8, bytes: usize) -> Refusal {
    let (index, index_len) = (index.as_mut_ptr(), index.len());
    unsafe { raspteal_store_set_share(index, index_len, text.as_ptr(), text.len(), owner, bytes) }
}

pub fn store_share(index: &[u8], text: &[u8], owner: u8) -> Share {
    unsafe { raspteal_store_share(index.as_ptr(), index.len(), text.as_ptr(), text.len(), owner) }
}

pub fn store_record_at(index: &[u8], at: usize) -> Record {
    unsafe { raspteal_store_record_at(index.as_ptr(), index.len(), at) }
}

pub fn next_line(lines: &[u8], at: usize) -> Cut {
    unsafe { raspteal_next_line(lines.as_ptr(), lines.len(), at) }
}

pub fn store_found(index: &[u8], text: &[u8], party: Party, id: Uuid) -> Look {
    unsafe { raspteal_store_found(index.as_ptr(), index.len(), text.as_ptr(), text.len(), party, id) }
}

pub fn store_get(index: &[u8], text: &[u8], party: Party, id: Uuid, out: &mut [u8]) -> Written {
    let (o, o_len) = (out.as_mut_ptr(), out.len());
    unsafe { raspteal_store_get(index.as_ptr(), index.len(), text.as_ptr(), text.len(), party, id, o, o_len) }
}

pub fn store_found_near(index: &[u8], text: &[u8], party: Party, id: Uuid) -> NearLook {
    unsafe { raspteal_store_found_near(index.as_ptr(), index.len(), text.as_ptr(), text.len(), party, id) }
}

pub fn store_get_near(index: &[u8], text: &[u8], party: Party, id: Uuid, out: &mut [u8]) -> Written {
    let (o, o_len) = (out.as_mut_ptr(), out.len());
    unsafe { raspteal_store_get_near(index.as_ptr(), index.len(), text.as_ptr(), text.len(), party, id, o, o_len) }
}

pub fn entry_value(e: Entry, raw: u8, v: i16) -> Value {
    unsafe { raspteal_entry_value(e, raw, v) }
}

pub fn mapping_event(map: Mapping, code: u32, raw: u8, v: i16) -> Emitted {
    unsafe { raspteal_mapping_event(map, code, raw, v) }
}

pub fn pad_new() -> Pad {
    unsafe { raspteal_pad_new() }
}

pub fn pad_raw_event(pad: Pad, code: u32, raw: u8, v: i16) -> Told {
    unsafe { raspteal_pad_raw_event(pad, code, raw, v) }
}

pub fn pad_change_map(pad: Pad, map: Mapping) -> Told {
    unsafe { raspteal_pad_change_map(pad, map) }
}

pub fn pad_value(pad: Pad, e: Element) -> i16 {
    unsafe { raspteal_pad_value(pad, e) }
}

pub fn pads_new() -> Pads {
    unsafe { raspteal_pads_new() }
}

pub fn pads_raw_event(pads: Pads, second: bool, code: u32, raw: u8, v: i16) -> PadsTold {
    unsafe { raspteal_pads_raw_event(pads, second, code, raw, v) }
}

pub fn pads_change_map(pads: Pads, second: bool, map: Mapping) -> PadsTold {
    unsafe { raspteal_pads_change_map(pads, second, map) }
}

pub fn pads_value(pads: Pads, e: Element) -> i16 {
    unsafe { raspteal_pads_value(pads, e) }
}
