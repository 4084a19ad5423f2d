//! The structs that cross, against the C header's: sizes, alignments and the place of each field, as gcc lays them
//! out.
use raspteal::ffi;
use std::fmt::Write;
use std::path::Path;
use std::process::Command;

/// What the C program has to print for a struct, and the statement that prints it.
struct Row {
    rust: String,
    c: String,
}

macro_rules! row {
    ($of:ident, $c:literal, $value:expr, $($field:ident),+) => {{
        let value: ffi::$of = $value;
        let start = &value as *const ffi::$of as usize;
        let mut row = Row {
            rust: format!("{} {} {}", $c, std::mem::size_of::<ffi::$of>(), std::mem::align_of::<ffi::$of>()),
            c: format!("printf(\"{} %zu %zu\", sizeof({}), _Alignof({}));\n", $c, $c, $c),
        };
        $(
            let at = &value.$field as *const _ as usize - start;
            write!(row.rust, " {} {} {}", stringify!($field), at, std::mem::size_of_val(&value.$field)).unwrap();
            writeln!(row.c, "printf(\" {} %zu %zu\", offsetof({}, {}), sizeof((({} *)0)->{}));",
                stringify!($field), $c, stringify!($field), $c, stringify!($field)).unwrap();
        )+
        row.c += "puts(\"\");\n";
        row
    }};
}

fn rows() -> Vec<Row> {
    use ffi::safe;
    let built = safe::from_data(safe::data_new(), &[], &[], b"", ffi::Uuid { high: 0, low: 0 }, &mut []);
    let step = safe::parser_step(b"", 0, 0);
    let changed = safe::data_remove_axis(safe::data_new(), 0);
    let slot = changed.slots.axes[0];
    let hall = ffi::Party { organiser: false, owner: 9 };
    let inserted = safe::store_insert(&mut [], &mut [], hall, b"");
    let look = safe::store_found(&[], &[], hall, ffi::Uuid { high: 0, low: 0 });
    let near = safe::store_found_near(&[], &[], hall, ffi::Uuid { high: 0, low: 0 });
    let share = safe::store_share(&[], &[], 0);
    let (record, cut) = (safe::store_record_at(&[], 0), safe::next_line(b"", 0));
    let told = safe::pad_raw_event(safe::pad_new(), 0, 0, 0);
    let both = safe::pads_raw_event(safe::pads_new(), false, 0, 0, 0);
    vec![
        row!(Refusal, "raspteal_refusal", built.refusal, number, has_place, place, has_code, code),
        row!(Written, "raspteal_written", safe::write_bytes(&mut [], 0, b""), fits, next),
        row!(Uuid, "raspteal_uuid", step.token.id, high, low),
        row!(Party, "raspteal_party", hall, organiser, owner),
        row!(UuidParse, "raspteal_uuid_parse", safe::uuid_parse_str(b""), valid, id, form),
        row!(IndexParse, "raspteal_index_parse", safe::parse_u16(b""), valid, number),
        row!(Element, "raspteal_element", step.token.pair.to, is_axis, number),
        row!(Mapped, "raspteal_mapped", safe::find_element(b""), found, element),
        row!(Code, "raspteal_code", changed.former, found, code),
        row!(AxisNumber, "raspteal_axis", safe::axis_second_axis(0), found, number),
        row!(Ident, "raspteal_ident", safe::ident_of(step.token.pair.to), name, len),
        row!(
            Entry, "raspteal_entry", safe::entry_new(0, step.token.pair.to), code, element, input, output, inverted
        ),
        row!(Entered, "raspteal_entered", safe::mapping_entry(built.map, 0), found, entry),
        row!(Value, "raspteal_value", safe::entry_value(built.map.entries[0], 0, 0), found, value),
        row!(Emitted, "raspteal_emitted", safe::mapping_event(built.map, 0, 0, 0), found, element, value),
        row!(Pad, "raspteal_pad", safe::pad_new(), count, held, entry_count, entries),
        row!(Event, "raspteal_event", told.events[0], element, value),
        row!(Told, "raspteal_told", told, refusal, pad, count, events),
        row!(Pads, "raspteal_pads", safe::pads_new(), first, second),
        row!(PadsTold, "raspteal_pads_told", both, refusal, pads, count, events),
        row!(Mapping, "raspteal_mapping", built.map, count, entries, name_start, name_len, is_default, hats_mapped),
        row!(Keys, "raspteal_keys", safe::key_table(), buttons),
        row!(Answer, "raspteal_answer", safe::default(&[], &[]), refusal, map),
        row!(Pair, "raspteal_pair", step.token.pair, from, direction, to, input, output, inverted),
        row!(Token, "raspteal_token", step.token, kind, refusal, id, start, len, pair),
        row!(Step, "raspteal_step", step, token, pos, state),
        row!(Tokens, "raspteal_tokens", safe::count_tokens(b""), count, last),
        row!(Slot, "raspteal_slot", slot, filled, code),
        row!(MappingData, "raspteal_data", changed.slots, buttons, axes),
        row!(Changed, "raspteal_changed", changed, former, slots),
        row!(Built, "raspteal_built", built, refusal, map, len),
        row!(Inserted, "raspteal_inserted", inserted, refusal, count, not_simple),
        row!(Look, "raspteal_look", look, refusal, found),
        row!(NearLook, "raspteal_near_look", near, refusal, how),
        row!(Share, "raspteal_share", share, refusal, share, used),
        row!(Record, "raspteal_record", record, found, is_share, owner, id, offset, len, share, size),
        row!(Cut, "raspteal_cut", cut, found, len, next),
    ]
}

#[test]
fn as_in_c() {
    if Command::new("gcc").arg("--version").output().is_err() {
        eprintln!("layout: not compared, gcc is not installed");
        return;
    }
    let header = Path::new(env!("CARGO_MANIFEST_DIR")).join("../raspteal.h").canonicalize().unwrap();
    let folder = Path::new(env!("CARGO_TARGET_TMPDIR"));
    let (source, program) = (folder.join("layout.c"), folder.join("layout"));
    let rows = rows();
    let mut c = format!("#include <stdio.h>\n#include \"{}\"\nint main(void) {{\n", header.display());
    for row in &rows {
        c += &row.c;
    }
    c += "printf(\"limits %d %d %d %d %d %d %d %d %d %d %d\\n\", RASPTEAL_CODES_MAX, RASPTEAL_LIST_MAX, RASPTEAL_NAME_MAX, \
          RASPTEAL_LINE_MAX, RASPTEAL_INDEX_MAX, RASPTEAL_TEXT_MAX, RASPTEAL_BUTTONS, RASPTEAL_AXES, RASPTEAL_IDENT_MAX, \
          RASPTEAL_HELD_MAX, RASPTEAL_ELEMENTS);\n";
    c += "printf(\"kinds %d %d %d %d %d %d %d %d\\n\", RASPTEAL_END, RASPTEAL_REFUSED, RASPTEAL_UUID, \
          RASPTEAL_PLATFORM, RASPTEAL_NAME, RASPTEAL_AXIS, RASPTEAL_BUTTON, RASPTEAL_HAT);\n}\n";
    std::fs::write(&source, c).unwrap();
    let built =
        Command::new("gcc").args(["-std=c11", "-Wall", "-Werror", "-o"]).args([&program, &source]).output().unwrap();
    assert!(built.status.success(), "{}", String::from_utf8_lossy(&built.stderr));
    let printed = String::from_utf8(Command::new(&program).output().unwrap().stdout).unwrap();

    let mut expected: Vec<String> = rows.into_iter().map(|row| row.rust).collect();
    expected.push(format!(
        "limits {} {} {} {} {} {} {} {} {} {} {}",
        ffi::CODES_MAX,
        ffi::LIST_MAX,
        ffi::NAME_MAX,
        ffi::LINE_MAX,
        ffi::INDEX_MAX,
        ffi::TEXT_MAX,
        ffi::BUTTONS,
        ffi::AXES,
        ffi::IDENT_MAX,
        ffi::HELD_MAX,
        ffi::ELEMENTS
    ));
    expected.push(format!(
        "kinds {} {} {} {} {} {} {} {}",
        ffi::END,
        ffi::REFUSED,
        ffi::UUID,
        ffi::PLATFORM,
        ffi::NAME,
        ffi::AXIS,
        ffi::BUTTON,
        ffi::HAT
    ));
    assert_eq!(printed.lines().collect::<Vec<_>>(), expected);
}
