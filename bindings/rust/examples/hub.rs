//! What a hub does with the library: load a list of mapping lines, look a pad up by its GUID, read its line with the
//! pad's code lists, turn a code into an element, and save what staff have bound.
//!
//!     cargo run --example hub ../example/pads.txt
use raspteal::{Axis, AxisOrBtn, Button, Code, Error as Refusal, Mapping, MappingData, Store, Uuid};
use std::error::Error;

// What the pad's driver reports, in its order: a line's `b1` is the second button of this list.
const BUTTONS: [Code; 5] = [Code(0x10130), Code(0x10131), Code(0x10132), Code(0x10133), Code(0x10134)];
const AXES: [Code; 2] = [Code(0x30000), Code(0x30001)];

/// An element by the name that lines have for it; some have none.
fn name(element: AxisOrBtn) -> String {
    element.ident().unwrap_or_else(|| match element {
        AxisOrBtn::Btn(b) => format!("button {}", b.number()),
        AxisOrBtn::Axis(a) => format!("axis {}", a.number()),
    })
}

fn show(map: &Mapping, code: Code) {
    match map.map(code) {
        Some(element) => println!("  code {code} is {}", name(element)),
        None => println!("  code {code} is not mapped"),
    }
}

/// Binds a button to a code, and empties every other slot of that code: of two elements with one code, one would be lost
/// when the line is read.
fn bind(data: &mut MappingData, code: Code, button: Button) {
    for b in Button::ALL {
        if data.button(b) == Some(code) {
            data.remove_button(b);
        }
    }
    for a in Axis::ALL {
        if data.axis(a) == Some(code) {
            data.remove_axis(a);
        }
    }
    data.insert_btn(code, button);
}

fn main() -> Result<(), Box<dyn Error>> {
    let path = std::env::args().nth(1).ok_or("usage: hub LIST")?;

    // A store of the smaller size. StoreFile keeps one between runs.
    let mut store = Store::small();
    match store.insert(std::fs::read(path)?) {
        Ok(walked) => println!("{} lines", walked.count),
        Err(stopped) if matches!(stopped.error, Refusal::NoRoom | Refusal::NoText) => {
            println!("{} lines\n{}; the lines before it are filed", stopped.walked.count, stopped.error)
        }
        Err(stopped) => return Err(stopped.into()),
    }

    // A pad is plugged in: by its line, else by the usual meaning of its codes.
    let pad: Uuid = "03000000aabb00000100000011010000".parse()?;
    let map = match store.mapping(pad, &BUTTONS, &AXES)? {
        Some(map) => map,
        None => Mapping::default_of(&BUTTONS, &AXES)?,
    };
    println!("pad {pad}, {} codes", map.len());
    show(&map, Code(0x10131));
    show(&map, Code(0x30000));
    show(&map, Code(0x10132));

    // Staff bind South and East anew.
    let mut bound = MappingData::new();
    for (code, element) in &map {
        match element {
            AxisOrBtn::Btn(b) if BUTTONS.contains(&code) => bound.insert_btn(code, b),
            AxisOrBtn::Axis(a) if AXES.contains(&code) => bound.insert_axis(code, a),
            _ => None,
        };
    }
    bind(&mut bound, Code(0x10130), Button::South);
    bind(&mut bound, Code(0x10131), Button::East);
    let saved = store.save(&bound, &BUTTONS, &AXES, "Seat 7", pad)?;
    println!("saved {}", String::from_utf8(store.get(pad)?.unwrap_or_default())?);
    show(&saved, Code(0x10131));
    let again = store.mapping(pad, &BUTTONS, &AXES)?;
    println!("reads back {}", if again == Some(saved) { "the same" } else { "differently" });

    // A name that may not be saved is refused, and the store stays as it was.
    if let Err(refused) = store.save(&bound, &BUTTONS, &AXES, "Seat 7, left", pad) {
        println!("{refused}");
    }
    Ok(())
}
