//! Event codes, and the elements of a gamepad by their fixed numbers.
use crate::ffi::{self, safe};
use std::fmt;

/// An event code of a pad: 32 bits, the kind times 65536 plus the number of the Linux input headers. Never a place in
/// a list.
#[derive(Clone, Copy, Debug, PartialEq, Eq, PartialOrd, Ord, Hash)]
#[repr(transparent)]
pub struct Code(pub u32);

impl Code {
    pub(crate) fn found(c: ffi::Code) -> Option<Code> {
        c.found.then_some(Code(c.code))
    }
}

/// In hexadecimal, with the width, fill and zeros that are asked for.
///
/// ```
/// use raspteal::Code;
///
/// assert_eq!(format!("{} {:>6} {:08}", Code(0x10130), Code(0x10130), Code(0x10130)), "10130  10130 00010130");
/// ```
impl fmt::Display for Code {
    fn fmt(&self, f: &mut fmt::Formatter) -> fmt::Result {
        fmt::LowerHex::fmt(&self.0, f)
    }
}

/// A button, by its fixed number.
///
/// ```
/// use raspteal::{Button, Code};
///
/// assert_eq!(Button::South.number(), 1);
/// assert_eq!(Button::from_number(19), Some(Button::DPadRight));
/// assert_eq!(Button::South.to_nec(), Some(Code(0x10130)));
/// assert!(Button::DPadUp.is_dpad() && Button::LeftThumb.is_stick());
/// ```
#[allow(missing_docs)]
#[derive(Clone, Copy, Debug, PartialEq, Eq, PartialOrd, Ord, Hash)]
#[repr(u16)]
pub enum Button {
    Unknown = 0,
    South = 1,
    East = 2,
    C = 3,
    North = 4,
    West = 5,
    Z = 6,
    LeftTrigger = 7,
    RightTrigger = 8,
    LeftTrigger2 = 9,
    RightTrigger2 = 10,
    Select = 11,
    Start = 12,
    Mode = 13,
    LeftThumb = 14,
    RightThumb = 15,
    DPadUp = 16,
    DPadDown = 17,
    DPadLeft = 18,
    DPadRight = 19,
}

impl Button {
    /// All buttons, by number.
    pub const ALL: [Button; ffi::BUTTONS] = [
        Button::Unknown,
        Button::South,
        Button::East,
        Button::C,
        Button::North,
        Button::West,
        Button::Z,
        Button::LeftTrigger,
        Button::RightTrigger,
        Button::LeftTrigger2,
        Button::RightTrigger2,
        Button::Select,
        Button::Start,
        Button::Mode,
        Button::LeftThumb,
        Button::RightThumb,
        Button::DPadUp,
        Button::DPadDown,
        Button::DPadLeft,
        Button::DPadRight,
    ];

    /// The fixed number, 0 to 19.
    pub fn number(self) -> u16 {
        self as u16
    }

    /// The button of a number, none over 19.
    pub fn from_number(n: u16) -> Option<Button> {
        Button::ALL.get(usize::from(n)).copied()
    }

    /// The native event code; Unknown has none.
    pub fn to_nec(self) -> Option<Code> {
        Code::found(safe::button_to_nec(self.number()))
    }

    /// The button of a key code, by the table that the default map goes by; Unknown where it has none.
    ///
    /// ```
    /// use raspteal::{Button, Code};
    ///
    /// assert_eq!(Button::of_key(Code(0x10131)), Button::East);
    /// assert_eq!(Button::of_key(Code(0x10120)), Button::Unknown);
    /// ```
    pub fn of_key(code: Code) -> Button {
        Button::from_number(safe::key_button(code.0)).unwrap_or(Button::Unknown)
    }

    /// The table as data: the button number of each key code from [`KEY_FIRST`](crate::KEY_FIRST) on, 0 for none.
    pub fn key_table() -> [u8; ffi::KEYS] {
        safe::key_table().buttons
    }

    /// Whether it is a stick's, pressed.
    pub fn is_stick(self) -> bool {
        safe::button_is_stick(self.number())
    }

    /// Whether it is one of the directional pad.
    pub fn is_dpad(self) -> bool {
        safe::button_is_dpad(self.number())
    }
}

/// An axis, by its fixed number.
///
/// ```
/// use raspteal::Axis;
///
/// assert_eq!(Axis::LeftStickX.second_axis(), Some(Axis::LeftStickY));
/// assert!(Axis::LeftStickX.is_stick() && !Axis::DPadX.is_stick());
/// ```
#[allow(missing_docs)]
#[derive(Clone, Copy, Debug, PartialEq, Eq, PartialOrd, Ord, Hash)]
#[repr(u16)]
pub enum Axis {
    Unknown = 0,
    LeftStickX = 1,
    LeftStickY = 2,
    LeftZ = 3,
    RightStickX = 4,
    RightStickY = 5,
    RightZ = 6,
    DPadX = 7,
    DPadY = 8,
}

impl Axis {
    /// All axes, by number.
    pub const ALL: [Axis; ffi::AXES] = [
        Axis::Unknown,
        Axis::LeftStickX,
        Axis::LeftStickY,
        Axis::LeftZ,
        Axis::RightStickX,
        Axis::RightStickY,
        Axis::RightZ,
        Axis::DPadX,
        Axis::DPadY,
    ];

    /// The fixed number, 0 to 8.
    pub fn number(self) -> u16 {
        self as u16
    }

    /// The axis of a number, none over 8.
    pub fn from_number(n: u16) -> Option<Axis> {
        Axis::ALL.get(usize::from(n)).copied()
    }

    /// Whether it is one of a stick.
    pub fn is_stick(self) -> bool {
        safe::axis_is_stick(self.number())
    }

    /// The other axis of the same stick, or of the directional pad.
    pub fn second_axis(self) -> Option<Axis> {
        let other = safe::axis_second_axis(self.number());
        Axis::from_number(other.number).filter(|_| other.found)
    }
}

/// An element: an axis or a button.
///
/// ```
/// use raspteal::{Axis, AxisOrBtn};
///
/// let e = AxisOrBtn::from_key("leftx").unwrap();
/// assert_eq!(e, AxisOrBtn::Axis(Axis::LeftStickX));
/// assert!(!e.is_button());
/// assert_eq!(e.ident().as_deref(), Some("leftx"));
/// assert_eq!(e.to_string(), "LeftStickX");
/// ```
#[derive(Clone, Copy, Debug, PartialEq, Eq, PartialOrd, Ord, Hash)]
pub enum AxisOrBtn {
    /// An axis.
    Axis(Axis),
    /// A button.
    Btn(Button),
}

impl AxisOrBtn {
    /// The element that a key of a line names, as `leftx` or `a`.
    pub fn from_key(key: impl AsRef<[u8]>) -> Option<AxisOrBtn> {
        AxisOrBtn::found(safe::find_element(key.as_ref()))
    }

    /// The name that a built line has for it; the unknown elements and the axes of the directional pad have none.
    pub fn ident(self) -> Option<String> {
        let ident = safe::ident_of(self.into());
        let name = &ident.name[..ident.len];
        (ident.len > 0).then(|| name.iter().copied().map(char::from).collect())
    }

    /// Whether it is a button.
    pub fn is_button(self) -> bool {
        safe::element_is_button(self.into())
    }

    pub(crate) fn found(m: ffi::Mapped) -> Option<AxisOrBtn> {
        m.found.then(|| m.element.into())
    }
}

/// The source's name of the button or axis, with the width that is asked for.
impl fmt::Display for AxisOrBtn {
    fn fmt(&self, f: &mut fmt::Formatter) -> fmt::Result {
        match self {
            AxisOrBtn::Axis(a) => f.pad(&format!("{a:?}")),
            AxisOrBtn::Btn(b) => f.pad(&format!("{b:?}")),
        }
    }
}

impl From<Axis> for AxisOrBtn {
    fn from(a: Axis) -> AxisOrBtn {
        AxisOrBtn::Axis(a)
    }
}

impl From<Button> for AxisOrBtn {
    fn from(b: Button) -> AxisOrBtn {
        AxisOrBtn::Btn(b)
    }
}

impl From<AxisOrBtn> for ffi::Element {
    fn from(e: AxisOrBtn) -> ffi::Element {
        match e {
            AxisOrBtn::Axis(a) => ffi::Element { is_axis: true, number: a.number() },
            AxisOrBtn::Btn(b) => ffi::Element { is_axis: false, number: b.number() },
        }
    }
}

/// A number over 19, or 8 for an axis, counts as 0.
impl From<ffi::Element> for AxisOrBtn {
    fn from(e: ffi::Element) -> AxisOrBtn {
        if e.is_axis {
            return AxisOrBtn::Axis(Axis::from_number(e.number).unwrap_or(Axis::Unknown));
        }
        AxisOrBtn::Btn(Button::from_number(e.number).unwrap_or(Button::Unknown))
    }
}
