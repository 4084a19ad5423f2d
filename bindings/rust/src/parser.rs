//! The walker over one mapping line.
use crate::error::Error;
use crate::ffi::{self, safe};
use crate::{AxisOrBtn, Form, Uuid};
use std::iter::FusedIterator;

/// The half of an axis that is meant.
#[derive(Clone, Copy, Debug, PartialEq, Eq, Hash)]
pub enum AxisRange {
    /// From the middle down.
    LowerHalf,
    /// From the middle up.
    UpperHalf,
    /// All of it.
    Full,
}

/// What a field of a line says.
#[derive(Clone, Copy, Debug, PartialEq, Eq, Hash)]
pub enum Token<'a> {
    /// The first field.
    Uuid(Uuid),
    /// The value of the key `platform`.
    Platform(&'a str),
    /// The second field.
    Name(&'a str),
    /// A pair with an axis value.
    AxisMapping {
        /// The place in the list of axes.
        from: u16,
        /// The element of the key.
        to: AxisOrBtn,
        /// The half that the value names.
        input: AxisRange,
        /// The half that the key names.
        output: AxisRange,
        /// Whether the value ends in `~`.
        inverted: bool,
    },
    /// A pair with a button value.
    ButtonMapping {
        /// The place in the list of buttons.
        from: u16,
        /// The element of the key.
        to: AxisOrBtn,
        /// The half that the key names.
        output: AxisRange,
    },
    /// A pair with a hat value.
    HatMapping {
        /// The hat's number.
        hat: u16,
        /// The direction.
        direction: u16,
        /// The element of the key.
        to: AxisOrBtn,
        /// The half that the key names.
        output: AxisRange,
    },
}

/// The walker over one line. As an iterator it yields the tokens and refusals of the line in order.
///
/// After refusals 3 to 6 and 8 it goes on with the next pair. After 1, 2 and 10 there is nothing to go on with: the
/// iterator yields the refusal once, and then `None`, so that a loop ends. Document 01's walker has no end there: it
/// answers 9 (10 where the line is not UTF-8) to each further call, and [`Parser::next_token`] says so.
///
/// ```
/// use raspteal::{Error, Parser, Token};
///
/// let line = "00000000000000000000000000000000,Pad,a:b0,q:b1,";
/// let mut names = Parser::new(line).filter_map(|token| match token {
///     Ok(Token::Name(name)) => Some(name),
///     _ => None,
/// });
/// assert_eq!(names.next(), Some("Pad"));
///
/// let refused = Parser::new(line).find_map(Result::err).unwrap();
/// assert_eq!(refused, Error::UnknownButton { place: 42 });
///
/// let mut parser = Parser::new("q,T");
/// assert_eq!(parser.next(), Some(Err(Error::InvalidGuid { place: 0 })));
/// assert_eq!(parser.next(), None);
/// assert_eq!(parser.next_token(), Err(Error::InvalidParserState { place: 0 }));
/// ```
#[derive(Clone, Debug)]
pub struct Parser<'a> {
    line: &'a [u8],
    pos: usize,
    state: u8,
    ended: bool,
}

impl<'a> Parser<'a> {
    /// The walker before its first step.
    pub fn new(line: &'a (impl AsRef<[u8]> + ?Sized)) -> Parser<'a> {
        let line = line.as_ref();
        Parser { line, pos: 0, state: safe::parser_start(line), ended: false }
    }

    /// One step as document 01 has it: a token, a refusal, or `None` at the line's end, from which it does not go on.
    pub fn next_token(&mut self) -> Result<Option<Token<'a>>, Error> {
        let step = safe::parser_step(self.line, self.pos, self.state);
        self.pos = step.pos;
        self.state = step.state;
        token(self.line, step.token)
    }
}

impl<'a> Iterator for Parser<'a> {
    type Item = Result<Token<'a>, Error>;

    fn next(&mut self) -> Option<Self::Item> {
        if self.ended {
            return None;
        }
        let answer = self.next_token();
        self.ended = match &answer {
            Ok(token) => token.is_none(),
            Err(e) => matches!(e.number(), 1 | 2 | 9 | 10),
        };
        answer.transpose()
    }
}

impl FusedIterator for Parser<'_> {}

/// How the UUID of a line's first token is spelled; `None` where that token is no UUID.
///
/// ```
/// use raspteal::{first_form, Form};
///
/// assert_eq!(first_form("xinput,T"), Some(Form::Xinput));
/// assert_eq!(first_form("{00000000-0000-0000-0000-000000000000},T"), Some(Form::Braced));
/// assert_eq!(first_form("xinput"), None);
/// ```
pub fn first_form(line: impl AsRef<[u8]>) -> Option<Form> {
    match safe::first_form(line.as_ref()) {
        0 => None,
        n => Some(Form::of_number(n)),
    }
}

/// How many tokens a line has, up to its end or to a refusal after which the walker doesn't go on (1, 2, 10); and the
/// last refusal on the way.
///
/// ```
/// use raspteal::{count_tokens, Error};
///
/// let line = "00000000000000000000000000000000,Pad,a:b0,q:b1,";
/// assert_eq!(count_tokens(line), (3, Some(Error::UnknownButton { place: 42 })));
/// assert_eq!(count_tokens(""), (0, None));
/// ```
pub fn count_tokens(line: &(impl AsRef<[u8]> + ?Sized)) -> (usize, Option<Error>) {
    let tokens = safe::count_tokens(line.as_ref());
    (tokens.count, Error::check(tokens.last).err())
}

fn token(line: &[u8], t: ffi::Token) -> Result<Option<Token<'_>>, Error> {
    Error::check(t.refusal)?;
    let text = || {
        let part = &line[t.start..t.start + t.len];
        std::str::from_utf8(part).expect("only a line that is UTF-8 has texts, and they end at commas and colons")
    };
    let pair = t.pair;
    let (to, output) = (pair.to.into(), range(pair.output));
    Ok(match t.kind {
        ffi::UUID => Some(Token::Uuid(t.id.into())),
        ffi::PLATFORM => Some(Token::Platform(text())),
        ffi::NAME => Some(Token::Name(text())),
        ffi::AXIS => {
            let (input, inverted) = (range(pair.input), pair.inverted);
            Some(Token::AxisMapping { from: pair.from, to, input, output, inverted })
        }
        ffi::BUTTON => Some(Token::ButtonMapping { from: pair.from, to, output }),
        ffi::HAT => Some(Token::HatMapping { hat: pair.from, direction: pair.direction, to, output }),
        _ => None,
    })
}

pub(crate) fn range(n: u8) -> AxisRange {
    match n {
        0 => AxisRange::LowerHalf,
        1 => AxisRange::UpperHalf,
        _ => AxisRange::Full,
    }
}
