//! The walker, its tokens, and where it stops as an iterator.
use raspteal::{Axis, AxisRange, Button, Error, Parser, Token, Uuid};

const U: &str = "00000000000000000000000000000000";

#[test]
fn tokens() {
    let line =
        "f81d4fae7dec11d0a76500a0c91e6bf6,Pad é,a:b3,-leftx:+a4~,lefty:-a5,righty:a6,+dpup:h0.1,platform:Linux";
    let found: Vec<Token> = Parser::new(line).collect::<Result<_, _>>().unwrap();
    assert_eq!(
        found,
        [
            Token::Uuid(Uuid::from_u128(0xf81d4fae7dec11d0a76500a0c91e6bf6)),
            Token::Name("Pad é"),
            Token::ButtonMapping { from: 3, to: Button::South.into(), output: AxisRange::Full },
            Token::AxisMapping {
                from: 4,
                to: Axis::LeftStickX.into(),
                input: AxisRange::UpperHalf,
                output: AxisRange::LowerHalf,
                inverted: true,
            },
            Token::AxisMapping {
                from: 5,
                to: Axis::LeftStickY.into(),
                input: AxisRange::LowerHalf,
                output: AxisRange::Full,
                inverted: false,
            },
            Token::AxisMapping {
                from: 6,
                to: Axis::RightStickY.into(),
                input: AxisRange::Full,
                output: AxisRange::Full,
                inverted: false,
            },
            Token::HatMapping { hat: 0, direction: 1, to: Button::DPadUp.into(), output: AxisRange::UpperHalf },
            Token::Platform("Linux"),
        ]
    );
}

#[test]
fn goes_on_after_a_bad_pair() {
    let line = format!("{U},T,,a:,a:b65536,q:a0,q:b0,a:b1,");
    let numbers: Vec<u8> = Parser::new(&line).map(|t| t.map_or_else(|e| e.number(), |_| 0)).collect();
    assert_eq!(numbers, [0, 0, 3, 8, 4, 5, 6, 0]);
}

#[test]
fn ends() {
    let line = format!("{U},T");
    let mut parser = Parser::new(&line);
    assert_eq!(parser.by_ref().count(), 2);
    assert_eq!(parser.next(), None);
    assert_eq!(parser.next_token(), Ok(None));
    assert_eq!(parser.next_token(), Ok(None));
    assert_eq!(Parser::new("").next(), None);
}

/// A loop over the iterator ends after 1, 2 and 10; each further step of document 01's walker is refused.
#[test]
fn stops_after_1_2_and_10() {
    let bad = [0xc3, 0xa9, 0xff];
    let cases: [(&[u8], Error, Error); 3] = [
        (b"q,T", Error::InvalidGuid { place: 0 }, Error::InvalidParserState { place: 0 }),
        (U.as_bytes(), Error::UnexpectedEnd { place: 0 }, Error::InvalidParserState { place: 0 }),
        (&bad, Error::NotUtf8 { place: 2 }, Error::NotUtf8 { place: 2 }),
    ];
    for (line, first, later) in cases {
        let mut parser = Parser::new(line);
        assert_eq!(parser.by_ref().collect::<Vec<_>>(), [Err(first)]);
        assert_eq!(parser.next(), None);
        for _ in 0..3 {
            assert_eq!(parser.next_token(), Err(later));
        }
        assert_eq!(parser.next(), None);

        let mut parser = Parser::new(line);
        assert_eq!(parser.next_token(), Err(first));
        assert_eq!(parser.next(), Some(Err(later)));
        assert_eq!(parser.next(), None);
    }
}

#[test]
fn first_tokens() {
    let first = |line: &str| Parser::new(line).next().map(|told| told.map(|token| token == Token::Uuid(Uuid::NIL)));
    assert_eq!(first("xinput,T"), Some(Ok(true)));
    assert_eq!(first(&format!("{U},")), Some(Ok(true)));
    assert_eq!(first(""), None);
}
