//! Values and their texts, as the protocol spells them.

use std::collections::HashSet;
use std::error::Error;

use vintsaky::{Choice, Colour, Komi, Point, Refusal, Vertex};

#[test]
fn the_library_is_that_of_the_crate() {
    assert_eq!(vintsaky::version(), vintsaky::VERSION);
}

#[test]
fn colours() {
    for (text, colour) in
        [("b", Colour::Black), ("BLACK", Colour::Black), ("W", Colour::White), ("White", Colour::White)]
    {
        assert_eq!(text.parse(), Ok(colour), "{text}");
    }
    for text in ["", "x", "bl", "b ", "schwarz", "b\0"] {
        assert_eq!(text.parse::<Colour>(), Err(Refusal::BadText), "{text:?}");
    }
    assert_eq!((Colour::Black.to_string(), Colour::White.to_string()), ("b".to_string(), "w".to_string()));
}

/// The columns are the letters without I, and the rows are numbers.
#[test]
fn points() {
    let letters = "ABCDEFGHJKLMNOPQRSTUVWXYZ";
    let mut before = None;
    for row in 1..=25 {
        for (column, letter) in (1..).zip(letters.chars()) {
            let point = Point::new(column, row).expect("a point");
            let text = format!("{letter}{row}");
            assert_eq!((point.column(), point.row(), point.to_string()), (column, row, text.clone()));
            assert_eq!(text.to_lowercase().parse(), Ok(point));
            assert!(Some(point) > before, "{point} comes after the point before it");
            before = Some(point);
        }
    }
    for (column, row) in [(0, 1), (1, 0), (26, 1), (1, 26), (257, 1), (1, 257), (u32::MAX, u32::MAX)] {
        assert_eq!(Point::new(column, row), None, "{column} {row}");
    }
}

#[test]
fn neighbours() {
    let of = |text: &str| {
        let point: Point = text.parse().expect("a point");
        point.neighbours().map(|near| near.to_string()).collect::<Vec<_>>().join(" ")
    };
    assert_eq!((of("C3"), of("A1"), of("Z25")), ("C2 B3 D3 C4".into(), "B1 A2".into(), "Z24 Y25".into()));
}

#[test]
fn vertices() {
    assert_eq!("PASS".parse(), Ok(Vertex::Pass));
    assert_eq!(Vertex::Pass.to_string(), "pass");
    assert_eq!("pass".parse::<Point>(), Err(Refusal::BadText));
    for text in ["", "A", "1", "I1", "A0", "A26", "A01", "AA1", "resign", "a1 ", "Ä1"] {
        assert_eq!(text.parse::<Vertex>(), Err(Refusal::BadText), "{text:?}");
    }
    let texts = [Choice::Resign, Vertex::Pass.into()].map(|choice: Choice| format!("{choice:>8}"));
    assert_eq!(texts, ["  resign", "    pass"]);
}

#[test]
fn komis() {
    for (text, half_points) in
        [("0", 0), ("6.5", 13), ("-0.5", -1), ("+7", 14), ("999999999.5", Komi::MOST_HALF_POINTS)]
    {
        assert_eq!(text.parse(), Ok(Komi::new(half_points).expect("a komi")), "{text}");
    }
    for text in ["", "6.7", "six", "1000000000", "0x1", "6.5 "] {
        assert_eq!(text.parse::<Komi>(), Err(Refusal::BadText), "{text:?}");
    }
    for (half_points, text) in
        [(0, "0"), (1, "0.5"), (-1, "-0.5"), (14, "7"), (-15, "-7.5"), (-1_999_999_999, "-999999999.5")]
    {
        assert_eq!(Komi::new(half_points).map(|komi| komi.to_string()).as_deref(), Some(text));
    }
    for half_points in [2_000_000_000, -2_000_000_000, i32::MIN, i32::MAX] {
        assert_eq!(Komi::new(half_points), None, "{half_points}");
    }
}

#[test]
fn refusals() {
    let refusals = [
        Refusal::BadSize,
        Refusal::BadKomi,
        Refusal::BadText,
        Refusal::Full,
        Refusal::OffBoard,
        Refusal::Occupied,
        Refusal::Suicide,
        Refusal::Ko,
        Refusal::Down,
        Refusal::Unknown(1000),
    ];
    let numbers: Vec<u32> = refusals.iter().map(|refusal| refusal.number()).collect();
    assert_eq!(numbers, [4, 5, 6, 8, 9, 10, 11, 12, 34, 1000]);
    let texts: HashSet<String> = refusals.iter().map(|refusal| refusal.to_string()).collect();
    assert_eq!(texts.len(), refusals.len());
    assert!(texts.iter().all(|text| !text.is_empty() && !text.contains('\n')));
    let error: Box<dyn Error> = Refusal::Ko.into();
    assert_eq!(error.to_string(), Refusal::Ko.to_string());
}
