//! Colours, points, vertices, komis and moves. Each is made by `of` from the value of its name in the proved crates,
//! which `inner` returns.

use std::cmp::Ordering;
use std::fmt;
use std::hash::{Hash, Hasher};
use std::str::FromStr;

use go_base::{Size, write_score};

use crate::refusal::Refusal;
use crate::texts;

/// A colour of stones, and the side that plays them.
///
/// Its text is that of the protocol:
///
/// ```
/// use vintsaky::Colour;
///
/// assert_eq!("White".parse(), Ok(Colour::White));
/// assert_eq!(Colour::Black.to_string(), "b");
/// assert_eq!(Colour::Black.other(), Colour::White);
/// ```
#[derive(Clone, Copy, Debug, PartialEq, Eq, Hash, PartialOrd, Ord)]
pub enum Colour {
    /// Black, who moves first if there is no handicap.
    Black,
    /// White.
    White,
}

impl Colour {
    /// Returns the other colour.
    pub fn other(self) -> Self {
        match self {
            Self::Black => Self::White,
            Self::White => Self::Black,
        }
    }

    pub(crate) fn of(colour: go_base::Colour) -> Self {
        match colour {
            go_base::Colour::Black => Self::Black,
            go_base::Colour::White => Self::White,
        }
    }

    pub(crate) fn inner(self) -> go_base::Colour {
        match self {
            Self::Black => go_base::Colour::Black,
            Self::White => go_base::Colour::White,
        }
    }
}

impl fmt::Display for Colour {
    fn fmt(&self, out: &mut fmt::Formatter<'_>) -> fmt::Result {
        texts::pad(out, &[self.inner().write()])
    }
}

impl FromStr for Colour {
    type Err = Refusal;

    /// Reads `b`, `w`, `black` or `white`, in upper or lower case or a mix of both.
    fn from_str(text: &str) -> Result<Self, Refusal> {
        go_base::Colour::read(text.as_bytes()).map(Self::of).ok_or(Refusal::BadText)
    }
}

/// A point: a column and a row, both from 1 to 25, counted from the lower left corner. Points are ordered row by row.
///
/// ```
/// use vintsaky::Point;
///
/// let d16 = Point::new(4, 16).unwrap();
/// assert_eq!(d16.to_string(), "D16");
/// assert_eq!("d16".parse(), Ok(d16));
/// assert_eq!(Point::new(4, 26), None);
/// ```
#[derive(Clone, Copy, PartialEq, Eq)]
pub struct Point(go_base::Point);

impl Point {
    /// Returns the point at a column and a row, or `None` if one of them isn't from 1 to 25.
    #[inline]
    pub fn new(column: u32, row: u32) -> Option<Self> {
        go_base::Point::new(column, row).map(Self)
    }

    /// Returns the column, 1 to 25.
    pub fn column(self) -> u32 {
        self.0.column()
    }

    /// Returns the row, 1 to 25.
    pub fn row(self) -> u32 {
        self.0.row()
    }

    /// Returns the neighbours of this point: below, to the left, to the right and above, as far as they are on a board
    /// of size 25.
    pub fn neighbours(self) -> impl Iterator<Item = Self> {
        let (column, row) = (self.column(), self.row());
        let places = [(column, row - 1), (column - 1, row), (column + 1, row), (column, row + 1)];
        places.into_iter().filter_map(|(column, row)| Self::new(column, row))
    }

    pub(crate) fn of(point: go_base::Point) -> Self {
        Self(point)
    }

    pub(crate) fn inner(self) -> go_base::Point {
        self.0
    }

    /// What points are ordered by.
    fn key(self) -> (u32, u32) {
        (self.row(), self.column())
    }
}

impl Ord for Point {
    fn cmp(&self, other: &Self) -> Ordering {
        self.key().cmp(&other.key())
    }
}

impl PartialOrd for Point {
    fn partial_cmp(&self, other: &Self) -> Option<Ordering> {
        Some(self.cmp(other))
    }
}

impl Hash for Point {
    fn hash<H: Hasher>(&self, state: &mut H) {
        self.key().hash(state);
    }
}

impl fmt::Debug for Point {
    fn fmt(&self, out: &mut fmt::Formatter<'_>) -> fmt::Result {
        out.debug_struct("Point").field("row", &self.row()).field("column", &self.column()).finish()
    }
}

impl fmt::Display for Point {
    fn fmt(&self, out: &mut fmt::Formatter<'_>) -> fmt::Result {
        Vertex::At(*self).fmt(out)
    }
}

impl FromStr for Point {
    type Err = Refusal;

    /// Reads a point as the protocol spells it: a letter other than I, in upper or lower case, and a row number.
    fn from_str(text: &str) -> Result<Self, Refusal> {
        match text.parse()? {
            Vertex::At(point) => Ok(point),
            Vertex::Pass => Err(Refusal::BadText),
        }
    }
}

/// A vertex: a pass, or a point.
///
/// ```
/// use vintsaky::{Point, Vertex};
///
/// assert_eq!("pass".parse(), Ok(Vertex::Pass));
/// assert_eq!("J1".parse(), Ok(Vertex::At(Point::new(9, 1).unwrap())));
/// assert!("I1".parse::<Vertex>().is_err());
/// ```
#[derive(Clone, Copy, Debug, PartialEq, Eq, Hash, PartialOrd, Ord)]
pub enum Vertex {
    /// A pass.
    Pass,
    /// A point.
    At(Point),
}

impl Vertex {
    pub(crate) fn of(vertex: go_base::Vertex) -> Self {
        match vertex {
            go_base::Vertex::Pass => Self::Pass,
            go_base::Vertex::At(point) => Self::At(Point::of(point)),
        }
    }

    pub(crate) fn inner(self) -> go_base::Vertex {
        match self {
            Self::Pass => go_base::Vertex::Pass,
            Self::At(point) => go_base::Vertex::At(point.inner()),
        }
    }
}

impl From<Point> for Vertex {
    fn from(point: Point) -> Self {
        Self::At(point)
    }
}

impl fmt::Display for Vertex {
    fn fmt(&self, out: &mut fmt::Formatter<'_>) -> fmt::Result {
        texts::pad(out, &self.inner().write())
    }
}

impl FromStr for Vertex {
    type Err = Refusal;

    /// Reads a vertex as the protocol spells it, in upper or lower case.
    fn from_str(text: &str) -> Result<Self, Refusal> {
        go_base::Vertex::read(text.as_bytes()).map(Self::of).ok_or(Refusal::BadText)
    }
}

/// What an engine chooses: a move, or to resign.
#[derive(Clone, Copy, Debug, PartialEq, Eq, Hash, PartialOrd, Ord)]
pub enum Choice {
    /// A move to this vertex.
    Play(Vertex),
    /// A resignation.
    Resign,
}

impl Choice {
    pub(crate) fn inner(self) -> go_base::Choice {
        match self {
            Self::Play(vertex) => go_base::Choice::Play(vertex.inner()),
            Self::Resign => go_base::Choice::Resign,
        }
    }
}

impl<V: Into<Vertex>> From<V> for Choice {
    fn from(vertex: V) -> Self {
        Self::Play(vertex.into())
    }
}

impl fmt::Display for Choice {
    fn fmt(&self, out: &mut fmt::Formatter<'_>) -> fmt::Result {
        match self {
            Self::Play(vertex) => vertex.fmt(out),
            Self::Resign => out.pad("resign"),
        }
    }
}

/// A komi, in half points: positive if White gets it.
///
/// ```
/// use vintsaky::Komi;
///
/// let komi: Komi = "6.5".parse()?;
/// assert_eq!(komi.half_points(), 13);
/// assert_eq!(Komi::new(15).unwrap().to_string(), "7.5");
/// assert_eq!(Komi::new(2_000_000_000), None);
/// # Ok::<(), vintsaky::Refusal>(())
/// ```
#[derive(Clone, Copy, Debug, Default, PartialEq, Eq, Hash, PartialOrd, Ord)]
pub struct Komi(i32);

impl Komi {
    /// The most half points of a komi, positive or negative.
    pub const MOST_HALF_POINTS: i32 = 1_999_999_999;

    /// Returns the komi of this many half points, or `None` if there are too many.
    pub fn new(half_points: i32) -> Option<Self> {
        (-Self::MOST_HALF_POINTS..=Self::MOST_HALF_POINTS).contains(&half_points).then_some(Self(half_points))
    }

    /// The half points.
    pub fn half_points(self) -> i32 {
        self.0
    }

    pub(crate) fn of(komi: go_base::Komi) -> Self {
        Self(komi.half_points())
    }

    pub(crate) fn inner(self) -> go_base::Komi {
        go_base::Komi::from_half_points(self.0).expect("a komi is made within its limits")
    }
}

impl fmt::Display for Komi {
    fn fmt(&self, out: &mut fmt::Formatter<'_>) -> fmt::Result {
        texts::pad(out, &self.inner().write())
    }
}

impl FromStr for Komi {
    type Err = Refusal;

    /// Reads a komi in points, as the protocol spells it.
    fn from_str(text: &str) -> Result<Self, Refusal> {
        go_base::Komi::read(text.as_bytes()).map(Self::of).ok_or(Refusal::BadText)
    }
}

/// The boards that a play must not bring back.
#[derive(Clone, Copy, Debug, Default, PartialEq, Eq, Hash, PartialOrd, Ord)]
pub enum KoRule {
    /// Simple ko: the board before the last move.
    #[default]
    Simple,
    /// Positional superko: any earlier board of the game.
    Positional,
}

impl KoRule {
    pub(crate) fn of(rule: go_board::KoRule) -> Self {
        match rule {
            go_board::KoRule::Simple => Self::Simple,
            go_board::KoRule::Positional => Self::Positional,
        }
    }

    pub(crate) fn inner(self) -> go_board::KoRule {
        match self {
            Self::Simple => go_board::KoRule::Simple,
            Self::Positional => go_board::KoRule::Positional,
        }
    }
}

/// A move: its colour and its vertex.
#[derive(Clone, Copy, Debug, PartialEq, Eq, Hash, PartialOrd, Ord)]
pub struct Move {
    /// The colour that made it.
    pub colour: Colour,
    /// The vertex.
    pub vertex: Vertex,
}

impl Move {
    pub(crate) fn of(made: go_base::Move) -> Self {
        Self { colour: Colour::of(made.colour), vertex: Vertex::of(made.vertex) }
    }

    pub(crate) fn inner(self) -> go_base::Move {
        go_base::Move { colour: self.colour.inner(), vertex: self.vertex.inner() }
    }
}

impl fmt::Display for Move {
    fn fmt(&self, out: &mut fmt::Formatter<'_>) -> fmt::Result {
        write!(out, "{} {}", self.colour, self.vertex)
    }
}

/// A score: by how much a colour leads. Its text is that of the protocol's `final_score`.
///
/// ```
/// use vintsaky::{Colour, Game, Komi, KoRule};
///
/// let game = Game::with(KoRule::Simple, 9, "7.5".parse()?)?;
/// assert_eq!(game.score().to_string(), "W+7.5");
/// assert_eq!(game.score().leader(), Some(Colour::White));
/// # Ok::<(), vintsaky::Refusal>(())
/// ```
#[derive(Clone, Copy, Debug, PartialEq, Eq, Hash, PartialOrd, Ord)]
pub struct Score(i32);

impl Score {
    /// The score of these half points, positive if Black leads.
    pub(crate) fn of(half_points: i32) -> Self {
        Self(half_points)
    }

    /// Returns the half points, positive if Black leads.
    pub fn half_points(self) -> i32 {
        self.0
    }

    /// Returns the colour that leads, or `None` if neither does.
    pub fn leader(self) -> Option<Colour> {
        match self.0 {
            0 => None,
            1.. => Some(Colour::Black),
            _ => Some(Colour::White),
        }
    }
}

impl fmt::Display for Score {
    fn fmt(&self, out: &mut fmt::Formatter<'_>) -> fmt::Result {
        texts::pad(out, &write_score(self.0))
    }
}

/// The size of a board, if it is from 1 to 25.
pub(crate) fn checked_size(size: u32) -> Result<Size, Refusal> {
    Size::new(size).ok_or(Refusal::BadSize)
}
