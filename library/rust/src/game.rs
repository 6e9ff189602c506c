//! A game of Go.

mod lists;
mod searching;

use std::fmt;
use std::marker::PhantomData;

use lists::listed;

use crate::NotSync;
use crate::refusal::Refusal;
use crate::texts;
use crate::values::{Colour, KoRule, Komi, Move, Point, Score, Vertex, checked_size};

/// The size of a game by default.
const FIRST_SIZE: u32 = 19;

/// A game of Go: its ko rule, its size, its komi, its board and the record of its moves. Either colour may move at any
/// time. All stones count as alive, and the score is by area.
///
/// Its text is the board:
///
/// ```
/// use vintsaky::{Colour, Game, Komi, KoRule, Refusal, Vertex};
///
/// let mut game = Game::with(KoRule::Simple, 3, Komi::default())?;
/// game.play(Colour::Black, "B2".parse::<Vertex>()?)?;
/// assert_eq!(game.to_string(), ". . . 3\n. X . 2\n. . . 1\nA B C\ncaptures B 0 W 0");
/// # Ok::<(), Refusal>(())
/// ```
///
/// A game may move to another thread:
///
/// ```
/// let game = vintsaky::Game::new();
/// assert_eq!(std::thread::spawn(move || game.size()).join().ok(), Some(19));
/// ```
///
/// But two threads can't share one:
///
/// ```compile_fail,E0277
/// let game = vintsaky::Game::new();
/// std::thread::scope(|scope| {
///     scope.spawn(|| game.size());
/// });
/// ```
pub struct Game {
    inner: Box<go_board::Game>,
    _not_sync: NotSync,
}

/// What a chain has.
#[derive(Clone, Copy, Debug, PartialEq, Eq, Hash)]
pub struct Chain {
    /// How many stones.
    pub stones: u32,
    /// How many liberties.
    pub liberties: u32,
}

impl Game {
    /// Returns a game of size 19, without komi, under simple ko.
    pub fn new() -> Self {
        Self::with(KoRule::Simple, FIRST_SIZE, Komi::default()).expect("19 is a size")
    }

    /// Returns a game with this ko rule, size and komi.
    ///
    /// # Errors
    ///
    /// [`Refusal::BadSize`] if the size isn't from 1 to 25.
    pub fn with(rule: KoRule, size: u32, komi: Komi) -> Result<Self, Refusal> {
        Ok(Self::of(go_board::Game::with_rule(checked_size(size)?, komi.inner(), rule.inner())))
    }

    /// Resets the game to an empty board, with this ko rule, size and komi.
    ///
    /// # Errors
    ///
    /// [`Refusal::BadSize`] if the size isn't from 1 to 25.
    pub fn begin(&mut self, rule: KoRule, size: u32, komi: Komi) -> Result<(), Refusal> {
        *self.inner = go_board::Game::with_rule(checked_size(size)?, komi.inner(), rule.inner());
        Ok(())
    }

    /// Plays a move.
    ///
    /// ```
    /// use vintsaky::{Colour, Game, Point, Refusal, Vertex};
    ///
    /// let mut game = Game::new();
    /// game.play(Colour::Black, Point::new(16, 4).unwrap())?;
    /// game.play(Colour::White, Vertex::Pass)?;
    /// assert_eq!(game.length(), 2);
    /// # Ok::<(), Refusal>(())
    /// ```
    ///
    /// # Errors
    ///
    /// [`Refusal::Full`], [`Refusal::OffBoard`], [`Refusal::Occupied`], [`Refusal::Suicide`] or [`Refusal::Ko`].
    pub fn play(&mut self, colour: Colour, vertex: impl Into<Vertex>) -> Result<(), Refusal> {
        self.inner.play(colour.inner(), vertex.into().inner()).map_err(Refusal::of_play)
    }

    /// Checks whether a colour may make a move next, even if the record is full.
    ///
    /// # Errors
    ///
    /// [`Refusal::OffBoard`], [`Refusal::Occupied`], [`Refusal::Suicide`] or [`Refusal::Ko`].
    pub fn legal(&self, colour: Colour, vertex: impl Into<Vertex>) -> Result<(), Refusal> {
        let fault = self.inner.refusal(colour.inner(), vertex.into().inner());
        fault.map_or(Ok(()), |fault| Err(Refusal::of_play(fault)))
    }

    /// Undoes the last move.
    ///
    /// # Errors
    ///
    /// [`Refusal::NothingToUndo`] if the record has no move.
    pub fn undo(&mut self) -> Result<(), Refusal> {
        self.inner.undo().map(|_last| ()).map_err(|_none| Refusal::NothingToUndo)
    }

    /// Sets the komi. The board and the record are unchanged.
    pub fn set_komi(&mut self, komi: Komi) {
        self.inner.set_komi(komi.inner());
    }

    /// Places handicap stones on their fixed points.
    ///
    /// # Errors
    ///
    /// [`Refusal::NotEmpty`], or else [`Refusal::BadHandicap`].
    pub fn place_handicap(&mut self, stones: u32) -> Result<(), Refusal> {
        self.inner.place_handicap(stones).map(|_points| ()).map_err(Refusal::of_handicap)
    }

    /// Returns the ko rule.
    pub fn rule(&self) -> KoRule {
        KoRule::of(self.inner.rule())
    }

    /// Returns the size of the board, 1 to 25.
    pub fn size(&self) -> u32 {
        self.inner.size().get()
    }

    /// Returns the komi.
    pub fn komi(&self) -> Komi {
        Komi::of(self.inner.komi())
    }

    /// Returns the number of handicap stones that were placed, or 0.
    pub fn handicap(&self) -> u32 {
        self.inner.handicap()
    }

    /// Returns the colour whose turn it is: the one that didn't make the last move. Before the first move it is Black,
    /// or White if handicap stones were placed.
    pub fn turn(&self) -> Colour {
        match self.inner.moves().last() {
            Some(last) => Colour::of(last.colour.other()),
            None if self.inner.handicap() == 0 => Colour::Black,
            None => Colour::White,
        }
    }

    /// Returns the number of moves in the record.
    pub fn length(&self) -> usize {
        self.inner.moves().len()
    }

    /// Returns the area score, after komi.
    pub fn score(&self) -> Score {
        Score::of(self.inner.score())
    }

    /// Returns whether the last two moves are passes.
    pub fn is_finished(&self) -> bool {
        self.inner.finished()
    }

    /// Returns a hash of the board and its size. Equal boards of one size have equal hashes. So different hashes show
    /// that board or size differ; equal hashes show nothing.
    pub fn board_hash(&self) -> u64 {
        self.inner.board_hash()
    }

    /// Returns how many stones a colour has captured.
    pub fn captured(&self, colour: Colour) -> u32 {
        self.inner.captured(colour.inner())
    }

    /// Returns the colour of the stone on a point, or `None` if it is empty.
    ///
    /// # Errors
    ///
    /// [`Refusal::OffBoard`].
    pub fn stone_at(&self, point: Point) -> Result<Option<Colour>, Refusal> {
        Ok(self.inner.at(self.on_board(point)?).map(Colour::of))
    }

    /// Returns the chain of the stone on a point.
    ///
    /// # Errors
    ///
    /// [`Refusal::OffBoard`], or else [`Refusal::NoStone`].
    pub fn chain(&self, point: Point) -> Result<Chain, Refusal> {
        let chain = self.inner.chain(self.on_board(point)?).ok_or(Refusal::NoStone)?;
        Ok(Chain { stones: chain.stones, liberties: chain.liberties })
    }

    /// Returns the points where a colour may play next in the current game, row by row from A1, even if the record is
    /// full.
    ///
    /// ```
    /// use vintsaky::{Colour, Game, Komi, KoRule, Refusal};
    ///
    /// let mut game = Game::with(KoRule::Simple, 2, Komi::default())?;
    /// for point in game.legal_points(Colour::Black).take(3) {
    ///     game.play(Colour::Black, point)?;
    /// }
    /// // Black's last point would be suicide, and White captures all by it.
    /// assert_eq!(game.legal_points(Colour::Black).count(), 0);
    /// assert_eq!(game.legal_points(Colour::White).next(), Some("B2".parse()?));
    /// # Ok::<(), Refusal>(())
    /// ```
    pub fn legal_points(&self, colour: Colour) -> impl ExactSizeIterator<Item = Point> + DoubleEndedIterator + use<> {
        listed(Point::of, |points| self.inner.legal_points_into(colour.inner(), points))
    }

    /// Returns the points whose stones the last move captured, row by row from A1.
    pub fn taken_by_last_move(&self) -> impl ExactSizeIterator<Item = Point> + DoubleEndedIterator + use<> {
        listed(Point::of, |points| self.inner.taken_by_last_move_into(points))
    }

    /// Returns a move of the record, counted from 0, or `None` if the record has no such move.
    pub fn made(&self, number: usize) -> Option<Move> {
        self.inner.moves().get(number).copied().map(Move::of)
    }

    /// Returns the moves of the record, in order.
    ///
    /// ```
    /// use vintsaky::{Colour, Game, Refusal, Vertex};
    ///
    /// let mut game = Game::new();
    /// game.play(Colour::Black, "C3".parse::<Vertex>()?)?;
    /// game.play(Colour::White, Vertex::Pass)?;
    /// let texts: Vec<String> = game.moves().map(|made| made.to_string()).collect();
    /// assert_eq!(texts, ["b C3", "w pass"]);
    /// # Ok::<(), Refusal>(())
    /// ```
    pub fn moves(&self) -> impl DoubleEndedIterator<Item = Move> + '_ {
        self.inner.moves().iter().copied().map(Move::of)
    }

    /// The point, if it is on the board.
    fn on_board(&self, point: Point) -> Result<go_base::Point, Refusal> {
        let point = point.inner();
        point.on(self.inner.size()).then_some(point).ok_or(Refusal::OffBoard)
    }

    fn of(game: go_board::Game) -> Self {
        Self { inner: Box::new(game), _not_sync: PhantomData }
    }

    /// Becomes a copy of a game, and allocates no memory.
    pub(crate) fn copy(&mut self, game: &go_board::Game) {
        self.inner.copy_from(game);
    }

    /// A copy of a game.
    pub(crate) fn copy_of(game: &go_board::Game) -> Self {
        Self::of(game.copied())
    }
}

impl Default for Game {
    fn default() -> Self {
        Self::new()
    }
}

impl Clone for Game {
    fn clone(&self) -> Self {
        Self::copy_of(&self.inner)
    }

    /// Becomes a copy of another game, and allocates no memory.
    fn clone_from(&mut self, other: &Self) {
        self.copy(&other.inner);
    }
}

impl fmt::Display for Game {
    fn fmt(&self, out: &mut fmt::Formatter<'_>) -> fmt::Result {
        out.write_str(&texts::string_of(&self.inner.show()))
    }
}

impl fmt::Debug for Game {
    fn fmt(&self, out: &mut fmt::Formatter<'_>) -> fmt::Result {
        let mut shown = out.debug_struct("Game");
        shown.field("rule", &self.rule()).field("size", &self.size()).field("komi", &self.komi());
        shown.field("handicap", &self.handicap()).field("moves", &self.moves().collect::<Vec<_>>()).finish()
    }
}
