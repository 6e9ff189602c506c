//! The controller of a match.

use std::fmt;
use std::marker::PhantomData;

use gtp_match::record_line;
use gtp_match::referee::{RefereedMatch, result_line};

use crate::NotSync;
use crate::game::Game;
use crate::outcomes::{Action, Loss, Owed, Report, Status, Verdict};
use crate::refusal::Refusal;
use crate::texts;
use crate::values::{Colour, Komi, checked_size};

/// The settings of a match.
#[derive(Clone, Copy, Debug, PartialEq, Eq, Hash)]
pub struct Setup {
    /// The size of the board, from 1 to 25.
    pub size: u32,
    /// The komi.
    pub komi: Komi,
    /// The number of handicap stones, or 0.
    pub handicap: u32,
    /// The move limit, from 1 to 2,000.
    pub max_moves: u32,
    /// The restart limit of each side, from 0 to 1,000.
    pub max_restarts: u32,
}

impl Setup {
    fn inner(self) -> Result<gtp_match::Setup, Refusal> {
        let Self { size, komi, handicap, max_moves, max_restarts } = self;
        gtp_match::Setup::new(checked_size(size)?, komi.inner(), handicap, max_moves, max_restarts)
            .map_err(Refusal::of_setup)
    }
}

impl Default for Setup {
    /// Size 19, no komi, no handicap, at most 2,000 moves, and no restart.
    fn default() -> Self {
        Self { size: 19, komi: Komi::default(), handicap: 0, max_moves: 2000, max_restarts: 0 }
    }
}

/// The controller of a match between two engines. It starts no process and reads nothing: it says what to do next, and
/// you report what came of it.
///
/// ```
/// use vintsaky::{Action, Colour, Match, Refusal};
///
/// let mut held = Match::new();
/// assert_eq!(held.next_action(), Action::Start(Colour::Black));
/// held.started(Colour::Black)?;
/// while held.next_action() == Action::Send(Colour::Black) {
///     let line = held.send(Colour::Black)?;
///     assert!(line.ends_with('\n'));
/// }
/// // Black can't be reached, and may not be restarted.
/// held.lost(Colour::Black);
/// assert_eq!(held.next_action(), Action::Over);
/// assert_eq!(held.result(1)?, "game 1: abandoned black moves 0 restarts 0 0");
/// # Ok::<(), Refusal>(())
/// ```
///
/// A match may move to another thread:
///
/// ```
/// let held = vintsaky::Match::new();
/// let next = std::thread::spawn(move || held.next_action()).join().ok();
/// assert_eq!(next, Some(vintsaky::Action::Start(vintsaky::Colour::Black)));
/// ```
pub struct Match {
    inner: Box<RefereedMatch>,
    _not_sync: NotSync,
}

impl Match {
    /// Returns a match with the default [`Setup`], whose engines aren't started yet.
    pub fn new() -> Self {
        Self::with(Setup::default()).expect("the default setup is one")
    }

    /// Returns a match with this setup, whose engines aren't started yet.
    ///
    /// # Errors
    ///
    /// Those of [`begin`](Self::begin).
    pub fn with(setup: Setup) -> Result<Self, Refusal> {
        let inner = Box::new(RefereedMatch::new(setup.inner()?));
        Ok(Self { inner, _not_sync: PhantomData })
    }

    /// Begins a match again, between two engines that aren't started yet.
    ///
    /// # Errors
    ///
    /// [`Refusal::BadSize`], [`Refusal::BadHandicap`], [`Refusal::BadMaxMoves`] or [`Refusal::BadMaxRestarts`], the
    /// first of these that applies.
    pub fn begin(&mut self, setup: Setup) -> Result<(), Refusal> {
        *self.inner = RefereedMatch::new(setup.inner()?);
        Ok(())
    }

    /// Returns what to do next. Call it before each step. After a ruling the match is over.
    pub fn next_action(&self) -> Action {
        self.inner.next().map_or(Action::Over, Action::of)
    }

    /// Whether this is what is next.
    fn is_next(&self, action: Action) -> Result<(), Refusal> {
        (self.next_action() == action).then_some(()).ok_or(Refusal::NotNext)
    }

    /// Reports that a side's engine was started. If it couldn't be started, call this all the same, and then
    /// [`lost`](Self::lost).
    ///
    /// # Errors
    ///
    /// [`Refusal::NotNext`] if its start isn't what is next.
    pub fn started(&mut self, side: Colour) -> Result<(), Refusal> {
        self.is_next(Action::Start(side))?;
        self.inner.started(side.inner());
        Ok(())
    }

    /// Returns the next command for a side, with its newline. It counts as sent.
    ///
    /// # Errors
    ///
    /// [`Refusal::NotNext`] if a command for this side isn't what is next.
    pub fn send(&mut self, side: Colour) -> Result<String, Refusal> {
        self.is_next(Action::Send(side))?;
        Ok(texts::string_of(&self.inner.send(side.inner())))
    }

    /// Takes a side's output, in any chunks. Returns why the side fails by it, if it does. Once the match is over, also
    /// by a ruling, output is ignored.
    pub fn hear(&mut self, side: Colour, bytes: &[u8]) -> Option<Loss> {
        self.inner.hear_reporting(side.inner(), bytes).loss.as_ref().map(Loss::of)
    }

    /// Takes a side's output as [`hear`](Self::hear) does, and reports more about it.
    pub fn hear_reporting(&mut self, side: Colour, bytes: &[u8]) -> Report {
        Report::of(&self.inner.hear_reporting(side.inner(), bytes))
    }

    /// Returns what a side owes.
    ///
    /// # Errors
    ///
    /// [`Refusal::Down`].
    pub fn owed(&self, side: Colour) -> Result<Owed, Refusal> {
        self.inner.owed(side.inner()).as_ref().map(Owed::of).ok_or(Refusal::Down)
    }

    /// Returns how far a side is. It doesn't matter whether the match is over.
    ///
    /// # Errors
    ///
    /// [`Refusal::Down`] if the side was not started or went down.
    pub fn status(&self, side: Colour) -> Result<Status, Refusal> {
        Status::of(self.inner.played().status(side.inner())).ok_or(Refusal::Down)
    }

    /// Reports that a side is gone: it can't be started, written to or read any more. After a ruling nothing changes.
    pub fn lost(&mut self, side: Colour) {
        self.inner.lost(side.inner());
    }

    /// Returns whether a side is in step: it is up, owes no answer, and has confirmed its whole script, as [`Status`]
    /// counts it.
    pub fn is_in_step(&self, side: Colour) -> bool {
        self.inner.played().in_step(side.inner())
    }

    /// Returns how often a side was restarted.
    pub fn restarts(&self, side: Colour) -> u32 {
        self.inner.played().restarts(side.inner())
    }

    /// Returns how often the move of this number, counted from 1, was retaken because it was refused: at most 3.
    pub fn retakes(&self, number: u32) -> u32 {
        self.inner.played().retakes(number)
    }

    /// Returns the side whose last move is to be undone because the other side refused it, if any.
    pub fn taking_back(&self) -> Option<Colour> {
        self.inner.played().taking_back().map(Colour::of)
    }

    /// Returns how the match ended.
    ///
    /// # Errors
    ///
    /// [`Refusal::NotOver`].
    pub fn verdict(&self) -> Result<Verdict, Refusal> {
        let ruled = self.inner.ruled().as_ref().map(Verdict::of_ruling);
        ruled.or(self.inner.verdict().map(Verdict::of)).ok_or(Refusal::NotOver)
    }

    /// Ends a match that isn't over: the side loses. An empty reason means that it loses on time. Otherwise the reason
    /// has 1 to 20 letters and spaces, and is none of `refused play`, `no move`, `no vertex` and `illegal move`. After
    /// that only [`begin`](Self::begin) changes the match.
    ///
    /// ```
    /// use vintsaky::{Colour, Match, Refusal, Verdict};
    ///
    /// let mut held = Match::new();
    /// held.adjudicate(Colour::Black, "")?;
    /// assert_eq!(held.verdict()?, Verdict::Time(Colour::Black));
    /// assert_eq!(held.result(1)?, "game 1: W+T moves 0 restarts 0 0");
    /// # Ok::<(), Refusal>(())
    /// ```
    ///
    /// # Errors
    ///
    /// [`Refusal::IsOver`], or else [`Refusal::BadReason`].
    pub fn adjudicate(&mut self, side: Colour, reason: &str) -> Result<(), Refusal> {
        self.inner.adjudicate(side.inner(), reason.as_bytes()).map_err(Refusal::of_ruling)
    }

    /// Returns the reason of the ruling that ended the match: empty if the side lost on time, or if there is no ruling.
    pub fn reason(&self) -> String {
        texts::string_of(self.inner.reason())
    }
    /// Returns a copy of the match's game.
    pub fn game(&self) -> Game {
        Game::copy_of(self.inner.played().game())
    }

    /// Copies the match's game into an existing one.
    pub fn copy_game(&self, game: &mut Game) {
        game.copy(self.inner.played().game());
    }

    /// Returns the result line of a match that is over, as `twogtp` prints it for the game with this number. If Black
    /// loses by a ruling, the verdict is `W+T`, or `W+F(REASON)` if there is a reason.
    ///
    /// # Errors
    ///
    /// [`Refusal::NotOver`].
    pub fn result(&self, number: u32) -> Result<String, Refusal> {
        result_line(number, &self.inner).map(|line| texts::string_of(&line)).ok_or(Refusal::NotOver)
    }

    /// Returns the moves of the match: their vertices, separated by single spaces.
    pub fn record(&self) -> String {
        texts::string_of(&record_line(self.inner.played()))
    }
}

impl Default for Match {
    fn default() -> Self {
        Self::new()
    }
}

impl fmt::Debug for Match {
    fn fmt(&self, out: &mut fmt::Formatter<'_>) -> fmt::Result {
        let mut shown = out.debug_struct("Match");
        shown.field("next_action", &self.next_action()).field("record", &self.record()).finish_non_exhaustive()
    }
}
