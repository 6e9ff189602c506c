//! A sans-IO engine of the protocol.

use std::fmt;
use std::marker::PhantomData;

use gtp_session::steps::{self, Event, Steps};
use gtp_wire::CommandLine;

use crate::NotSync;
use crate::game::Game;
use crate::refusal::Refusal;
use crate::texts;
use crate::values::{Choice, Colour, KoRule};

/// What came of bytes that were fed to an engine.
#[derive(Clone, Copy, Debug, PartialEq, Eq, Hash)]
pub enum Fed {
    /// All bytes were used, and no line ended: read more.
    More,
    /// A line was answered, also a `quit`: write the [reply](Engine::reply).
    Reply,
    /// The engine waits for a choice for this colour: supply it by [`Engine::choose`], then write the reply.
    Asked(Colour),
    /// A command that isn't in the protocol's table: answer or decline it, then write the reply.
    Other,
    /// A `quit` was answered before: stop.
    Ended,
}

impl Fed {
    fn of(event: Event) -> Self {
        match event {
            Event::More => Self::More,
            Event::Reply => Self::Reply,
            Event::Asked(colour) => Self::Asked(Colour::of(colour)),
            Event::Other => Self::Other,
            Event::Ended => Self::Ended,
        }
    }
}

/// What an engine waits for.
#[derive(Clone, Copy, Debug, PartialEq, Eq, Hash)]
pub enum Wait {
    /// A choice for this colour.
    Choice(Colour),
    /// An answer to a command that isn't in the protocol's table.
    Answer,
}

impl Wait {
    fn of(wait: steps::Wait) -> Option<Self> {
        match wait {
            steps::Wait::Nothing => None,
            steps::Wait::Choice(colour) => Some(Self::Choice(Colour::of(colour))),
            steps::Wait::Answer => Some(Self::Answer),
        }
    }
}

/// A sans-IO engine of the Go Text Protocol. Its caller passes it the bytes that arrived, supplies its moves and writes
/// its replies; the engine parses lines, keeps the game and makes the replies. [`serve`](crate::serve) does all of that
/// for a [`Player`](crate::Player).
///
/// ```
/// use vintsaky::{Choice, Colour, Engine, Fed, Refusal, Vertex};
///
/// let mut engine = Engine::new();
/// let input = b"1 play b D4\n2 genmove w\n";
/// let (came, used) = engine.feed(input);
/// assert_eq!((came, engine.reply().as_str()), (Fed::Reply, "=1\n\n"));
/// let (came, _) = engine.feed(&input[used..]);
/// assert_eq!(came, Fed::Asked(Colour::White));
/// engine.choose(Vertex::Pass)?;
/// assert_eq!(engine.reply(), "=2 pass\n\n");
/// # Ok::<(), Refusal>(())
/// ```
///
/// An engine may move to another thread:
///
/// ```
/// let engine = vintsaky::Engine::new();
/// assert_eq!(std::thread::spawn(move || engine.is_ended()).join().ok(), Some(false));
/// ```
pub struct Engine {
    inner: Box<Steps>,
    _not_sync: NotSync,
}

impl Engine {
    /// Returns an engine under simple ko that has received nothing.
    pub fn new() -> Self {
        Self { inner: Box::new(Steps::new(KoRule::Simple.inner())), _not_sync: PhantomData }
    }

    /// Resets the engine, under a ko rule.
    pub fn begin(&mut self, rule: KoRule) {
        *self.inner = Steps::new(rule.inner());
    }

    /// Returns whether the session has ended, by a `quit`.
    pub fn is_ended(&self) -> bool {
        self.inner.ended()
    }

    /// Takes the next chunk, up to the end of a line that needs an answer, or all of it. Returns what came of it, and
    /// how many bytes were used. While the engine waits for something, no bytes are used.
    pub fn feed(&mut self, bytes: &[u8]) -> (Fed, usize) {
        let fed = self.inner.feed(bytes);
        (Fed::of(fed.event), fed.used)
    }

    /// Returns what the engine waits for, if anything.
    pub fn wait(&self) -> Option<Wait> {
        Wait::of(self.inner.wait())
    }

    /// Supplies the choice that the engine waits for.
    ///
    /// # Errors
    ///
    /// [`Refusal::NotAsked`], or else [`Refusal::OffBoard`], [`Refusal::Occupied`], [`Refusal::Suicide`] or
    /// [`Refusal::Ko`]. The engine still waits for a choice if it did before.
    pub fn choose(&mut self, choice: impl Into<Choice>) -> Result<(), Refusal> {
        self.inner.choose(choice.into().inner()).map_err(Refusal::of_choice)
    }

    /// Answers a command that isn't in the protocol's table: by a success or a failure with this text.
    ///
    /// # Errors
    ///
    /// [`Refusal::NotAsked`], or else [`Refusal::BadText`] if the text isn't allowed in a reply: it has more than 2,000
    /// bytes, a byte that is neither a newline nor 32 to 126, an empty line, or a space or newline at its beginning or
    /// end.
    pub fn answer(&mut self, answer: Result<&str, &str>) -> Result<(), Refusal> {
        let (Ok(text) | Err(text)) = answer;
        self.inner.answer(answer.is_ok(), text.as_bytes()).map_err(Refusal::of_answer)
    }

    /// Answers a command that isn't in the protocol's table by a failure: `unknown command`.
    ///
    /// # Errors
    ///
    /// [`Refusal::NotAsked`].
    pub fn decline(&mut self) -> Result<(), Refusal> {
        self.inner.decline().map_err(Refusal::of_answer)
    }

    /// Sets the text that answers `name` from now on.
    ///
    /// # Errors
    ///
    /// [`Refusal::BadText`] if it has more than 200 bytes, or isn't allowed in a reply.
    pub fn set_name(&mut self, text: &str) -> Result<(), Refusal> {
        self.inner.set_name(text.as_bytes()).map_err(|_no_title| Refusal::BadText)
    }

    /// Sets the text that answers `version` from now on.
    ///
    /// # Errors
    ///
    /// Those of [`set_name`](Self::set_name).
    pub fn set_version(&mut self, text: &str) -> Result<(), Refusal> {
        self.inner.set_version(text.as_bytes()).map_err(|_no_title| Refusal::BadText)
    }

    /// Adds a custom command, which `known_command` and `list_commands` then report.
    ///
    /// # Errors
    ///
    /// [`Refusal::BadLength`], [`Refusal::BadByte`], [`Refusal::OnlyDigits`], [`Refusal::InTable`],
    /// [`Refusal::AddedBefore`] or [`Refusal::TooMany`], the first of these that applies.
    pub fn add_command(&mut self, name: &str) -> Result<(), Refusal> {
        self.inner.add_command(name.as_bytes()).map_err(Refusal::of_command)
    }

    /// Returns a copy of the engine's game.
    pub fn game(&self) -> Game {
        Game::copy_of(self.inner.game())
    }

    /// Copies the engine's game into an existing one.
    pub fn copy_game(&self, game: &mut Game) {
        game.copy(self.inner.game());
    }

    /// Returns the last reply, with its two newlines: empty before the first.
    pub fn reply(&self) -> String {
        texts::string_of(self.reply_bytes())
    }

    /// Returns a word of the line for which the engine waits for a choice or an answer, counted from 0 after the id.
    ///
    /// # Errors
    ///
    /// [`Refusal::NotAsked`] if the engine waits for nothing, or else [`Refusal::NoWord`].
    pub fn word(&self, number: usize) -> Result<Vec<u8>, Refusal> {
        self.line()?.word(number).map(<[u8]>::to_vec).ok_or(Refusal::NoWord)
    }

    /// Returns the words of the line for which the engine waits, after the id: none if it waits for nothing.
    pub fn words(&self) -> impl Iterator<Item = Vec<u8>> + '_ {
        (0..).map_while(|number| self.word(number).ok())
    }

    /// Returns the id of the line for which the engine waits for a choice or an answer.
    ///
    /// # Errors
    ///
    /// [`Refusal::NotAsked`] if the engine waits for nothing, or else [`Refusal::NoId`].
    pub fn id(&self) -> Result<u32, Refusal> {
        self.line()?.id().ok_or(Refusal::NoId)
    }

    /// The last reply as bytes.
    pub(crate) fn reply_bytes(&self) -> &[u8] {
        self.inner.reply()
    }

    /// The line for which the engine waits for a choice or an answer.
    fn line(&self) -> Result<&CommandLine, Refusal> {
        self.inner.line().ok_or(Refusal::NotAsked)
    }
}

impl Default for Engine {
    fn default() -> Self {
        Self::new()
    }
}

impl fmt::Debug for Engine {
    fn fmt(&self, out: &mut fmt::Formatter<'_>) -> fmt::Result {
        let mut shown = out.debug_struct("Engine");
        shown.field("wait", &self.wait()).field("is_ended", &self.is_ended()).finish_non_exhaustive()
    }
}
