//! Players, and the sessions that serve them.

use std::error::Error;
use std::fmt;
use std::io::{self, ErrorKind, Read, Write};

use crate::engine::{Engine, Fed};
use crate::game::Game;
use crate::refusal::Refusal;
use crate::values::{Choice, Colour, KoRule};

/// How many bytes of the input are read at a time.
const PIECE: usize = 4096;

/// An engine's author writes one of these: what it chooses, and its name, version and custom commands. A closure that
/// chooses is a player too, under simple ko.
///
/// ```
/// use vintsaky::{Choice, Colour, Game, Player, Vertex};
///
/// struct Passes;
///
/// impl Player for Passes {
///     fn choose(&mut self, _game: &Game, _colour: Colour) -> Choice {
///         Vertex::Pass.into()
///     }
///
///     fn name(&self) -> &str {
///         "passes"
///     }
///
///     fn commands(&self) -> &[&str] {
///         &["passes-mood"]
///     }
///
///     fn command(&mut self, _game: &Game, words: &[&str]) -> Option<Result<String, String>> {
///         match words {
///             ["passes-mood", "set", mood] => Some(Err(format!("no mood {mood}"))),
///             ["passes-mood", ..] => Some(Ok("calm".to_string())),
///             _ => None,
///         }
///     }
/// }
///
/// let mut written = Vec::new();
/// vintsaky::serve(&mut Passes, &b"1 name\n2 genmove b\n3 passes-mood\nquit\n"[..], &mut written)?;
/// assert_eq!(written, b"=1 passes\n\n=2 pass\n\n=3 calm\n\n=\n\n");
/// # Ok::<(), vintsaky::ServeError>(())
/// ```
pub trait Player {
    /// Chooses for a colour. The game is a copy of the session's game.
    fn choose(&mut self, game: &Game, colour: Colour) -> Choice;

    /// Returns the name of the engine, at most 200 bytes.
    fn name(&self) -> &str {
        "stepgo"
    }

    /// Returns the version of the engine, at most 200 bytes.
    fn version(&self) -> &str {
        "1.0"
    }

    /// Returns the names of the custom commands that [`command`](Self::command) answers, at most 32. `known_command`
    /// and `list_commands` report them.
    fn commands(&self) -> &[&str] {
        &[]
    }

    /// Returns the ko rule of the session's game: simple ko by default. `serve` asks for it before it reads anything.
    ///
    /// ```
    /// use vintsaky::{Choice, Colour, Game, KoRule, Player};
    ///
    /// struct Last;
    ///
    /// impl Player for Last {
    ///     fn choose(&mut self, game: &Game, colour: Colour) -> Choice {
    ///         game.legal_points(colour).last().map_or(Choice::Resign, Choice::from)
    ///     }
    ///
    ///     fn rule(&self) -> KoRule {
    ///         KoRule::Positional
    ///     }
    /// }
    ///
    /// // Black's stone on A2 would capture White's, and make the board of the second move again.
    /// let input = "boardsize 2\nplay b A1\nplay b A2\nplay w B1\nplay w B2\nplay b A1\n7 genmove b\n";
    /// let mut written = Vec::new();
    /// vintsaky::serve(&mut Last, input.as_bytes(), &mut written)?;
    /// assert!(written.ends_with(b"\n\n=7 resign\n\n"));
    /// # Ok::<(), vintsaky::ServeError>(())
    /// ```
    fn rule(&self) -> KoRule {
        KoRule::default()
    }

    /// Answers a command that isn't in the protocol's table, by a success or a failure with a text. `None` declines the
    /// command: then the reply is the failure `unknown command`. The words are those after the id, the command's name
    /// first; there may be none. Bytes that aren't UTF-8 become U+FFFD.
    fn command(&mut self, _game: &Game, _words: &[&str]) -> Option<Result<String, String>> {
        None
    }
}

impl<F: FnMut(&Game, Colour) -> Choice> Player for F {
    fn choose(&mut self, game: &Game, colour: Colour) -> Choice {
        self(game, colour)
    }
}

/// Why a session broke off: its error.
#[derive(Debug)]
#[non_exhaustive]
pub enum ServeError {
    /// The input can't be read, or the output can't be written.
    Io(io::Error),
    /// The player's choice isn't allowed. The command has no reply.
    Choice {
        /// What it chose.
        choice: Choice,
        /// The colour that it chose for.
        colour: Colour,
        /// Why it is rejected.
        refusal: Refusal,
    },
    /// The text of the player's answer isn't allowed in a reply. The command has no reply.
    Answer(String),
    /// The player's name or version isn't allowed in a reply. Nothing was read.
    Title(String),
    /// A custom command of the player can't be added. Nothing was read.
    Command {
        /// Its name.
        name: String,
        /// Why it is rejected.
        refusal: Refusal,
    },
}

impl fmt::Display for ServeError {
    fn fmt(&self, out: &mut fmt::Formatter<'_>) -> fmt::Result {
        match self {
            Self::Io(_) => write!(out, "reading the input or writing the output failed"),
            Self::Choice { choice, colour, .. } => write!(out, "the choice {choice} for {colour} isn't lawful"),
            Self::Answer(text) => write!(out, "no reply may have the text {text:?}"),
            Self::Title(text) => write!(out, "no engine may have the name or version {text:?}"),
            Self::Command { name, .. } => write!(out, "the command {name:?} can't be added"),
        }
    }
}

impl Error for ServeError {
    fn source(&self) -> Option<&(dyn Error + 'static)> {
        match self {
            Self::Io(why) => Some(why),
            Self::Choice { refusal, .. } | Self::Command { refusal, .. } => Some(refusal),
            Self::Answer(_) | Self::Title(_) => Some(&Refusal::BadText),
        }
    }
}

impl From<io::Error> for ServeError {
    fn from(why: io::Error) -> Self {
        Self::Io(why)
    }
}

/// Reads commands from the input and writes the replies to the output, until it has answered a `quit` or the input
/// ends. Each reply is flushed.
///
/// ```no_run
/// use std::io::{stdin, stdout};
/// use vintsaky::{Choice, Colour, Game};
///
/// let mut last = |game: &Game, colour: Colour| match game.legal_points(colour).next_back() {
///     Some(point) => Choice::from(point),
///     None => Choice::Resign,
/// };
/// vintsaky::serve(&mut last, stdin().lock(), stdout().lock())?;
/// # Ok::<(), vintsaky::ServeError>(())
/// ```
///
/// # Errors
///
/// A [`ServeError`], which says why the session broke off. The command at which it breaks off has no reply.
pub fn serve<P>(player: &mut P, mut input: impl Read, mut output: impl Write) -> Result<(), ServeError>
where
    P: Player + ?Sized,
{
    let mut engine = engine_of(player)?;
    let mut game = engine.game();
    let mut buffer = [0; PIECE];
    while !engine.is_ended() {
        let mut rest = match input.read(&mut buffer) {
            Ok(0) => break,
            Ok(count) => buffer.get(..count).unwrap_or_default(),
            Err(why) if why.kind() == ErrorKind::Interrupted => continue,
            Err(why) => return Err(why.into()),
        };
        while !rest.is_empty() && !engine.is_ended() {
            let (came, used) = engine.feed(rest);
            rest = rest.get(used..).unwrap_or_default();
            if came != Fed::More {
                answer(player, &mut engine, &mut game, came)?;
                output.write_all(engine.reply_bytes())?;
                output.flush()?;
            }
        }
    }
    Ok(())
}

/// An engine with the player's ko rule, name, version and custom commands.
fn engine_of<P: Player + ?Sized>(player: &P) -> Result<Engine, ServeError> {
    let mut engine = Engine::new();
    engine.begin(player.rule());
    engine.set_name(player.name()).map_err(|_| ServeError::Title(player.name().to_string()))?;
    engine.set_version(player.version()).map_err(|_| ServeError::Title(player.version().to_string()))?;
    for name in player.commands() {
        engine.add_command(name).map_err(|refusal| ServeError::Command { name: name.to_string(), refusal })?;
    }
    Ok(engine)
}

/// Supplies what the player chooses or answers, if the engine waits for that. The player gets a copy of the game.
fn answer<P>(player: &mut P, engine: &mut Engine, game: &mut Game, came: Fed) -> Result<(), ServeError>
where
    P: Player + ?Sized,
{
    match came {
        Fed::Asked(colour) => {
            engine.copy_game(game);
            let choice = player.choose(game, colour);
            engine.choose(choice).map_err(|refusal| ServeError::Choice { choice, colour, refusal })
        }
        Fed::Other => {
            engine.copy_game(game);
            let words: Vec<String> = engine.words().map(|word| String::from_utf8_lossy(&word).into_owned()).collect();
            let words: Vec<&str> = words.iter().map(String::as_str).collect();
            let said = player.command(game, &words);
            let done = match &said {
                None => engine.decline(),
                Some(Ok(text)) => engine.answer(Ok(text)),
                Some(Err(text)) => engine.answer(Err(text)),
            };
            done.map_err(|_| ServeError::Answer(said.map_or_else(String::new, |said| said.unwrap_or_else(|text| text))))
        }
        Fed::More | Fed::Reply | Fed::Ended => Ok(()),
    }
}
