//! The rules of Go, the controller of a match, and engines of the Go Text Protocol (GTP), over crates that are proved.
//!
//! - [`Game`] has the rules: moves, legality, undo, captures and the score.
//! - [`serve`] and [`Player`] make an engine from anything that chooses moves. [`Engine`] is a sans-IO engine.
//! - [`Match`] is the controller between two engines.
//! - [`CommandLines`] and [`Replies`] read the protocol's lines; [`Command`] and [`reply`] write them.
//!
//! An engine that plays the first legal point:
//!
//! ```no_run
//! use vintsaky::{Choice, Colour, Game, ServeError, Vertex};
//!
//! fn main() -> Result<(), ServeError> {
//!     let mut first = |game: &Game, colour: Colour| -> Choice {
//!         game.legal_points(colour).next().map_or(Vertex::Pass.into(), Choice::from)
//!     };
//!     vintsaky::serve(&mut first, std::io::stdin(), std::io::stdout())
//! }
//! ```
//!
//! No call panics, whatever its arguments. The types are `Send` and not `Sync`: an object may move to another thread,
//! and only one thread at a time has it.

#![deny(missing_docs)]
#![forbid(unsafe_code)]

use std::cell::Cell;
use std::marker::PhantomData;

mod engine;
mod game;
mod matches;
mod outcomes;
mod player;
mod readers;
mod refusal;
mod texts;
mod values;
mod writers;

pub use engine::{Engine, Fed, Wait};
pub use game::{Chain, Game};
pub use matches::{Match, Setup};
pub use outcomes::{Action, Loss, Owed, Report, Status, Verdict};
pub use player::{Player, ServeError, serve};
pub use readers::{CommandLines, LineEvent, Replies, ReplyEvent};
pub use refusal::Refusal;
pub use values::{Choice, Colour, KoRule, Komi, Move, Point, Score, Vertex};
pub use writers::{Command, reply};

/// The version of the library that this crate is made for, in the form in which [`version`] returns that of the library
/// it has.
pub const VERSION: u32 = 0x010000;

/// Returns the version of the library: 65536 times the first number, plus 256 times the second, plus the third.
pub fn version() -> u32 {
    vintsaky_calls::library::version()
}

/// Keeps a type from being `Sync`, and leaves it `Send`.
type NotSync = PhantomData<Cell<()>>;
