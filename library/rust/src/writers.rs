//! Writing commands and replies.

use gtp_wire::{is_reply_text, write_command, write_reply};

use crate::refusal::Refusal;
use crate::texts;
use crate::values::{Colour, Komi, Move, Vertex, checked_size};

/// The largest int of the protocol.
const MOST_INT: u32 = 2_147_483_647;

/// A command that a controller sends.
///
/// ```
/// use vintsaky::{Colour, Command, Refusal};
///
/// let command = Command::Play(Colour::Black, "D4".parse()?);
/// assert_eq!(command.line(Some(8))?, "8 play b D4\n");
/// assert_eq!(Command::Quit.line(None)?, "quit\n");
/// # Ok::<(), Refusal>(())
/// ```
#[derive(Clone, Copy, Debug, PartialEq, Eq, Hash)]
#[non_exhaustive]
pub enum Command {
    /// `boardsize`, with a size.
    Boardsize(u32),
    /// `komi`.
    Komi(Komi),
    /// `clear_board`.
    ClearBoard,
    /// `fixed_handicap`, with a number of stones.
    FixedHandicap(u32),
    /// `play`.
    Play(Colour, Vertex),
    /// `genmove`.
    Genmove(Colour),
    /// `undo`.
    Undo,
    /// `quit`.
    Quit,
}

impl Command {
    /// Returns the line of the command, with its newline.
    ///
    /// # Errors
    ///
    /// [`Refusal::BadId`] if the id is more than 2,147,483,647; or else [`Refusal::BadSize`] if the size isn't from 1
    /// to 25, or [`Refusal::BadHandicap`] if the number of stones is more than 2,147,483,647.
    pub fn line(self, id: Option<u32>) -> Result<String, Refusal> {
        let id = checked_id(id)?;
        Ok(texts::string_of(&write_command(id, &self.inner()?)))
    }

    fn inner(self) -> Result<gtp_wire::Command, Refusal> {
        Ok(match self {
            Self::Boardsize(size) => gtp_wire::Command::Boardsize(checked_size(size)?),
            Self::Komi(komi) => gtp_wire::Command::Komi(komi.inner()),
            Self::ClearBoard => gtp_wire::Command::ClearBoard,
            Self::FixedHandicap(stones) if stones > MOST_INT => return Err(Refusal::BadHandicap),
            Self::FixedHandicap(stones) => gtp_wire::Command::FixedHandicap(stones),
            Self::Play(colour, vertex) => gtp_wire::Command::Play(Move { colour, vertex }.inner()),
            Self::Genmove(colour) => gtp_wire::Command::Genmove(colour.inner()),
            Self::Undo => gtp_wire::Command::Undo,
            Self::Quit => gtp_wire::Command::Quit,
        })
    }
}

/// Returns a reply with its two newlines: a success or a failure with this text.
///
/// ```
/// assert_eq!(vintsaky::reply(Some(2), Ok("D4")), Ok("=2 D4\n\n".to_string()));
/// assert_eq!(vintsaky::reply(None, Err("cannot undo")), Ok("? cannot undo\n\n".to_string()));
/// ```
///
/// # Errors
///
/// [`Refusal::BadId`] if the id is more than 2,147,483,647; or else [`Refusal::BadText`] if the text isn't allowed in a
/// reply, as [`Engine::answer`](crate::Engine::answer) explains.
pub fn reply(id: Option<u32>, answer: Result<&str, &str>) -> Result<String, Refusal> {
    let id = checked_id(id)?;
    let (Ok(text) | Err(text)) = answer;
    if !is_reply_text(text.as_bytes()) {
        return Err(Refusal::BadText);
    }
    Ok(texts::string_of(&write_reply(answer.is_ok(), id, text.as_bytes())))
}

/// The id, if it is an int of the protocol or none.
fn checked_id(id: Option<u32>) -> Result<Option<u32>, Refusal> {
    if id.is_some_and(|id| id > MOST_INT) { Err(Refusal::BadId) } else { Ok(id) }
}
