//! Why a call is rejected.

use std::error::Error;
use std::fmt;

use go_board::{HandicapFault, PlayFault};
use gtp_match::SetupFault;
use gtp_match::referee::RulingFault;
use gtp_session::steps::{AnswerFault, ChoiceFault, CommandFault};
use vintsaky_calls::library::cause_text;

use crate::texts;

/// More bytes than the text of any error has.
const TEXT_ROOM: usize = 256;

/// Makes the enum of errors from one row for each: its name, its number, and its meaning.
macro_rules! causes {
    ($($name:ident = $number:literal $meaning:literal,)*) => {
        /// Why a call is rejected: its error. Its object is then unchanged.
        ///
        /// Its text is that of the library:
        ///
        /// ```
        /// use vintsaky::{Colour, Game, Refusal, Vertex};
        ///
        /// let mut game = Game::new();
        /// let d4: Vertex = "D4".parse()?;
        /// game.play(Colour::Black, d4)?;
        /// assert_eq!(game.play(Colour::White, d4), Err(Refusal::Occupied));
        /// assert!(!Refusal::Occupied.to_string().is_empty());
        /// # Ok::<(), Refusal>(())
        /// ```
        #[derive(Clone, Copy, Debug, PartialEq, Eq, Hash, PartialOrd, Ord)]
        #[non_exhaustive]
        pub enum Refusal {
            $(#[doc = $meaning] $name,)*
            /// An error of another release, by its number. No call of this crate returns it.
            Unknown(u32),
        }

        impl Refusal {
            /// Returns the number of the error, as in `vintsaky.h`.
            pub fn number(self) -> u32 {
                match self {
                    $(Self::$name => $number,)*
                    Self::Unknown(number) => number,
                }
            }
        }
    };
}

// The rows from which the macro makes the enum.
mod causes;

pub use causes::Refusal;

impl Refusal {
    /// Why a move is illegal.
    pub(crate) fn of_play(fault: PlayFault) -> Self {
        match fault {
            PlayFault::Full => Self::Full,
            PlayFault::OffBoard => Self::OffBoard,
            PlayFault::Occupied => Self::Occupied,
            PlayFault::Suicide => Self::Suicide,
            PlayFault::Ko => Self::Ko,
        }
    }

    /// Why handicap stones are rejected.
    pub(crate) fn of_handicap(fault: HandicapFault) -> Self {
        match fault {
            HandicapFault::NotEmpty => Self::NotEmpty,
            HandicapFault::BadNumber => Self::BadHandicap,
        }
    }

    /// Why a choice is rejected.
    pub(crate) fn of_choice(fault: ChoiceFault) -> Self {
        match fault {
            ChoiceFault::NotAsked => Self::NotAsked,
            ChoiceFault::Illegal(fault) => Self::of_play(fault),
        }
    }

    /// Why an answer is rejected.
    pub(crate) fn of_answer(fault: AnswerFault) -> Self {
        match fault {
            AnswerFault::NotAsked => Self::NotAsked,
            AnswerFault::BadText => Self::BadText,
        }
    }

    /// Why a custom command is rejected.
    pub(crate) fn of_command(fault: CommandFault) -> Self {
        match fault {
            CommandFault::BadLength => Self::BadLength,
            CommandFault::BadByte => Self::BadByte,
            CommandFault::OnlyDigits => Self::OnlyDigits,
            CommandFault::InTable => Self::InTable,
            CommandFault::AddedBefore => Self::AddedBefore,
            CommandFault::TooMany => Self::TooMany,
        }
    }

    /// Why a setup is rejected.
    pub(crate) fn of_setup(fault: SetupFault) -> Self {
        match fault {
            SetupFault::Handicap => Self::BadHandicap,
            SetupFault::MaxMoves => Self::BadMaxMoves,
            SetupFault::MaxRestarts => Self::BadMaxRestarts,
        }
    }

    /// Why a ruling is rejected.
    pub(crate) fn of_ruling(fault: RulingFault) -> Self {
        match fault {
            RulingFault::Over => Self::IsOver,
            RulingFault::BadReason => Self::BadReason,
        }
    }
}

impl fmt::Display for Refusal {
    fn fmt(&self, out: &mut fmt::Formatter<'_>) -> fmt::Result {
        let mut text = [0; TEXT_ROOM];
        let length = cause_text(self.number(), &mut text);
        texts::pad(out, text.get(..length).unwrap_or_default())
    }
}

impl Error for Refusal {}
