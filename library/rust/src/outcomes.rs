//! What a match reports: what is next, why a side fails, and how it ended.

use std::fmt;

use go_board::PlayFault;
use gtp_match::referee::{Ruled, Ruling};
use gtp_match::{ForfeitCause, LossCause, SideFault};
use gtp_wire::write_command;

use crate::texts;
use crate::values::{Colour, Score};

/// What to do next in a match.
#[derive(Clone, Copy, Debug, PartialEq, Eq, Hash)]
pub enum Action {
    /// Start this side's engine, and report that by [`Match::started`](crate::Match::started).
    Start(Colour),
    /// Send this side the command that [`Match::send`](crate::Match::send) returns.
    Send(Colour),
    /// Wait for this side's output, and pass it to [`Match::hear`](crate::Match::hear).
    Wait(Colour),
    /// Nothing: the match is over.
    Over,
}

impl Action {
    pub(crate) fn of(action: gtp_match::Action) -> Self {
        match action {
            gtp_match::Action::Start(side) => Self::Start(Colour::of(side)),
            gtp_match::Action::Send(side) => Self::Send(Colour::of(side)),
            gtp_match::Action::Wait(side) => Self::Wait(Colour::of(side)),
            gtp_match::Action::Done(_verdict) => Self::Over,
        }
    }
}

/// Why a side fails by its output.
#[derive(Clone, Copy, Debug, PartialEq, Eq, Hash)]
#[non_exhaustive]
pub enum Loss {
    /// What it wrote isn't a reply: it begins with neither `=` nor `?`. It goes down.
    NoStatus,
    /// More than 8,192 bytes came since its last reply. It goes down.
    Overlong,
    /// The reply doesn't have the id of the oldest unanswered command. It goes down.
    WrongId,
    /// A reply came when no command was unanswered. It goes down.
    Unasked,
    /// It failed at a setup command, or placed other handicap stones. It is unfit.
    Unfit,
    /// It refused a play that isn't retaken. It forfeits.
    RefusesPlay,
    /// It didn't undo its move, which the other side refused. The other side forfeits.
    KeepsMove,
    /// It failed at a genmove. It forfeits.
    NoMove,
    /// Its answer to a genmove is neither a vertex nor a resignation. It forfeits.
    NoVertex,
    /// The record is full, so that its move can't be added. It forfeits.
    Full,
    /// Its move is off the board. It forfeits.
    OffBoard,
    /// Its move is on a stone. It forfeits.
    Occupied,
    /// Its move is suicide. It forfeits.
    Suicide,
    /// Its move is forbidden by the ko rule. It forfeits.
    Ko,
    /// A loss of another release, by its number. No call of this crate returns it.
    Unknown(u32),
}

impl Loss {
    pub(crate) fn of(loss: &gtp_match::Loss) -> Self {
        match loss.cause {
            LossCause::Shows(fault) => Self::of_side(fault),
            LossCause::Unfit => Self::Unfit,
            LossCause::RefusesPlay => Self::RefusesPlay,
            LossCause::KeepsMove => Self::KeepsMove,
            LossCause::NoMove => Self::NoMove,
            LossCause::NoVertex => Self::NoVertex,
            LossCause::Illegal(fault) => Self::of_play(fault),
        }
    }

    fn of_side(fault: SideFault) -> Self {
        match fault {
            SideFault::NoStatus => Self::NoStatus,
            SideFault::Overlong => Self::Overlong,
            SideFault::WrongId => Self::WrongId,
            SideFault::Unasked => Self::Unasked,
        }
    }

    fn of_play(fault: PlayFault) -> Self {
        match fault {
            PlayFault::Full => Self::Full,
            PlayFault::OffBoard => Self::OffBoard,
            PlayFault::Occupied => Self::Occupied,
            PlayFault::Suicide => Self::Suicide,
            PlayFault::Ko => Self::Ko,
        }
    }
}

impl fmt::Display for Loss {
    fn fmt(&self, out: &mut fmt::Formatter<'_>) -> fmt::Result {
        out.pad(match self {
            Self::NoStatus => "not a GTP reply: it begins with neither = nor ?",
            Self::Overlong => "more than 8,192 bytes without a reply",
            Self::WrongId => "the reply hasn't the id of the oldest unanswered command",
            Self::Unasked => "a reply came where no command is unanswered",
            Self::Unfit => "it can't be brought to the record",
            Self::RefusesPlay => "the play was refused",
            Self::KeepsMove => "it didn't take back its refused move",
            Self::NoMove => "it failed at the genmove",
            Self::NoVertex => "the answer is neither a vertex nor a resignation",
            Self::Full => "the record has no room for the move",
            Self::OffBoard => "the move is off the board",
            Self::Occupied => "the move is on a stone",
            Self::Suicide => "the move is suicide",
            Self::Ko => "the move is ko",
            Self::Unknown(number) => return write!(out, "a loss of the number {number}"),
        })
    }
}

/// What a side owes.
#[derive(Clone, Debug, Default, PartialEq, Eq, Hash)]
pub struct Owed {
    /// How many commands it hasn't answered.
    pub unanswered: u32,
    /// The oldest of these, as it was sent: empty if there is none.
    pub command: String,
    /// The first 80 bytes that it wrote since its last whole reply.
    pub wrote: Vec<u8>,
}

impl Owed {
    pub(crate) fn of(owed: &gtp_match::Owed) -> Self {
        let mut command = owed.oldest.map(|sent| write_command(Some(sent.id), &sent.command)).unwrap_or_default();
        let _newline = command.pop();
        Self { unanswered: owed.unanswered, command: texts::string_of(&command), wrote: owed.bytes.to_vec() }
    }
}

/// What is reported of a side's output.
#[derive(Clone, Debug, Default, PartialEq, Eq, Hash)]
pub struct Report {
    /// Why the side fails by it, if it does.
    pub loss: Option<Loss>,
    /// If the side refused a play that is retaken: the number of this retake at its move number, 1 to 3.
    pub retake: Option<u32>,
    /// What the side owed, if there is a loss or a retake.
    pub owed: Option<Owed>,
}

impl Report {
    pub(crate) fn of(report: &gtp_match::Report) -> Self {
        let (loss, retake) = (report.loss.as_ref(), report.retake.as_ref());
        let owed = loss.map(|loss| &loss.owed).or(retake.map(|retake| &retake.owed));
        Self { loss: loss.map(Loss::of), retake: retake.map(|retake| retake.count), owed: owed.map(Owed::of) }
    }
}

/// How far a side is.
#[derive(Clone, Copy, Debug, PartialEq, Eq, Hash)]
pub struct Status {
    /// How many commands of its script it has confirmed: of the setup commands, and a play for each move of the record.
    pub confirmed: u32,
    /// How many commands it hasn't answered.
    pub unanswered: u32,
    /// Whether a genmove is among the unanswered commands.
    pub asked: bool,
}

impl Status {
    /// How far a side is, if it is up.
    pub(crate) fn of(status: gtp_match::Status) -> Option<Self> {
        match status {
            gtp_match::Status::Down => None,
            gtp_match::Status::Up { confirmed, unanswered, asked } => Some(Self { confirmed, unanswered, asked }),
        }
    }
}

/// How a match ended.
#[derive(Clone, Copy, Debug, PartialEq, Eq, Hash)]
pub enum Verdict {
    /// Two passes ended the game, with this score.
    Score(Score),
    /// This side resigned.
    Resignation(Colour),
    /// The record has as many moves as the match allows.
    Limit,
    /// This side refused a play that isn't retaken, or that the other side didn't undo: it forfeits.
    RefusedPlay(Colour),
    /// This side failed at a genmove: it forfeits.
    NoMove(Colour),
    /// This side answered a genmove by what is neither a vertex nor a resignation: it forfeits.
    NoVertex(Colour),
    /// This side answered a genmove by an illegal move: it forfeits.
    IllegalMove(Colour),
    /// This side failed at a setup command, or placed other handicap stones: it is unfit.
    Unfit(Colour),
    /// This side went down too often.
    Abandoned(Colour),
    /// This side lost on time, by a ruling.
    Time(Colour),
    /// This side lost by a ruling, whose reason [`Match::reason`](crate::Match::reason) returns.
    Ruling(Colour),
}

impl Verdict {
    pub(crate) fn of(verdict: gtp_match::Verdict) -> Self {
        match verdict {
            gtp_match::Verdict::Score(half_points) => Self::Score(Score::of(half_points)),
            gtp_match::Verdict::Resign(side) => Self::Resignation(Colour::of(side)),
            gtp_match::Verdict::Limit => Self::Limit,
            gtp_match::Verdict::Forfeit(side, cause) => Self::of_forfeit(Colour::of(side), cause),
            gtp_match::Verdict::Unfit(side) => Self::Unfit(Colour::of(side)),
            gtp_match::Verdict::Abandoned(side) => Self::Abandoned(Colour::of(side)),
        }
    }

    pub(crate) fn of_ruling(ruled: &Ruled) -> Self {
        match ruled.ruling {
            Ruling::Time => Self::Time(Colour::of(ruled.loser)),
            Ruling::Reason(_) => Self::Ruling(Colour::of(ruled.loser)),
        }
    }

    fn of_forfeit(side: Colour, cause: ForfeitCause) -> Self {
        match cause {
            ForfeitCause::RefusedPlay => Self::RefusedPlay(side),
            ForfeitCause::NoMove => Self::NoMove(side),
            ForfeitCause::NoVertex => Self::NoVertex(side),
            ForfeitCause::IllegalMove => Self::IllegalMove(side),
        }
    }

    /// Returns the winner, if there is one.
    pub fn winner(self) -> Option<Colour> {
        match self {
            Self::Score(score) => score.leader(),
            Self::Resignation(side) | Self::RefusedPlay(side) | Self::NoMove(side) => Some(side.other()),
            Self::NoVertex(side) | Self::IllegalMove(side) => Some(side.other()),
            Self::Time(side) | Self::Ruling(side) => Some(side.other()),
            Self::Limit | Self::Unfit(_) | Self::Abandoned(_) => None,
        }
    }
}
