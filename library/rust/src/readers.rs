//! Readers of command lines and of replies.

use std::fmt;
use std::marker::PhantomData;

use gtp_wire::{CommandLine, Line, LineReader, Reply, ReplyFault, ReplyReader};

use crate::NotSync;
use crate::refusal::Refusal;

/// What came of bytes that were fed to a reader of command lines.
#[derive(Clone, Copy, Debug, PartialEq, Eq, Hash)]
pub enum LineEvent {
    /// All bytes were used, and no line ended: read more.
    More,
    /// A command line came: its id and its words can be read.
    Line,
    /// A line came whose words are too long: together, with a space between any two, they have more than 1,000 bytes.
    TooLong,
}

/// A reader of the command lines that a controller writes. It skips lines without a word, comments and control
/// characters.
///
/// ```
/// use vintsaky::{CommandLines, LineEvent};
///
/// let mut lines = CommandLines::new();
/// assert_eq!(lines.feed(b"# hello\n7 play b"), (LineEvent::More, 16));
/// assert_eq!(lines.feed(b" D4\nquit\n"), (LineEvent::Line, 4));
/// assert_eq!(lines.id(), Ok(7));
/// assert!(lines.words().eq([b"play".to_vec(), b"b".to_vec(), b"D4".to_vec()]));
/// ```
pub struct CommandLines {
    reader: Box<LineReader>,
    /// The line that was read last. Before the first it is one that is too long.
    last: Box<Line>,
    _not_sync: NotSync,
}

impl CommandLines {
    /// Returns a reader that has received nothing.
    pub fn new() -> Self {
        Self { reader: Box::default(), last: Box::new(Line::TooLong), _not_sync: PhantomData }
    }

    /// Takes the next chunk, up to and including the newline that ends a line with a word, or all of it. Returns what
    /// came of it, and how many bytes were used.
    pub fn feed(&mut self, bytes: &[u8]) -> (LineEvent, usize) {
        let read = self.reader.feed_into(bytes, &mut self.last);
        let came = match *self.last {
            _ if !read.found => LineEvent::More,
            Line::Command(_) => LineEvent::Line,
            Line::TooLong => LineEvent::TooLong,
        };
        (came, read.used)
    }

    /// The command line that was read last.
    fn line(&self) -> Result<&CommandLine, Refusal> {
        match &*self.last {
            Line::Command(line) => Ok(line),
            Line::TooLong => Err(Refusal::NoLine),
        }
    }

    /// Returns the id of the command line that was read last.
    ///
    /// # Errors
    ///
    /// [`Refusal::NoLine`], or else [`Refusal::NoId`].
    pub fn id(&self) -> Result<u32, Refusal> {
        self.line()?.id().ok_or(Refusal::NoId)
    }

    /// Returns a word of the command line that was read last, counted from 0 after the id.
    ///
    /// # Errors
    ///
    /// [`Refusal::NoLine`], or else [`Refusal::NoWord`].
    pub fn word(&self, number: usize) -> Result<Vec<u8>, Refusal> {
        self.line()?.word(number).map(<[u8]>::to_vec).ok_or(Refusal::NoWord)
    }

    /// Returns the words of the command line that was read last, after the id: none if no line was read.
    pub fn words(&self) -> impl Iterator<Item = Vec<u8>> + '_ {
        (0..).map_while(|number| self.word(number).ok())
    }
}

impl Default for CommandLines {
    fn default() -> Self {
        Self::new()
    }
}

impl fmt::Debug for CommandLines {
    fn fmt(&self, out: &mut fmt::Formatter<'_>) -> fmt::Result {
        out.debug_struct("CommandLines").finish_non_exhaustive()
    }
}

/// What came of bytes that were fed to a reader of replies.
#[derive(Clone, Copy, Debug, PartialEq, Eq, Hash)]
pub enum ReplyEvent {
    /// All bytes were used, and no reply ended: read more.
    More,
    /// A reply came: whether it is a success, its id and its text can be read.
    Reply,
    /// The bytes aren't a reply.
    NoReply,
    /// More than 8,192 bytes came since the last reply.
    TooLong,
}

/// A reader of the replies that an engine writes.
///
/// ```
/// use vintsaky::{Replies, ReplyEvent};
///
/// let mut replies = Replies::new();
/// assert_eq!(replies.feed(b"=3 D4\n"), (ReplyEvent::More, 6));
/// assert_eq!(replies.feed(b"\n= \n\n"), (ReplyEvent::Reply, 1));
/// assert!(replies.is_ok());
/// assert_eq!(replies.id(), Some(3));
/// assert_eq!(replies.text(), b"D4");
/// ```
pub struct Replies {
    reader: Box<ReplyReader>,
    /// The reply that was read last. Before the first it is a failure without id and text.
    last: Box<Reply>,
    _not_sync: NotSync,
}

impl Replies {
    /// Returns a reader that has received nothing.
    pub fn new() -> Self {
        Self { reader: Box::new(ReplyReader::new()), last: Box::default(), _not_sync: PhantomData }
    }

    /// Takes the next chunk, up to and including the byte that ends a reply or shows a fault, or all of it. Returns
    /// what came of it, and how many bytes were used.
    pub fn feed(&mut self, bytes: &[u8]) -> (ReplyEvent, usize) {
        let read = self.reader.feed_into(bytes, &mut self.last);
        let came = match read.got {
            None => ReplyEvent::More,
            Some(Ok(())) => ReplyEvent::Reply,
            Some(Err(ReplyFault::NoStatus)) => ReplyEvent::NoReply,
            Some(Err(ReplyFault::Overlong)) => ReplyEvent::TooLong,
        };
        (came, read.used)
    }

    /// Returns whether the reply that was read last is a success: false before the first.
    pub fn is_ok(&self) -> bool {
        self.last.ok
    }

    /// Returns the id of the reply that was read last, if it has one.
    pub fn id(&self) -> Option<u32> {
        self.last.id
    }

    /// Returns the text of the reply that was read last: empty before the first.
    pub fn text(&self) -> Vec<u8> {
        self.last.text.to_vec()
    }
}

impl Default for Replies {
    fn default() -> Self {
        Self::new()
    }
}

impl fmt::Debug for Replies {
    fn fmt(&self, out: &mut fmt::Formatter<'_>) -> fmt::Result {
        out.debug_struct("Replies").finish_non_exhaustive()
    }
}
