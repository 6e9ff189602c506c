//! Engines, readers and writers of the Go Text Protocol. What is expected is the protocol's own.

use std::io::{self, ErrorKind, Read, Write};

use vintsaky::{Choice, Colour, Game, KoRule, Player, ServeError, serve};
use vintsaky::{
    Command, CommandLines, Engine, Fed, Komi, LineEvent, Refusal, Replies, ReplyEvent, Vertex, Wait, reply,
};

/// Always makes this choice, and has a name and a command.
struct Fixed(Choice);

impl Player for Fixed {
    fn choose(&mut self, _game: &Game, _colour: Colour) -> Choice {
        self.0
    }

    fn name(&self) -> &str {
        "fixed"
    }

    fn version(&self) -> &str {
        "0.3"
    }

    fn commands(&self) -> &[&str] {
        &["fixed-say"]
    }

    fn command(&mut self, game: &Game, words: &[&str]) -> Option<Result<String, String>> {
        match words {
            ["fixed-say", word] => Some(Ok(word.to_string())),
            ["fixed-say"] => Some(Err(format!("{} moves", game.length()))),
            _ => None,
        }
    }
}

/// What a player writes to this input, and what came of the session.
fn served(player: &mut impl Player, input: &str) -> (String, Result<(), ServeError>) {
    let mut output = Vec::new();
    let done = serve(player, input.as_bytes(), &mut output);
    (String::from_utf8(output).expect("ASCII"), done)
}

#[test]
fn a_session() {
    let input = "protocol_version\n1 name\n2 version\nboardsize 9\n3 genmove w # now\nshowboard\n";
    let (output, done) = served(&mut Fixed(Choice::Resign), input);
    assert!(done.is_ok());
    assert!(output.starts_with("= 2\n\n=1 fixed\n\n=2 0.3\n\n=\n\n=3 resign\n\n= "), "{output}");
}

#[test]
fn own_commands() {
    let input = "known_command fixed-say\n7 fixed-say hello\nplay b A1\nfixed-say\nother\n8\nfixed-say \u{e9}\n";
    let mut written = Vec::new();
    let broken = serve(&mut Fixed(Choice::Resign), input.as_bytes(), &mut written);
    assert_eq!(written, b"= true\n\n=7 hello\n\n=\n\n? 1 moves\n\n? unknown command\n\n?8 unknown command\n\n");
    assert!(matches!(broken, Err(ServeError::Answer(text)) if text == "\u{e9}"));
}

#[test]
fn a_choice_that_is_not_lawful_breaks_off() {
    let occupied: Vertex = "A1".parse().expect("a vertex");
    let (output, done) = served(&mut Fixed(occupied.into()), "1 play b A1\n2 genmove w\n3 name\n");
    assert_eq!(output, "=1\n\n");
    let Err(ServeError::Choice { choice, colour, refusal }) = done else { panic!("{done:?}") };
    assert_eq!((choice, colour, refusal), (occupied.into(), Colour::White, Refusal::Occupied));
}

#[test]
fn a_closure_is_a_player() {
    let mut last = |game: &Game, colour: Colour| game.legal_points(colour).last().map_or(Choice::Resign, Choice::from);
    let (output, done) = served(&mut last, "boardsize 2\ngenmove b\ngenmove w\nquit\nname\n");
    assert!(done.is_ok());
    assert_eq!(output, "=\n\n= B2\n\n= A2\n\n=\n\n");
}

/// Chooses this, by this ko rule.
struct Ruled(KoRule, Choice);

impl Player for Ruled {
    fn choose(&mut self, _game: &Game, _colour: Colour) -> Choice {
        self.1
    }

    fn rule(&self) -> KoRule {
        self.0
    }
}

/// A conversation after which Black's stone on A2 takes White's, and makes the board of the second move again.
const REPEATED: &str = "boardsize 2\nplay b A1\nplay b A2\nplay w B1\nplay w B2\nplay b A1\n";

#[test]
fn the_ko_rule_is_that_of_the_player() {
    // Each new board of the session is by the same rule.
    let input = format!("{REPEATED}play b A2\n").repeat(2);
    for (rule, wanted) in [(KoRule::Simple, "=\n\n"), (KoRule::Positional, "? illegal move\n\n")] {
        let (output, done) = served(&mut Ruled(rule, Choice::Resign), &input);
        assert!(done.is_ok());
        assert_eq!(output, format!("{}{wanted}", "=\n\n".repeat(6)).repeat(2), "{rule:?}");
    }
}

#[test]
fn a_choice_is_judged_by_the_ko_rule_of_the_player() {
    let a2: Vertex = "A2".parse().expect("a vertex");
    let input = format!("{REPEATED}genmove b\n");
    let (output, done) = served(&mut Ruled(KoRule::Simple, a2.into()), &input);
    assert!(done.is_ok() && output.ends_with("=\n\n= A2\n\n"), "{output}");
    let (_, done) = served(&mut Ruled(KoRule::Positional, a2.into()), &input);
    assert!(matches!(done, Err(ServeError::Choice { refusal: Refusal::Ko, .. })), "{done:?}");
}

#[test]
fn a_player_that_names_no_ko_rule_has_simple_ko() {
    let mut last = |game: &Game, colour: Colour| game.legal_points(colour).last().map_or(Choice::Resign, Choice::from);
    assert_eq!((last.rule(), Fixed(Choice::Resign).rule()), (KoRule::Simple, KoRule::Simple));
    let (output, _) = served(&mut last, &format!("{REPEATED}genmove b\n"));
    assert!(output.ends_with("=\n\n= A2\n\n"), "{output}");
}

/// An input whose reads are interrupted, and that can't be read after its bytes.
struct Interrupted<'a>(&'a [u8], bool);

impl Read for Interrupted<'_> {
    fn read(&mut self, buffer: &mut [u8]) -> io::Result<usize> {
        self.1 = !self.1;
        match self.1 {
            true => Err(ErrorKind::Interrupted.into()),
            false if self.0.is_empty() => Err(io::Error::other("it was read after its end")),
            false => self.0.read(&mut buffer[..1]),
        }
    }
}

#[test]
fn a_quit_ends_the_session_though_the_input_is_open() {
    let mut output = Vec::new();
    serve(&mut Fixed(Choice::Resign), Interrupted(b"quit\n", false), &mut output).expect("no error");
    assert_eq!(output, b"=\n\n");
    let broken = serve(&mut Fixed(Choice::Resign), Interrupted(b"name\n", false), io::sink());
    assert!(matches!(broken, Err(ServeError::Io(why)) if why.to_string() == "it was read after its end"));
}

/// An output that is full.
struct Closed;

impl Write for Closed {
    fn write(&mut self, _bytes: &[u8]) -> io::Result<usize> {
        Err(ErrorKind::BrokenPipe.into())
    }

    fn flush(&mut self) -> io::Result<()> {
        Ok(())
    }
}

#[test]
fn an_output_that_is_closed() {
    let broken = serve(&mut Fixed(Choice::Resign), &b"name\n"[..], Closed);
    assert!(matches!(broken, Err(ServeError::Io(why)) if why.kind() == ErrorKind::BrokenPipe));
}

/// A player whose name and commands are these.
struct Named(&'static str, &'static [&'static str]);

impl Player for Named {
    fn choose(&mut self, _game: &Game, _colour: Colour) -> Choice {
        Choice::Resign
    }

    fn name(&self) -> &str {
        self.0
    }

    fn commands(&self) -> &[&str] {
        self.1
    }
}

#[test]
fn a_player_that_can_not_be_served() {
    let (output, done) = served(&mut Named("two\n\nparts", &[]), "name\n");
    assert!(matches!(done, Err(ServeError::Title(text)) if text == "two\n\nparts"));
    assert_eq!(output, "");
    for (name, cause) in
        [("play", Refusal::InTable), ("12", Refusal::OnlyDigits), ("a b", Refusal::BadByte), ("", Refusal::BadLength)]
    {
        let (_, done) = served(&mut Named("named", Box::leak(Box::new([name]))), "name\n");
        assert!(matches!(done, Err(ServeError::Command { refusal, .. }) if refusal == cause), "{name}");
    }
}

#[test]
fn an_engine_in_steps() {
    let mut engine = Engine::new();
    assert_eq!((engine.reply(), engine.wait(), engine.decline()), (String::new(), None, Err(Refusal::NotAsked)));
    assert_eq!(engine.feed(b""), (Fed::More, 0));
    assert_eq!(engine.feed(b"\n# only this\n5 genmove w\n6 name\n"), (Fed::Asked(Colour::White), 25));
    assert_eq!((engine.wait(), engine.id()), (Some(Wait::Choice(Colour::White)), Ok(5)));
    assert_eq!(engine.feed(b"6 name\n"), (Fed::Asked(Colour::White), 0));
    assert_eq!(engine.choose("Z25".parse::<Vertex>().expect("a vertex")), Err(Refusal::OffBoard));
    assert_eq!(engine.choose("T19".parse::<Vertex>().expect("a vertex")), Ok(()));
    assert_eq!((engine.reply().as_str(), engine.game().length()), ("=5 T19\n\n", 1));
    assert_eq!(engine.feed(b"time_left b 1 2\n"), (Fed::Other, 16));
    assert!(engine.words().eq(["time_left", "b", "1", "2"].map(|word| word.as_bytes().to_vec())));
    assert_eq!((engine.id(), engine.word(4)), (Err(Refusal::NoId), Err(Refusal::NoWord)));
    assert_eq!(engine.answer(Ok(" no")), Err(Refusal::BadText));
    assert_eq!(engine.answer(Err("no clock")), Ok(()));
    assert_eq!(engine.reply(), "? no clock\n\n");
    assert_eq!(engine.feed(b"quit\n"), (Fed::Reply, 5));
    assert_eq!((engine.is_ended(), engine.feed(b"name\n")), (true, (Fed::Ended, 0)));
}

#[test]
fn long_replies_are_whole() {
    let mut engine = Engine::new();
    engine.feed(b"other\n");
    let text = "x".repeat(2000);
    assert_eq!(engine.answer(Ok(&"x".repeat(2001))), Err(Refusal::BadText));
    assert_eq!(engine.answer(Ok(&text)), Ok(()));
    assert_eq!(engine.reply(), format!("= {text}\n\n"));
}

#[test]
fn command_lines() {
    let mut lines = CommandLines::new();
    assert_eq!((lines.id(), lines.word(0)), (Err(Refusal::NoLine), Err(Refusal::NoLine)));
    assert_eq!(lines.feed(b"\t \r\n play\tb  D4 # here\r\n"), (LineEvent::Line, 24));
    assert!(lines.words().eq(["play", "b", "D4"].map(|word| word.as_bytes().to_vec())));
    assert_eq!(lines.id(), Err(Refusal::NoId));
    for (length, wanted) in [(1000, LineEvent::Line), (1001, LineEvent::TooLong)] {
        let line = format!("{}\n", "x".repeat(length));
        assert_eq!(lines.feed(line.as_bytes()), (wanted, length + 1));
    }
}

#[test]
fn replies() {
    let mut replies = Replies::new();
    assert_eq!(replies.feed(b"?12 cannot\nundo\n\n="), (ReplyEvent::Reply, 17));
    assert_eq!((replies.is_ok(), replies.id(), replies.text()), (false, Some(12), b"cannot\nundo".to_vec()));
    assert_eq!(replies.feed(b"=\n\n"), (ReplyEvent::Reply, 3));
    assert_eq!((replies.is_ok(), replies.id(), replies.text()), (true, None, Vec::new()));
    assert_eq!(replies.feed(b"hello\n\n").0, ReplyEvent::NoReply);
}

#[test]
fn commands_that_are_written() {
    let komi = "6.5".parse::<Komi>().expect("a komi");
    let pass = Command::Play(Colour::White, Vertex::Pass);
    for (id, command, wanted) in [
        (Some(1), Command::Boardsize(25), "1 boardsize 25\n"),
        (None, Command::Komi(komi), "komi 6.5\n"),
        (Some(0), Command::ClearBoard, "0 clear_board\n"),
        (None, Command::FixedHandicap(2), "fixed_handicap 2\n"),
        (Some(2_147_483_647), pass, "2147483647 play w pass\n"),
        (None, Command::Genmove(Colour::Black), "genmove b\n"),
        (None, Command::Undo, "undo\n"),
        (Some(9), Command::Quit, "9 quit\n"),
    ] {
        assert_eq!(command.line(id).as_deref(), Ok(wanted));
    }
    assert_eq!(pass.line(Some(2_147_483_648)), Err(Refusal::BadId));
    for size in [0, 26, u32::MAX] {
        assert_eq!(Command::Boardsize(size).line(None), Err(Refusal::BadSize), "{size}");
    }
    assert_eq!(Command::FixedHandicap(u32::MAX).line(None), Err(Refusal::BadHandicap));
}

#[test]
fn replies_that_are_written() {
    for (id, answer, wanted) in [
        (None, Ok(""), "=\n\n"),
        (Some(3), Ok(""), "=3\n\n"),
        (Some(3), Err("illegal move"), "?3 illegal move\n\n"),
        (None, Ok("a\nb"), "= a\nb\n\n"),
    ] {
        assert_eq!(reply(id, answer).as_deref(), Ok(wanted));
    }
    assert_eq!(reply(Some(u32::MAX), Ok("")), Err(Refusal::BadId));
    for text in ["a\n\nb", " a", "a\n", "\t", "\u{e9}"] {
        assert_eq!(reply(None, Ok(text)), Err(Refusal::BadText), "{text:?}");
    }
}
