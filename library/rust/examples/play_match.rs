//! A tournament program: plays two engines against each other. Usage: play_match SIZE HALF_KOMI BLACK WHITE

use std::error::Error;
use std::io::{self, ErrorKind, Read, Write};
use std::process::{Child, Command, Stdio};
use vintsaky::{Action, Colour, Komi, Match, Setup};

/// A side: the command of its engine, and the running engine.
struct Side<'a>(&'a str, Option<Child>);

impl Side<'_> {
    fn start(&mut self) -> io::Result<()> {
        self.end();
        self.1 = Some(Command::new("sh").args(["-c", self.0]).stdin(Stdio::piped()).stdout(Stdio::piped()).spawn()?);
        Ok(())
    }

    fn write(&mut self, line: &str) -> io::Result<()> {
        let pipe = self.1.as_mut().and_then(|engine| engine.stdin.as_mut());
        pipe.ok_or(ErrorKind::BrokenPipe)?.write_all(line.as_bytes())
    }

    /// Reads the engine's output. Its end is an error.
    fn hear(&mut self, played: &mut Match, side: Colour) -> io::Result<()> {
        let mut buffer = [0; 4096];
        let pipe = self.1.as_mut().and_then(|engine| engine.stdout.as_mut());
        let count = pipe.ok_or(ErrorKind::BrokenPipe)?.read(&mut buffer)?;
        let _why_it_fails = played.hear(side, &buffer[..count]);
        (count > 0).then_some(()).ok_or(ErrorKind::UnexpectedEof.into())
    }

    fn end(&mut self) {
        let _may_be_gone = self.write("quit\n");
        if let Some(mut engine) = self.1.take() {
            drop(engine.stdin.take());
            let _last_words = engine.stdout.take().map(|pipe| io::copy(&mut pipe.take(8192), &mut io::sink()));
            let _status = engine.wait();
        }
    }
}

fn main() -> Result<(), Box<dyn Error>> {
    let words: Vec<String> = std::env::args().collect();
    let [_, size, half_komi, black, white] = &words[..] else { return Err("SIZE HALF_KOMI BLACK WHITE".into()) };
    let (size, komi) = (size.parse()?, Komi::new(half_komi.parse()?).ok_or("the komi is too big")?);
    let setup = Setup { size, komi, max_moves: 1000, max_restarts: 3, ..Setup::default() };
    let (mut played, mut sides) = (Match::with(setup)?, [Side(black, None), Side(white, None)]);
    loop {
        let (side, done) = match played.next_action() {
            Action::Over => break,
            Action::Start(side) => (side, played.started(side).map(|()| sides[side as usize].start())?),
            Action::Send(side) => (side, sides[side as usize].write(&played.send(side)?)),
            Action::Wait(side) => (side, sides[side as usize].hear(&mut played, side)),
        };
        done.unwrap_or_else(|_| played.lost(side));
    }
    sides.iter_mut().for_each(Side::end);
    println!("{}", played.result(1)?);
    Ok(())
}
