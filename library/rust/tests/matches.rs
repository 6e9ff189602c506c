//! The controller of a match. What is expected is what the pages of the controller say.

use vintsaky::{Action, Colour, Loss, Match, Refusal, Report, Setup, Verdict};

use Colour::{Black, White};

/// A match on this size, whose komi is none.
fn match_on(size: u32, handicap: u32, max_restarts: u32) -> Match {
    Match::with(Setup { size, handicap, max_restarts, ..Setup::default() }).expect("a setup")
}

/// Starts and sends what is next until a side is waited for, and returns it with the commands that it was sent.
fn sent(held: &mut Match) -> (Option<Colour>, String) {
    let mut lines = String::new();
    loop {
        match held.next_action() {
            Action::Start(side) => held.started(side).expect("its start is next"),
            Action::Send(side) => lines += &held.send(side).expect("a command is next"),
            Action::Wait(side) => return (Some(side), lines),
            Action::Over => return (None, lines),
        }
    }
}

/// Answers all that is sent by a success, but a genmove, and returns the side that has it.
fn genmove(held: &mut Match) -> (Colour, String) {
    loop {
        let (side, lines) = sent(held);
        let side = side.expect("the match goes on");
        assert_ne!(lines, "", "{side} was sent all, and has not answered it");
        if lines.contains("genmove") {
            return (side, lines.split(' ').next().unwrap_or_default().to_string());
        }
        for line in lines.lines() {
            let id = line.split(' ').next().unwrap_or_default();
            assert_eq!(held.hear(side, format!("={id}\n\n").as_bytes()), None, "{line}");
        }
    }
}

/// Both sides choose these vertices in turn.
fn choose(held: &mut Match, vertices: &str) {
    for text in vertices.split(' ') {
        let (side, id) = genmove(held);
        assert_eq!(held.hear(side, format!("={id} {text}\n\n").as_bytes()), None, "{text}");
    }
}

#[test]
fn setups() {
    let right = Setup::default();
    for (setup, refusal) in [
        (Setup { size: 0, ..right }, Refusal::BadSize),
        (Setup { size: 26, ..right }, Refusal::BadSize),
        (Setup { handicap: 1, ..right }, Refusal::BadHandicap),
        (Setup { handicap: 10, ..right }, Refusal::BadHandicap),
        (Setup { max_moves: 0, ..right }, Refusal::BadMaxMoves),
        (Setup { max_moves: 2001, ..right }, Refusal::BadMaxMoves),
        (Setup { max_restarts: 1001, ..right }, Refusal::BadMaxRestarts),
    ] {
        assert_eq!(Match::with(setup).err(), Some(refusal), "{setup:?}");
    }
}

#[test]
fn the_script_and_a_game_by_two_passes() {
    let mut held =
        Match::with(Setup { size: 9, komi: "6.5".parse().expect("a komi"), ..Setup::default() }).expect("a setup");
    assert_eq!(held.next_action(), Action::Start(Black));
    assert_eq!((held.started(White), held.send(Black)), (Err(Refusal::NotNext), Err(Refusal::NotNext)));
    assert_eq!((held.verdict(), held.result(1)), (Err(Refusal::NotOver), Err(Refusal::NotOver)));
    assert_eq!(sent(&mut held), (Some(Black), "1 boardsize 9\n2 komi 6.5\n3 clear_board\n".to_string()));
    assert_eq!(held.hear(Black, b"=1\n\n=2\n\n=3\n\n"), None);
    choose(&mut held, "pass PASS");
    assert_eq!(held.next_action(), Action::Over);
    let Ok(Verdict::Score(score)) = held.verdict() else { panic!("{:?}", held.verdict()) };
    assert_eq!((score.half_points(), Verdict::Score(score).winner()), (-13, Some(White)));
    assert_eq!(held.result(7).as_deref(), Ok("game 7: W+6.5 moves 2 restarts 0 0"));
    assert_eq!((held.record().as_str(), held.game().length()), ("pass pass", 2));
}

#[test]
fn after_a_handicap_white_moves_first() {
    let mut held = match_on(9, 2, 0);
    let (side, lines) = sent(&mut held);
    assert_eq!((side, lines.lines().last()), (Some(Black), Some("4 fixed_handicap 2")));
    held.hear(Black, b"=1\n\n=2\n\n=3\n\n");
    // The points of two stones on 9x9 come in any order. One of them twice is another handicap.
    assert_eq!(held.hear(Black, b"=4 G7 C3\n\n"), None);
    assert_eq!(sent(&mut held).0, Some(White));
    held.hear(White, b"=1\n\n=2\n\n=3\n\n");
    assert_eq!(held.hear(White, b"=4 C3 C3\n\n"), Some(Loss::Unfit));
    assert_eq!((held.verdict(), held.verdict().map(Verdict::winner)), (Ok(Verdict::Unfit(White)), Ok(None)));
    assert_eq!(held.result(1).as_deref(), Ok("game 1: unfit white moves 0 restarts 0 0"));
}

#[test]
fn a_resignation_and_the_limit() {
    let mut held = match_on(3, 0, 0);
    choose(&mut held, "B2 resign");
    assert_eq!((held.verdict(), held.record().as_str()), (Ok(Verdict::Resignation(White)), "B2"));
    assert_eq!(held.verdict().map(Verdict::winner), Ok(Some(Black)));
    let limited = Setup { size: 3, max_moves: 1, ..Setup::default() };
    held.begin(limited).expect("a setup");
    choose(&mut held, "A1");
    assert_eq!((held.verdict(), held.verdict().map(Verdict::winner)), (Ok(Verdict::Limit), Ok(None)));
}

#[test]
fn answers_by_which_a_side_forfeits() {
    for (answer, loss, verdict) in [
        ("? no", Loss::NoMove, Verdict::NoMove(White)),
        ("= x1 2", Loss::NoVertex, Verdict::NoVertex(White)),
        ("= A1", Loss::Occupied, Verdict::IllegalMove(White)),
        ("= D1", Loss::OffBoard, Verdict::IllegalMove(White)),
    ] {
        let mut held = match_on(3, 0, 0);
        choose(&mut held, "A1");
        let (side, id) = genmove(&mut held);
        let answer = answer.replacen(' ', &format!("{id} "), 1);
        assert_eq!((side, held.hear(White, format!("{answer}\n\n").as_bytes())), (White, Some(loss)), "{answer}");
        assert_eq!((held.verdict(), verdict.winner()), (Ok(verdict), Some(Black)), "{answer}");
        assert!(!loss.to_string().is_empty());
    }
}

#[test]
fn a_side_goes_down_and_is_started_again() {
    let mut held = match_on(3, 0, 1);
    assert_eq!((held.status(Black), held.owed(Black)), (Err(Refusal::Down), Err(Refusal::Down)));
    sent(&mut held);
    assert_eq!(held.hear(Black, b"=1\n\n="), None);
    let status = held.status(Black).expect("it is up");
    assert_eq!((status.confirmed, status.unanswered, status.asked), (1, 2, false));
    let owed = held.owed(Black).expect("it is up");
    assert_eq!((owed.unanswered, owed.command.trim_end(), owed.wrote.as_slice()), (2, "2 komi 0", &b"="[..]));
    held.lost(Black);
    assert_eq!((held.next_action(), held.restarts(Black), held.is_in_step(Black)), (Action::Start(Black), 0, false));
    sent(&mut held);
    assert_eq!((held.restarts(Black), held.restarts(White)), (1, 0));
    for (answer, loss) in [("hello", Loss::NoStatus), ("=2 D4\n\n", Loss::WrongId)] {
        let mut held = match_on(3, 0, 0);
        sent(&mut held);
        let report = held.hear_reporting(Black, answer.as_bytes());
        let owed = report.owed.expect("a loss says what was owed");
        assert_eq!((report.loss, report.retake, owed.unanswered), (Some(loss), None, 3));
        assert!(owed.command.starts_with("1 boardsize 3") && answer.as_bytes().starts_with(&owed.wrote));
        assert_eq!(held.verdict(), Ok(Verdict::Abandoned(Black)));
    }
}

#[test]
fn a_reply_that_is_too_long_or_unasked() {
    let mut held = match_on(3, 0, 0);
    sent(&mut held);
    assert_eq!(held.hear(Black, &[b'\n'; 8192]), None);
    assert_eq!(held.hear(Black, b"\n"), Some(Loss::Overlong));
    let mut held = match_on(3, 0, 0);
    genmove(&mut held);
    assert_eq!(held.hear(White, b"=\n\n"), Some(Loss::Unasked));
}

#[test]
fn a_refused_play_is_retaken() {
    let mut held = match_on(2, 0, 1);
    choose(&mut held, "A1");
    assert_eq!(sent(&mut held), (Some(White), "4 play b A1\n".to_string()));
    let report = held.hear_reporting(White, b"?4 no\n\n");
    let owed = report.owed.expect("a retake says what was owed");
    assert_eq!((report.loss, report.retake, owed.unanswered), (None, Some(1), 1));
    assert_eq!((owed.command.trim_end(), held.retakes(1), held.taking_back()), ("4 play b A1", 1, Some(Black)));
    choose(&mut held, "A1");
    held.lost(Black);
    sent(&mut held);
    // It refuses its own move.
    assert_eq!(held.hear(Black, b"=1\n\n=2\n\n=3\n\n?4 no\n\n"), Some(Loss::RefusesPlay));
    assert_eq!(held.verdict(), Ok(Verdict::RefusedPlay(Black)));
    assert_eq!(held.result(1).as_deref(), Ok("game 1: W+F(refused play) moves 1 restarts 1 0"));
}

#[test]
fn rulings() {
    for (side, reason, verdict, words) in [
        (Black, "", Verdict::Time(Black), "W+T"),
        (White, "", Verdict::Time(White), "B+T"),
        (Black, "too late", Verdict::Ruling(Black), "W+F(too late)"),
        (White, "abcdefghij ABCDEFGHI", Verdict::Ruling(White), "B+F(abcdefghij ABCDEFGHI)"),
    ] {
        let mut held = match_on(2, 0, 0);
        choose(&mut held, "A1");
        assert_eq!(held.adjudicate(side, reason), Ok(()));
        assert_eq!(held.next_action(), Action::Over);
        assert_eq!(held.verdict(), Ok(verdict));
        assert_eq!(verdict.winner(), Some(side.other()));
        assert_eq!(held.reason(), reason);
        assert_eq!(held.result(2), Ok(format!("game 2: {words} moves 1 restarts 0 0")));
    }
}

#[test]
fn refused_rulings() {
    let mut held = match_on(2, 0, 0);
    let forfeits = ["refused play", "no move", "no vertex", "illegal move"];
    for reason in ["abcdefghij ABCDEFGHIJ", "late!", "sp\u{e4}t"].into_iter().chain(forfeits) {
        assert_eq!(held.adjudicate(Black, reason), Err(Refusal::BadReason), "{reason}");
    }
    assert_eq!(held.verdict(), Err(Refusal::NotOver));
    assert_eq!(held.adjudicate(White, "slow"), Ok(()));
    for reason in ["", "slow", "late!"] {
        assert_eq!(held.adjudicate(Black, reason), Err(Refusal::IsOver), "{reason}");
    }
    assert_eq!(held.verdict(), Ok(Verdict::Ruling(White)));
    assert_eq!(held.begin(Setup::default()), Ok(()));
    assert_eq!((held.verdict(), held.reason()), (Err(Refusal::NotOver), String::new()));
}

#[test]
fn a_ruling_stays() {
    let mut held = match_on(2, 0, 1);
    let (side, id) = genmove(&mut held);
    let status = held.status(side);
    assert_eq!(held.adjudicate(side, ""), Ok(()));
    assert_eq!(held.hear(side, format!("={id} A1\n\n").as_bytes()), None);
    assert_eq!(held.hear_reporting(side, b"hello"), Report::default());
    held.lost(side);
    assert_eq!(held.owed(side), Err(Refusal::Down));
    assert_eq!((held.started(side), held.send(side)), (Err(Refusal::NotNext), Err(Refusal::NotNext)));
    assert_eq!((held.status(side), held.restarts(side), held.record()), (status, 0, String::new()));
    assert_eq!(held.verdict(), Ok(Verdict::Time(side)));
}
