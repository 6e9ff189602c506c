//! The rules of Go: what is legal, what a move takes, and who leads. What is expected is worked out by hand.

use vintsaky::{Chain, Colour, Game, KoRule, Komi, Move, Point, Refusal, Vertex};

use Colour::{Black, White};

fn game(rule: KoRule, size: u32) -> Game {
    Game::with(rule, size, Komi::default()).expect("a size from 1 to 25")
}

fn vertex(text: &str) -> Vertex {
    text.parse().expect("a vertex")
}

fn point(text: &str) -> Point {
    text.parse().expect("a point")
}

/// Plays these vertices, Black and White in turn. A dash is nobody's move.
fn play_in_turn(game: &mut Game, vertices: &str) {
    let sides = [Black, White].into_iter().cycle();
    for (colour, text) in sides.zip(vertices.split(' ')).filter(|(_, text)| *text != "-") {
        assert_eq!(game.play(colour, vertex(text)), Ok(()), "{colour} {text}");
    }
}

/// A ko on 4x4: White's B2 takes nothing back before another move.
fn ko(rule: KoRule) -> Game {
    let mut game = game(rule, 4);
    play_in_turn(&mut game, "B1 C1 A2 D2 B3 C3 - B2 C2");
    game
}

#[test]
fn a_fresh_game() {
    let game = Game::new();
    assert_eq!((game.size(), game.rule(), game.komi(), game.handicap()), (19, KoRule::Simple, Komi::default(), 0));
    assert_eq!((game.length(), game.is_finished(), game.score().half_points()), (0, false, 0));
    assert_eq!(game.legal_points(White).len(), 361);
}

#[test]
fn whose_turn_it_is() {
    let mut game = game(KoRule::Simple, 9);
    assert_eq!(game.turn(), Black);
    game.play(White, Vertex::Pass).expect("a pass is legal");
    assert_eq!(game.turn(), Black);
    play_in_turn(&mut game, "A1");
    assert_eq!(game.turn(), White);
    let mut game = Game::new();
    game.place_handicap(2).expect("two stones are allowed");
    assert_eq!(game.turn(), White);
}

#[test]
fn sizes() {
    for size in 1..=25 {
        assert_eq!(game(KoRule::Simple, size).size(), size);
    }
    for size in [0, 26, u32::MAX] {
        let mut game = game(KoRule::Positional, 5);
        assert_eq!(game.begin(KoRule::Simple, size, Komi::default()), Err(Refusal::BadSize));
        assert_eq!((game.size(), game.rule()), (5, KoRule::Positional));
    }
}

#[test]
fn a_point_is_played_once_and_on_the_board() {
    let mut game = game(KoRule::Simple, 3);
    play_in_turn(&mut game, "B2");
    assert_eq!(game.play(White, vertex("B2")), Err(Refusal::Occupied));
    assert_eq!(game.play(White, vertex("D1")), Err(Refusal::OffBoard));
    assert_eq!(game.legal(White, vertex("B2")), Err(Refusal::Occupied));
    assert_eq!(game.legal(White, Vertex::Pass), Ok(()));
    assert_eq!(game.length(), 1);
}

#[test]
fn a_capture_and_its_undo() {
    let mut game = game(KoRule::Simple, 3);
    play_in_turn(&mut game, "A2 A1");
    let before = game.to_string();
    play_in_turn(&mut game, "B1");
    assert!(game.taken_by_last_move().eq([point("A1")]));
    assert_eq!((game.captured(Black), game.captured(White)), (1, 0));
    assert_eq!(game.stone_at(point("A1")), Ok(None));
    assert_eq!(game.to_string(), ". . . 3\nX . . 2\n. X . 1\nA B C\ncaptures B 1 W 0");
    assert_eq!(game.undo(), Ok(()));
    assert_eq!(game.to_string(), before);
    assert_eq!(game.stone_at(point("A1")), Ok(Some(White)));
    assert_eq!(game.captured(Black), 0);
}

#[test]
fn stones_that_are_taken_come_row_by_row() {
    let mut game = game(KoRule::Simple, 3);
    play_in_turn(&mut game, "C1 B1 B2 A1 - A2 A3");
    assert!(game.taken_by_last_move().eq(["A1", "B1", "A2"].map(point)));
    assert!(game.taken_by_last_move().rev().eq(["A2", "B1", "A1"].map(point)));
}

#[test]
fn suicide_is_refused() {
    let mut game = game(KoRule::Simple, 3);
    play_in_turn(&mut game, "A2 - B1");
    assert_eq!(game.play(White, vertex("A1")), Err(Refusal::Suicide));
    assert_eq!(game.play(Black, vertex("A1")), Ok(()));
}

#[test]
fn a_ko_is_not_taken_back_at_once() {
    for rule in [KoRule::Simple, KoRule::Positional] {
        let mut game = ko(rule);
        assert!(game.taken_by_last_move().eq([point("B2")]));
        assert_eq!(game.play(White, vertex("B2")), Err(Refusal::Ko));
        assert!(!game.legal_points(White).any(|legal| legal == point("B2")));
        play_in_turn(&mut game, "- D4 A4");
        assert_eq!(game.play(White, vertex("B2")), Ok(()));
    }
}

#[test]
fn passes_lift_simple_ko_and_not_superko() {
    for (rule, wanted) in [(KoRule::Simple, Ok(())), (KoRule::Positional, Err(Refusal::Ko))] {
        let mut game = ko(rule);
        play_in_turn(&mut game, "- pass pass");
        assert_eq!(game.play(White, vertex("B2")), wanted, "{rule:?}");
    }
}

#[test]
fn undo_needs_a_move() {
    let mut game = Game::new();
    assert_eq!(game.undo(), Err(Refusal::NothingToUndo));
    assert_eq!(game.place_handicap(2), Ok(()));
    assert_eq!(game.undo(), Err(Refusal::NothingToUndo));
}

#[test]
fn the_record() {
    let mut game = game(KoRule::Simple, 9);
    play_in_turn(&mut game, "E5 pass J9");
    let wanted =
        [(Black, "E5"), (White, "pass"), (Black, "J9")].map(|(colour, at)| Move { colour, vertex: vertex(at) });
    assert!(game.moves().eq(wanted));
    assert!(game.moves().rev().eq(wanted.into_iter().rev()));
    assert_eq!((game.made(1), game.made(3), game.made(usize::MAX)), (Some(wanted[1]), None, None));
}

#[test]
fn a_record_has_2000_moves() {
    let mut game = Game::new();
    for _ in 0..2000 {
        assert_eq!(game.play(Black, Vertex::Pass), Ok(()));
    }
    assert_eq!(game.play(White, vertex("A1")), Err(Refusal::Full));
    assert_eq!(game.legal(White, vertex("A1")), Ok(()));
    assert_eq!(game.length(), 2000);
}

#[test]
fn two_passes_finish_a_game() {
    let mut game = game(KoRule::Simple, 5);
    for (at, finished) in [("C3", false), ("pass", false), ("pass", true), ("B2", false)] {
        play_in_turn(&mut game, at);
        assert_eq!(game.is_finished(), finished, "{at}");
    }
}

/// A wall of Black on the middle column, and a white stone: Black has 3 stones and the left column, White 1 stone.
#[test]
fn the_score_is_by_area() {
    let mut game = game(KoRule::Simple, 3);
    play_in_turn(&mut game, "B1 C2 B2 - B3");
    assert_eq!((game.score().half_points(), game.score().to_string().as_str()), (10, "B+5"));
    for (komi, wanted) in [("4.5", "B+0.5"), ("5", "0"), ("5.5", "W+0.5"), ("-1", "B+6")] {
        game.set_komi(komi.parse().expect("a komi"));
        assert_eq!(game.score().to_string(), wanted, "with komi {komi}");
    }
    assert_eq!(game.score().leader(), Some(Black));
}

#[test]
fn handicap_stones() {
    let mut game = game(KoRule::Simple, 9);
    for stones in [0, 1, 10, u32::MAX] {
        assert_eq!(game.place_handicap(stones), Err(Refusal::BadHandicap));
    }
    assert_eq!(game.place_handicap(2), Ok(()));
    assert_eq!((game.handicap(), game.length()), (2, 0));
    for at in ["C3", "G7"] {
        assert_eq!(game.stone_at(point(at)), Ok(Some(Black)), "{at}");
    }
    assert_eq!(game.place_handicap(2), Err(Refusal::NotEmpty));
}

#[test]
fn chains() {
    let mut game = game(KoRule::Simple, 3);
    play_in_turn(&mut game, "A1 A3 A2 B3 B1 - -");
    assert_eq!(game.chain(point("A2")), Ok(Chain { stones: 3, liberties: 2 }));
    assert_eq!(game.chain(point("B3")), Ok(Chain { stones: 2, liberties: 2 }));
    assert_eq!(game.chain(point("C3")), Err(Refusal::NoStone));
    assert_eq!(game.chain(point("D3")), Err(Refusal::OffBoard));
    assert_eq!(game.stone_at(point("D3")), Err(Refusal::OffBoard));
}

#[test]
fn legal_points_come_row_by_row() {
    let mut game = game(KoRule::Simple, 2);
    assert!(game.legal_points(Black).eq(["A1", "B1", "A2", "B2"].map(point)));
    play_in_turn(&mut game, "A1 - B2");
    assert!(game.legal_points(Black).eq(["B1", "A2"].map(point)));
    assert_eq!(game.legal_points(White).len(), 0);
}

#[test]
fn a_copy_is_a_game_of_its_own() {
    let mut game = ko(KoRule::Positional);
    let mut copy = game.clone();
    assert_eq!((copy.to_string(), copy.rule()), (game.to_string(), game.rule()));
    assert_eq!(copy.play(White, vertex("B2")), Err(Refusal::Ko));
    play_in_turn(&mut copy, "A4");
    assert_eq!((copy.length(), game.length()), (9, 8));
    game.clone_from(&copy);
    assert!(game.moves().eq(copy.moves()));
    let moved = [game];
    assert_eq!(moved[0].stone_at(point("A4")), Ok(Some(Black)));
}

#[test]
fn equal_boards_have_equal_hashes() {
    let (mut one, mut other) = (game(KoRule::Simple, 5), game(KoRule::Simple, 5));
    play_in_turn(&mut one, "A1 B2 C3");
    play_in_turn(&mut other, "C3 B2 A1");
    assert_eq!(one.board_hash(), other.board_hash());
    play_in_turn(&mut other, "- E5");
    assert_ne!(one.board_hash(), other.board_hash());
}
