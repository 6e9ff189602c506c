//! What a search asks of a game. What is expected is worked out by hand.

use vintsaky::{Colour, Game, KoRule, Komi, Point, Refusal, Vertex};

use Colour::{Black, White};

fn point(text: &str) -> Point {
    text.parse().expect("a point")
}

/// A game with these stones, which are played in this order.
fn played(size: u32, stones: &[(Colour, &str)]) -> Game {
    let mut game = Game::with(KoRule::Simple, size, Komi::default()).expect("a size from 1 to 25");
    for (colour, text) in stones {
        assert_eq!(game.play(*colour, point(text)), Ok(()), "{colour} {text}");
    }
    game
}

#[test]
fn points_have_indexes() {
    let game = played(5, &[]);
    for (text, index) in [("A1", 0), ("B1", 1), ("E1", 4), ("A2", 5), ("E5", 24)] {
        assert_eq!(game.index(point(text)), Ok(index), "{text}");
        assert_eq!(game.point_at(index), Ok(point(text)), "{text}");
    }
    assert_eq!(game.index(point("F1")), Err(Refusal::OffBoard));
    for index in [25, usize::MAX] {
        assert_eq!(game.point_at(index), Err(Refusal::OffBoard));
    }
}

#[test]
fn the_whole_board_comes_in_order() {
    let game = played(3, &[(Black, "A2"), (White, "C1"), (Black, "B3")]);
    let (none, black, white) = (None, Some(Black), Some(White));
    let wanted = [none, none, white, black, none, none, none, black, none];
    assert!(game.board().eq(wanted));
    assert!(game.board().rev().eq(wanted.into_iter().rev()));
    assert_eq!((game.board().len(), game.board().nth(3), game.board().nth(9)), (9, Some(black), None));
}

#[test]
fn legal_points_are_marked() {
    let game = played(3, &[(Black, "A2"), (Black, "B1"), (Black, "C2")]);
    let marks = |colour| game.legal_mask(colour).map(u8::from).collect::<Vec<_>>();
    assert_eq!(marks(Black), [1, 0, 1, 0, 1, 0, 1, 1, 1]);
    assert_eq!(marks(White), [0, 0, 0, 0, 1, 0, 1, 1, 1]);
}

#[test]
fn own_eyes() {
    let mut game = played(5, &["A2", "B1", "C4", "E4", "D3", "D5"].map(|text| (Black, text)));
    let eyes = |game: &Game| ["A1", "D4", "B2", "C4"].map(|text| game.is_own_eye(Black, point(text)).expect("on it"));
    assert_eq!(eyes(&game), [true, true, false, false]);
    assert_eq!(game.is_own_eye(White, point("D4")), Ok(false));
    // On the edge no diagonal may be the other's; inside one may.
    for (text, wanted) in [("B2", [false, true]), ("C3", [false, true]), ("E3", [false, false])] {
        assert_eq!(game.play(White, point(text)), Ok(()));
        assert_eq!(eyes(&game)[..2], wanted, "{text}");
    }
    assert_eq!(game.is_own_eye(Black, point("F1")), Err(Refusal::OffBoard));
}

#[test]
fn a_chain_has_points_and_liberties() {
    let game = played(3, &[(Black, "A1"), (Black, "A2"), (Black, "B2"), (Black, "C3"), (White, "C1")]);
    assert!(game.chain_points(point("B2")).is_ok_and(|stones| stones.eq(["A1", "A2", "B2"].map(point))));
    let liberties = ["B1", "C2", "A3", "B3"].map(point);
    assert!(game.chain_liberties(point("A1")).is_ok_and(|found| found.eq(liberties)));
    for (text, wanted) in [("A3", Refusal::NoStone), ("D1", Refusal::OffBoard)] {
        assert_eq!(game.chain_points(point(text)).err(), Some(wanted));
        assert_eq!(game.chain_liberties(point(text)).err(), Some(wanted));
    }
}

#[test]
fn the_ko_point_is_of_the_colour_that_lost_a_stone() {
    let mut game = played(5, &[(Black, "B1"), (White, "C1"), (Black, "A2"), (White, "B2"), (White, "A1")]);
    assert_eq!((game.ko_point(Black), game.ko_point(White)), (Some(point("B1")), None));
    assert_eq!(game.play(Black, Vertex::Pass), Ok(()));
    assert_eq!(game.ko_point(Black), None);
}

/// All points but A1, which is Black's eye, and where the stones are.
#[test]
fn a_word_chooses_among_the_candidates() {
    let game = played(3, &[(Black, "A2"), (Black, "B1")]);
    let candidates = ["C1", "B2", "C2", "A3", "B3", "C3"];
    for word in (0..12).chain([1 << 32, 1 << 63, u64::MAX]) {
        let wanted = candidates[usize::try_from(word % 6).expect("it is small")];
        assert_eq!(game.random_move(Black, word), Vertex::At(point(wanted)), "{word}");
    }
    assert_eq!(played(2, &[(Black, "A1"), (Black, "B2")]).random_move(White, 7), Vertex::Pass);
}

#[test]
fn a_position_is_hashed_with_its_ko_point_and_who_is_to_move() {
    let stones = [(Black, "B1"), (White, "C1"), (Black, "A2"), (White, "B2"), (White, "A1")];
    let mut game = played(5, &stones);
    // The same board without B1, which White's A1 took: nothing was taken, so there is no ko.
    let other = played(5, &[stones[4], stones[3], stones[2], stones[1]]);
    assert_eq!(game.board().collect::<Vec<_>>(), other.board().collect::<Vec<_>>());
    assert_ne!(game.position_hash(Black), other.position_hash(Black));
    assert_eq!(game.position_hash(White), other.position_hash(White));
    assert_ne!(other.position_hash(Black), other.position_hash(White));
    assert_eq!(game.play(White, Vertex::Pass), Ok(()));
    assert_eq!(game.position_hash(Black), other.position_hash(Black));
    assert_ne!(played(9, &[]).position_hash(Black), played(19, &[]).position_hash(Black));
}

/// On 1x1 nobody may play, so that both pass, whatever the seed is.
#[test]
fn a_playout_ends_after_two_passes() {
    for seed in [0, 1, u64::MAX] {
        let mut game = played(1, &[]);
        game.set_komi("0.5".parse().expect("a komi"));
        assert_eq!(game.rollout(Black, seed, 2000).to_string(), "W+0.5");
        assert_eq!(game.length(), 0);
        game.playout(White, seed, 2000);
        assert!(game.moves().map(|made| (made.colour, made.vertex)).eq([White, Black].map(|it| (it, Vertex::Pass))));
        assert!(game.is_finished());
        game.playout(White, seed, 2000);
        assert_eq!(game.length(), 2);
    }
}

#[test]
fn a_playout_has_a_limit_and_a_seed() {
    let played_out = |seed, limit| {
        let mut game = played(9, &[(Black, "E5")]);
        let score = game.rollout(White, seed, limit);
        game.playout(White, seed, limit);
        assert_eq!(game.score(), score);
        game.moves().collect::<Vec<_>>()
    };
    let short = played_out(7, 5);
    assert!(short.iter().map(|made| made.colour).eq([Black, White, Black, White, Black, White]));
    assert!(short.iter().all(|made| made.vertex != Vertex::Pass));
    assert_eq!(short, played_out(7, 2000)[..6]);
    assert_ne!(short, played_out(8, 5));
    assert_eq!(played_out(7, 0).len(), 1);
}
