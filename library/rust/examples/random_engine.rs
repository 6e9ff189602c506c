//! An engine that plays a random legal point, unless only own stones surround it. The library does the rest.
//!
//! usage: random_engine [SEED]

use std::io::{stdin, stdout};
use vintsaky::{Choice, Colour, Game, Player, Point, ServeError, Vertex, serve};

/// The engine: the state of its random generator, which is never 0.
struct Random(u64);

impl Random {
    /// The next random number: Marsaglia's xorshift, and a multiplication.
    fn next(&mut self) -> u64 {
        self.0 ^= self.0 << 13;
        self.0 ^= self.0 >> 7;
        self.0 ^= self.0 << 17;
        self.0.wrapping_mul(0x2545_f491_4f6c_dd1d) >> 32
    }
}

impl Player for Random {
    fn choose(&mut self, game: &Game, colour: Colour) -> Choice {
        let good: Vec<Point> = game.legal_points(colour).filter(|point| !is_eye(game, colour, *point)).collect();
        if good.is_empty() {
            return Vertex::Pass.into();
        }
        good[self.next() as usize % good.len()].into()
    }

    fn name(&self) -> &str {
        "random_engine"
    }
}

/// Whether all neighbours of a point are stones of this colour.
fn is_eye(game: &Game, colour: Colour, point: Point) -> bool {
    let mut on_board = point.neighbours().filter_map(|near| game.stone_at(near).ok());
    on_board.all(|stone| stone == Some(colour))
}

fn main() -> Result<(), ServeError> {
    let seed: u32 = std::env::args().nth(1).and_then(|word| word.parse().ok()).unwrap_or(1);
    let mut engine = Random(0x9e37_79b9_7f4a_7c15 ^ u64::from(seed));
    serve(&mut engine, stdin().lock(), stdout().lock())
}
