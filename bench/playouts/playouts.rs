//! What `bench/playouts/run` measures, over the crate `vintsaky`: the rollouts of `playouts.c`.
use std::time::Instant;
use vintsaky::{Colour, Game, KoRule, Komi};

const ROUNDS: u32 = 100;
const HALF_KOMI: i32 = 15;

fn make_rollouts(game: &Game, count: u64) -> i64 {
    (0..count).map(|seed| i64::from(game.rollout(Colour::Black, seed, u32::MAX).half_points())).sum()
}

fn main() {
    for (lines, count) in [(9, 100), (19, 25)] {
        let game = Game::with(KoRule::Simple, lines, Komi::new(HALF_KOMI).unwrap()).unwrap();
        let (mut best, mut came) = (u128::MAX, 0);
        for _ in 0..ROUNDS {
            let start = Instant::now();
            came = make_rollouts(&game, count);
            best = best.min(start.elapsed().as_nanos());
        }
        println!("{lines} rollouts {best} {count} {came}");
    }
}
