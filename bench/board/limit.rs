//! The limit of the benchmark of the board: the same random games on a board in Rust that is written for speed alone.
//!
//! Nothing here is proved, and nothing is checked but by the counts and the score that it prints: they have to be those of
//! the benchmark. A board is one array with edge round it. Each chain is a ring of stones that carry its number, with a
//! count of its liberties, each counted once for each stone beside it. There is no record, no `undo` and no handicap.
//! `rustc -C opt-level=3 -C target-cpu=x86-64 limit.rs` makes the program.
use std::time::Instant;

const ROW: usize = 26;
const PLACES: usize = 27 * ROW;
const EMPTY: u8 = 0;
const EDGE: u8 = 3;
const STEPS: [isize; 4] = [1, -1, ROW as isize, -(ROW as isize)];

/// The sizes, and how many games are played on each.
const GAMES: [(u32, u32); 2] = [(9, 2000), (19, 200)];
const MOVE_LIMIT: u32 = 1000;
const STRIDE: u32 = 167;

struct Generator {
    state: u64,
}

impl Generator {
    fn draw(&mut self) -> u32 {
        self.state = self
            .state
            .wrapping_mul(6_364_136_223_846_793_005)
            .wrapping_add(1_442_695_040_888_963_407);
        (self.state >> 40) as u32
    }
}

struct Board {
    cells: [u8; PLACES],
    chain: [u16; PLACES],
    next: [u16; PLACES],
    liberties: [i32; PLACES],
    stones: [u16; PLACES],
    ko: usize,
}

#[inline]
fn beside(place: usize, step: isize) -> usize {
    (place as isize + step) as usize
}

impl Board {
    fn new(lines: usize) -> Board {
        let mut board = Board {
            cells: [EDGE; PLACES],
            chain: [0; PLACES],
            next: [0; PLACES],
            liberties: [0; PLACES],
            stones: [0; PLACES],
            ko: 0,
        };
        for row in 1..=lines {
            for column in 1..=lines {
                board.cells[row * ROW + column] = EMPTY;
            }
        }
        board
    }

    fn is_eye(&self, place: usize, mine: u8) -> bool {
        STEPS.iter().all(|step| {
            let cell = self.cells[beside(place, *step)];
            cell == mine || cell == EDGE
        })
    }

    fn legal(&self, place: usize, mine: u8) -> bool {
        if self.cells[place] != EMPTY || place == self.ko {
            return false;
        }
        let mut lost = [(0usize, 0i32); 4];
        let mut chains = 0;
        for step in STEPS {
            let near = beside(place, step);
            if self.cells[near] == EMPTY {
                return true;
            }
            if self.cells[near] != EDGE {
                let chain = self.chain[near] as usize;
                match lost.iter_mut().take(chains).find(|entry| entry.0 == chain) {
                    Some(entry) => entry.1 += 1,
                    None => {
                        lost[chains] = (chain, 1);
                        chains += 1;
                    }
                }
            }
        }
        lost.iter().take(chains).any(|(chain, count)| {
            let left = self.liberties[*chain] - count;
            (self.cells[*chain] == mine) == (left > 0)
        })
    }

    fn play(&mut self, place: usize, mine: u8) {
        self.ko = 0;
        let mut surrounded = true;
        self.cells[place] = mine;
        self.chain[place] = place as u16;
        self.next[place] = place as u16;
        self.stones[place] = 1;
        self.liberties[place] = 0;
        for step in STEPS {
            let near = beside(place, step);
            match self.cells[near] {
                EMPTY => {
                    self.liberties[place] += 1;
                    surrounded = false;
                }
                EDGE => {}
                stone => {
                    self.liberties[self.chain[near] as usize] -= 1;
                    if stone == mine {
                        surrounded = false;
                    }
                }
            }
        }
        for step in STEPS {
            let near = beside(place, step);
            if self.cells[near] == mine && self.chain[near] != self.chain[place] {
                self.join(place, near);
            }
        }
        let mut taken = 0;
        let mut last = 0;
        for step in STEPS {
            let near = beside(place, step);
            if self.cells[near] == 3 - mine {
                let chain = self.chain[near] as usize;
                if self.liberties[chain] == 0 {
                    taken += self.stones[chain];
                    last = near;
                    self.remove(chain);
                }
            }
        }
        if surrounded && taken == 1 {
            self.ko = last;
        }
    }

    fn join(&mut self, a: usize, b: usize) {
        let (mut to, mut from) = (self.chain[a] as usize, self.chain[b] as usize);
        if self.stones[to] < self.stones[from] {
            std::mem::swap(&mut to, &mut from);
        }
        self.liberties[to] += self.liberties[from];
        self.stones[to] += self.stones[from];
        let mut place = from;
        loop {
            self.chain[place] = to as u16;
            place = self.next[place] as usize;
            if place == from {
                break;
            }
        }
        self.next.swap(to, from);
    }

    fn remove(&mut self, chain: usize) {
        let mut place = chain;
        loop {
            let next = self.next[place] as usize;
            self.cells[place] = EMPTY;
            for step in STEPS {
                let near = beside(place, step);
                if self.cells[near] == 1 || self.cells[near] == 2 {
                    self.liberties[self.chain[near] as usize] += 1;
                }
            }
            place = next;
            if place == chain {
                break;
            }
        }
    }

    /// The places of this colour's stones and of the empty regions beside them.
    fn reached(&self, colour: u8) -> Vec<bool> {
        let mut marked: Vec<bool> = self.cells.iter().map(|cell| *cell == colour).collect();
        let mut order: Vec<usize> = (0..PLACES).filter(|place| marked[*place]).collect();
        while let Some(place) = order.pop() {
            for step in STEPS {
                let near = beside(place, step);
                if self.cells[near] == EMPTY && !marked[near] {
                    marked[near] = true;
                    order.push(near);
                }
            }
        }
        marked
    }

    /// Twice the difference of the areas, less a komi of 13 half points.
    fn score(&self) -> i64 {
        let (black, white) = (self.reached(1), self.reached(2));
        let only = |mine: &[bool], other: &[bool]| {
            (0..PLACES).filter(|place| mine[*place] && !other[*place]).count() as i64
        };
        2 * (only(&black, &white) - only(&white, &black)) - 13
    }
}

/// Makes one move. Place 0 is a pass.
fn turn(board: &mut Board, lines: u32, mine: u8, draws: &mut Generator, refused: &mut u64) -> usize {
    let first = draws.draw();
    for turn in 0..lines * lines {
        let number = first.wrapping_add(turn.wrapping_mul(STRIDE));
        let place = (number / lines % lines + 1) as usize * ROW + (number % lines + 1) as usize;
        if board.cells[place] != EMPTY || board.is_eye(place, mine) {
            continue;
        }
        if board.legal(place, mine) {
            board.play(place, mine);
            return place;
        }
        *refused += 1;
    }
    board.ko = 0;
    0
}

fn run(lines: u32, games: u32) {
    let mut draws = Generator { state: 1 };
    let (mut moves, mut refused, mut score) = (0u64, 0u64, 0i64);
    let (mut played, mut replayed) = (0u128, 0u128);
    for _ in 0..games {
        let start = Instant::now();
        let mut board = Board::new(lines as usize);
        let mut record = Vec::with_capacity(MOVE_LIMIT as usize);
        let (mut mine, mut passes) = (1u8, 0);
        for _ in 0..MOVE_LIMIT {
            let place = turn(&mut board, lines, mine, &mut draws, &mut refused);
            record.push((place, mine));
            passes = if place == 0 { passes + 1 } else { 0 };
            if passes == 2 {
                break;
            }
            mine = 3 - mine;
        }
        moves += record.len() as u64;
        score += board.score();
        played += start.elapsed().as_nanos();
        let start = Instant::now();
        let mut again = Board::new(lines as usize);
        for (place, mine) in &record {
            if *place == 0 {
                again.ko = 0;
            } else if again.legal(*place, *mine) {
                again.play(*place, *mine);
            }
        }
        replayed += start.elapsed().as_nanos();
        assert!(again.cells == board.cells);
    }
    println!("{lines}x{lines}: {games} games, {moves} moves, {refused} refused, score {score}");
    println!("  games: {} ns a move", played / u128::from(moves));
    println!("  records played again: {} ns a move", replayed / u128::from(moves));
}

fn main() {
    for (lines, games) in GAMES {
        run(lines, games);
    }
}
