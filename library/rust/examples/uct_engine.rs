//! An engine that searches by UCT: a tree of moves, each with a copy of the game, and random playouts by the library.
//!
//! usage: uct_engine [PLAYOUTS [SEED]]: PLAYOUTS playouts for each choice, 1000 by default

use std::env::args;
use std::io::{stdin, stdout};
use std::ops::Range;
use vintsaky::{Choice, Colour, Game, Move, Player, Point, ServeError, Vertex, serve};

const MOST_NODES: usize = 1 << 20;

/// A node of the tree.
struct Node {
    /// The move that leads here.
    made: Move,
    /// The game after that move, from the first visit on.
    game: Option<Game>,
    /// The nodes after this one, from the second visit on.
    next: Range<usize>,
    /// The playouts through this node, and how many of them its colour won; a draw counts half.
    visits: f64,
    wins: f64,
}

impl Node {
    fn new(vertex: Vertex, colour: Colour) -> Node {
        Node { made: Move { colour, vertex }, game: None, next: 0..0, visits: 0.0, wins: 0.0 }
    }

    /// How promising it is: its share of wins, and more if it has few visits.
    fn promise(&self, log_above: f64) -> f64 {
        if self.visits == 0.0 { f64::INFINITY } else { self.wins / self.visits + (log_above / self.visits).sqrt() }
    }

    /// The value of a playout from here to the colour that made the move: 1 for a win, 1/2 for a draw.
    fn play_out(&self, seed: u64) -> f64 {
        let game = self.game.as_ref().expect("a node that is visited has its game");
        match game.rollout(self.made.colour.other(), seed, u32::MAX).half_points() {
            0 => 0.5,
            lead => f64::from((lead > 0) == (self.made.colour == Colour::Black)),
        }
    }
}

/// The engine: its tree, how many playouts it makes for a choice, and the seed of the last playout.
struct Uct {
    nodes: Vec<Node>,
    playouts: u32,
    seed: u64,
}

impl Uct {
    /// Adds the moves after a node, if the game isn't over and there is space: a pass, and legal points except own
    /// eyes.
    fn expand(&mut self, at: usize) {
        let Node { made, game: Some(game), .. } = &self.nodes[at] else { return };
        let (first, colour) = (self.nodes.len(), made.colour.other());
        let points = game.legal_points(colour);
        if game.is_finished() || first + points.len() >= MOST_NODES {
            return;
        }
        let good: Vec<Point> = points.filter(|point| game.is_own_eye(colour, *point) == Ok(false)).collect();
        let vertices = good.into_iter().map(Vertex::from).chain([Vertex::Pass]);
        self.nodes.extend(vertices.map(|vertex| Node::new(vertex, colour)));
        self.nodes[at].next = first..self.nodes.len();
    }

    /// The most promising node after this one, if there is any.
    fn most_promising(&self, at: usize) -> Option<usize> {
        let log_above = self.nodes[at].visits.ln();
        let promise = |next: &usize| self.nodes[*next].promise(log_above);
        self.nodes[at].next.clone().max_by(|one, two| promise(one).total_cmp(&promise(two)))
    }

    /// Makes a playout below a node, which has its game. Returns its value to the node's colour.
    fn visit(&mut self, at: usize) -> f64 {
        if self.nodes[at].visits > 0.0 && self.nodes[at].next.is_empty() {
            self.expand(at);
        }
        let worth = if let Some(next) = self.most_promising(at) {
            if self.nodes[next].game.is_none() {
                let mut game = self.nodes[at].game.clone().expect("a node that is visited has its game");
                // If the record is full, the game is unchanged, and its playouts make no move.
                let _ = game.play(self.nodes[next].made.colour, self.nodes[next].made.vertex);
                self.nodes[next].game = Some(game);
            }
            1.0 - self.visit(next)
        } else {
            self.seed += 1;
            self.nodes[at].play_out(self.seed)
        };
        let node = &mut self.nodes[at];
        (node.visits, node.wins) = (node.visits + 1.0, node.wins + worth);
        worth
    }
}

impl Player for Uct {
    /// The choice that was visited most; of several, the one that won most.
    fn choose(&mut self, game: &Game, colour: Colour) -> Choice {
        self.nodes = vec![Node { game: Some(game.clone()), ..Node::new(Vertex::Pass, colour.other()) }];
        for _ in 0..self.playouts {
            self.visit(0);
        }
        let next = self.nodes[0].next.clone().map(|next| &self.nodes[next]);
        let best = next.max_by(|one, two| (one.visits, one.wins).partial_cmp(&(two.visits, two.wins)).expect("counts"));
        best.map_or(Vertex::Pass, |node| node.made.vertex).into()
    }
}

fn main() -> Result<(), ServeError> {
    let mut numbers = args().skip(1).filter_map(|word| word.parse::<u32>().ok());
    let (playouts, seed) = (numbers.next().unwrap_or(1000), u64::from(numbers.next().unwrap_or(0)) << 32);
    serve(&mut Uct { nodes: Vec::new(), playouts, seed }, stdin().lock(), stdout().lock())
}
