//! What a search asks of a game, and playouts.

use super::Game;
use super::lists::listed;
use crate::refusal::Refusal;
use crate::values::{Colour, Point, Score, Vertex};

impl Game {
    /// Returns the index of a point, for lists with one value for each point. It is counted from 0 in board order: row
    /// by row from A1, as A1, B1, .., A2, B2.
    ///
    /// ```
    /// use vintsaky::{Game, Refusal};
    ///
    /// let game = Game::new();
    /// assert_eq!(game.index("A2".parse()?)?, 19);
    /// assert_eq!(game.point_at(19)?, "A2".parse()?);
    /// # Ok::<(), Refusal>(())
    /// ```
    ///
    /// # Errors
    ///
    /// [`Refusal::OffBoard`].
    pub fn index(&self, point: Point) -> Result<usize, Refusal> {
        self.inner.index(point.inner()).ok_or(Refusal::OffBoard)
    }

    /// Returns the point with an index.
    ///
    /// # Errors
    ///
    /// [`Refusal::OffBoard`] if the board has no such index.
    pub fn point_at(&self, index: usize) -> Result<Point, Refusal> {
        self.inner.point(index).map(Point::of).ok_or(Refusal::OffBoard)
    }

    /// Returns for each point of the current board, in board order, its stone, or `None` if it is empty.
    pub fn board(&self) -> impl ExactSizeIterator<Item = Option<Colour>> + DoubleEndedIterator + use<> {
        listed(|stone: Option<go_base::Colour>| stone.map(Colour::of), |stones| self.inner.board_into(stones))
    }

    /// Returns for each point, in board order, whether a colour may play there next in the current game, even if the
    /// record is full.
    pub fn legal_mask(&self, colour: Colour) -> impl ExactSizeIterator<Item = bool> + DoubleEndedIterator + use<> {
        listed(|may: bool| may, |mask| self.inner.legal_mask_into(colour.inner(), mask))
    }

    /// Returns whether a point is an own eye of a colour, which a playout doesn't fill. An own eye is empty, and all
    /// its neighbours are stones of the colour. The other colour has a stone on at most one of its diagonals, and on
    /// none if the point is on the edge.
    ///
    /// # Errors
    ///
    /// [`Refusal::OffBoard`].
    pub fn is_own_eye(&self, colour: Colour, point: Point) -> Result<bool, Refusal> {
        Ok(self.inner.is_own_eye(colour.inner(), self.on_board(point)?))
    }

    /// Returns the stones of the chain on a point of the current game, row by row from A1.
    ///
    /// # Errors
    ///
    /// Those of [`chain`](Self::chain).
    pub fn chain_points(&self, point: Point) -> Result<impl ExactSizeIterator<Item = Point> + use<>, Refusal> {
        let stone = self.stone_on(point)?;
        Ok(listed(Point::of, |points| self.inner.chain_points_into(stone, points)))
    }

    /// Returns the liberties of the chain on a point of the current game, row by row from A1 and each once.
    ///
    /// # Errors
    ///
    /// Those of [`chain`](Self::chain).
    pub fn chain_liberties(&self, point: Point) -> Result<impl ExactSizeIterator<Item = Point> + use<>, Refusal> {
        let stone = self.stone_on(point)?;
        Ok(listed(Point::of, |points| self.inner.chain_liberties_into(stone, points)))
    }

    /// Returns the ko point of a colour, if there is one: the one empty point where its play would bring back the board
    /// before the last move.
    pub fn ko_point(&self, colour: Colour) -> Option<Point> {
        self.inner.ko_point(colour.inner()).map(Point::of)
    }

    /// Returns the move that a random word chooses for a colour, even if the record is full. Of the n points where the
    /// colour may play next and that aren't its own eyes, this is number `word` mod n, counted from 0 in board order,
    /// or a pass if there are none. Each of the first 2^64 mod n points is chosen by one word more than each of the
    /// others, a bias that you can neglect.
    ///
    /// ```
    /// use vintsaky::{Colour, Game, Komi, KoRule, Point, Refusal};
    ///
    /// // Of nine points, number 13 mod 9 = 4, counted from 0, is B2.
    /// let game = Game::with(KoRule::Simple, 3, Komi::default())?;
    /// assert_eq!(game.random_move(Colour::Black, 13), Point::new(2, 2).unwrap().into());
    /// # Ok::<(), Refusal>(())
    /// ```
    pub fn random_move(&self, colour: Colour, word: u64) -> Vertex {
        Vertex::of(self.inner.random_move(colour.inner(), word))
    }

    /// Returns a hash of the position with a colour to move: of the board, its size, that colour and its ko point.
    /// Positions that are equal in these have equal hashes. So different hashes show a difference; equal hashes show
    /// nothing. The hash leaves out the komi, the ko rule, whether the last move was a pass, and the record, on which
    /// positional superko depends.
    pub fn position_hash(&self, colour: Colour) -> u64 {
        self.inner.position_hash(colour.inner())
    }

    /// Plays on at random: this colour first, and then both in turn. Each plays a random one of the points where it
    /// may play and that aren't its own eyes, and passes if there is none. The playout ends after two passes in a row
    /// (a pass just before it counts), after `limit` moves, or when the record has 2,000 moves. The same game, colour,
    /// seed and limit always make the same moves.
    ///
    /// ```
    /// use vintsaky::{Colour, Game};
    ///
    /// let mut game = Game::new();
    /// let score = game.rollout(Colour::Black, 7, u32::MAX);
    /// game.playout(Colour::Black, 7, u32::MAX);
    /// assert_eq!(game.score(), score);
    /// ```
    pub fn playout(&mut self, colour: Colour, seed: u64, limit: u32) {
        go_playouts::playout(&mut self.inner, colour.inner(), seed, limit);
    }

    /// Returns the score after a [`playout`](Self::playout). The game is unchanged.
    pub fn rollout(&self, colour: Colour, seed: u64, limit: u32) -> Score {
        Score::of(go_playouts::rollout(&self.inner, colour.inner(), seed, limit))
    }

    /// The point, if it is on the board and has a stone.
    fn stone_on(&self, point: Point) -> Result<go_base::Point, Refusal> {
        let point = self.on_board(point)?;
        self.inner.at(point).is_some().then_some(point).ok_or(Refusal::NoStone)
    }
}
