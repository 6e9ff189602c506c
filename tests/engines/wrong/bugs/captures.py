"""Captures, and the chains that are captured."""
from itertools import takewhile
from typing import Dict, List, Set

from tests.engines.wrong.bug import KO, Bug, Keeping, instead_of, on, removed, shown_by
from tests.references.engine.game import EMPTY, Board, filled, in_order
from tests.references.engine.values import BLACK, PASS, Point, other

# Black's B5 takes 17 stones of White.
SEVENTEEN = (
    "w A1 w B1 w C1 w D1 w E1 w A2 w B2 w C2 w D2 w E2 w A3 w B3 w C3 w D3 w E3 w A4 w B4 "
    "b C4 b D4 b E4 b A5 b B5"
)


@instead_of("captures", on(5, "w A1 w B1 b A2 b B2 b C1", "play b A1"), "=")
def nearest_stone_is_taken(self, right, board, colour, point):
    """Of a chain that is captured only the stones beside the play are taken off."""
    return right(board, colour, point) & set(self.near[point])


@instead_of("captures", on(5, "b A1 w A2 w B1", "play w A1"), "=")
def white_takes_nothing(self, right, board, colour, point):
    """Captures are looked for after Black's plays alone."""
    return right(board, colour, point) if colour == BLACK else set()


@instead_of("captures", on(5, "b A5 w A4 w B5", "play w A5"), "=")
def top_row_stays(self, right, board, colour, point):
    """Stones in the top row are never captured: the loop ends a row too early."""
    return {stone for stone in right(board, colour, point) if stone[1] < self.size}


@instead_of("captures", on(5, "b A1 w A2 w B1", "play w A1"), "=")
def point_zero_is_no_point(self, right, board, colour, point):
    """A1 is point 0, which is taken as no neighbour where captures are looked for."""
    return self.dead(board, other(colour), {*self.near[point]} - {(1, 1)})


@instead_of("captures", on(5, "b A1 w B1 w A2", "play w A1"), "=")
def nothing_below_is_taken(self, right, board, colour, point):
    """The table of the four directions has one of them twice, so a chain below the play isn't
    looked at."""
    return self.dead(board, other(colour), {*self.near[point]} - {(point[0], point[1] - 1)})


@instead_of("captures", on(5, "w C1 b D1 b C2 b B1", "play b C1"), "=")
def captures_end_at_an_empty_point(self, right, board, colour, point):
    """Captures are looked for at one neighbour after the other, and no further once one of them is
    empty."""
    return self.dead(board, other(colour), takewhile(lambda near: near in board, self.near[point]))


@instead_of("captures", on(5, "w A1 w B1 b A2 b B2 b C1", "play b B1"), "=")
def every_second_stone_is_taken(self, right, board, colour, point):
    """Each stone that is taken is removed from the list that the loop is in, so every second one is
    passed over."""
    return set(in_order(right(board, colour, point))[::2])


@instead_of("is_free", on(5, SEVENTEEN, "play b A1"), "=")
def sixteen_stones_at_most(self, right, board, chain):
    """The list of a chain's stones has room for 16, and a longer chain is taken as alive."""
    return len(chain) > 16 or right(board, chain)


# seven stones in a row have seven liberties above, seven below and two at the ends
@instead_of("is_free", on(9, "b B5 b C5 b D5 b E5 b F5 b G5", "play b H5"), "=")
def liberties_have_four_bits(self, right, board, chain):
    """The number of a chain's liberties has four bits, so a chain with sixteen has none."""
    return len(self.liberties(board, chain)) % 16 != 0


@shown_by(on(5, "b A3 b B2 b C1 w A2 w B1 b A1", "play b A2"), "=")
class OneChainIsTaken(Bug):
    """Where a play captures two chains, the first one alone is taken off."""

    most = 1

    def captures(self, board, colour, point):
        taken = super().captures(board, colour, point)
        chains: List[Set[Point]] = []
        for near in self.near[point]:
            if near in taken and not any(near in chain for chain in chains):
                chains.append(self.chain(board, near))
        return set().union(*chains[: self.most])


@shown_by(on(5, "w B3 w D3 w C2 b A3 b B4 b B2 b E3 b D4 b D2 b C1 b C3", "play b C2"))
class TwoChainsAreTaken(OneChainIsTaken):
    """Where a play captures three chains, the first two alone are taken off."""

    most = 2


@instead_of("neighbours", on(5, "b E1 w D1 w E2", "play w E1"), "=")
def edges_are_joined(self, right, point):
    """The last point of a row is a neighbour of the first point of the next row: the array has no
    margin."""
    index = self.index(point)
    places = [index - 1, index + 1, index - self.size, index + self.size]
    return [self.point(place) for place in places if 0 <= place < self.size**2]


@shown_by(on(5, "w A1 w B2 b A2 b B1", "play b A1"), "=")
class ChainsAreSlanting(Bug):
    """Stones that touch at a corner are taken as one chain where captures are looked for."""

    def captures(self, board, colour, point):
        return {
            stone
            for stone in super().captures(board, colour, point)
            if not self.is_joined(board, stone)
        }

    def is_joined(self, board, stone):
        """Tells whether a stone of its colour that is free touches this one at a corner."""
        around = {far for near in self.near[stone] for far in self.near[near]}
        corners = [far for far in around if far[0] != stone[0] and far[1] != stone[1]]
        same = [far for far in corners if board[far] == board[stone]]
        return any(self.is_free(board, self.chain(board, far)) for far in same)


class Counted(Bug):
    """An engine that keeps the number of liberties of each chain. It is right; bugs here and
    elsewhere change it."""

    heads: Dict[Point, Point]
    free: Dict[Point, int]

    def begin(self, size):
        super().begin(size)
        self.recount()

    def recount(self):
        """Counts the liberties of all chains: `heads` has a chain's name for each stone, and `free`
        has its number."""
        self.heads, self.free = {}, {}
        for point in in_order(self.board):
            if point not in self.heads:
                chain = self.chain(self.board, point)
                self.heads.update(dict.fromkeys(chain, point))
                self.free[point] = len(self.liberties(self.board, chain))
        self.kept = self.heads, self.free

    def put(self, colour, point):
        """Returns the board after a play, by the counts, which are kept for `move`."""
        board, heads, free = Board(self.board), dict(self.heads), dict(self.free)
        board[point], heads[point] = colour, point
        own = {self.heads[near] for near in self.near[point] if board[near] == colour}
        heads.update((stone, point) for stone, head in self.heads.items() if head in own)
        free[point] = self.joined_count(board, point, own)
        for head in {self.heads[near] for near in self.near[point] if board[near] == other(colour)}:
            free[head] -= 1
            if free[head] <= 0:
                self.take(board, heads, free, head)
        self.kept = heads, free
        return board

    def joined_count(self, board, point, own):
        """Returns how many liberties the new stone's chain has, which joins these chains."""
        return len(self.liberties(board, self.chain(board, point)))

    def take(self, board, heads, free, head):
        """Removes a chain. Each chain beside a stone of it gets a liberty."""
        for stone in [stone for stone, name in heads.items() if name == head]:
            del board[stone], heads[stone]
            for beside in {
                heads[near] for near in self.near[stone] if heads.get(near, head) != head
            }:
                free[beside] += self.gained

    gained = 1

    def is_suicide(self, board, colour, point):
        heads, free = self.kept
        return free[heads[point]] <= 0

    def move(self, colour, point):
        super().move(colour, point)
        if point != PASS:
            self.heads, self.free = self.kept

    def undo(self):
        super().undo()
        self.recount()

    def place_handicap(self, points):
        super().place_handicap(points)
        self.recount()


@shown_by(on(5, "w A2 w B1 w B2 b A3 b B3 b C2 b C1", "play b A1"), "=")
class JoinedChainCountsTwice(Counted):
    """Where chains join, their numbers of liberties are added, so a liberty that both had counts
    twice."""

    def joined_count(self, board, point, own):
        new = self.liberties(board, {point})
        return len(new) + sum(self.free[head] - 1 for head in own)


@shown_by(on(5, "w A1 b B1 w A3 w B2", "play b A2"), "=")
class TakenStonesGiveNoLiberty(Counted):
    """Where stones are taken, the numbers of liberties of the chains beside them don't go up."""

    gained = 0


@instead_of("neighbours", on(5, "b A1 w A2 w B1", "play w A1"), "=")
def edges_wrap_round(self, right, point):
    """Left of column A is the last column, and below row 1 the top row: an index of -1 is an
    array's last place."""
    column, row = point
    spots = [(column - 1, row), (column + 1, row), (column, row - 1), (column, row + 1)]
    return [(x or self.size, y or self.size) for x, y in spots if x <= self.size and y <= self.size]


@instead_of("put", on(5, KO, "play w A1"), "?")
def both_chains_die(self, right, colour, point):
    """A play that captures is taken off too, with its chain, where that had no liberty before."""
    board, after = filled(self.board, [point], colour), right(colour, point)
    own = self.chain(board, point)
    return after if after == board or self.is_free(board, own) else filled(after, own)


class Named(Keeping):
    """An engine that gives names to chains. Stones of one colour that have one name are one chain
    for it. `kept_after` of a bug says what the names of points are."""

    def fresh(self):
        return {}

    def chain(self, board, point):
        found = super().chain(board, point)
        more = set() if board[point] == EMPTY else self.namesakes(board, found)
        while more:
            for stone in more:
                found |= super().chain(board, stone)
            more = self.namesakes(board, found)
        return found

    def namesakes(self, board, stones):
        """Returns the other stones of this colour that have a name of these stones."""
        names = {self.kept[stone] for stone in stones if stone in self.kept}
        colour = board[next(iter(stones))]
        return {
            stone for stone, name in self.kept.items() if name in names and board[stone] == colour
        } - stones


@shown_by(on(5, "w A1 w B1 w C1 w D1 b A2 b B2 b C2 b D2 b E1 w A1 w D1 b B1", "play b A1"), "=")
class NamesOfTakenStonesStay(Named):
    """The points of a captured chain keep its name, so stones that are put there later are taken as
    one chain."""

    def kept_after(self, before, colour, point):
        taken = removed(before, self.board)
        return {
            **self.kept,
            **{place: (len(self.moves), min(self.chain(before, place))) for place in taken},
        }


# B1 joins A1, C1 and B2, which have the liberty D1
@shown_by(on(5, "b A1 b C1 b B2 b B1 w A2 w C2 w B3", "play w B2"), "?")
class ThirdChainIsNotJoined(Keeping):
    """A play that touches three chains of its colour joins two of them, and the third stays a chain
    of its own."""

    def fresh(self):
        return {}  # the names of stones; a chain's stones have one name

    def place_handicap(self, points):
        super().place_handicap(points)
        self.kept = {point: point for point in points}

    def chain(self, board, point):
        found = super().chain(board, point)
        if board[point] == EMPTY or point not in self.kept:
            return found
        return {stone for stone in found if self.kept.get(stone) == self.kept[point]}

    def kept_after(self, before, colour, point):
        if point == PASS:
            return self.kept
        joined = list(
            dict.fromkeys(self.kept[near] for near in self.near[point] if before[near] == colour)
        )[:2]
        left = {stone: name for stone, name in self.kept.items() if self.board[stone] != EMPTY}
        own = len(self.moves)
        return {stone: own if name in joined else name for stone, name in left.items()} | {
            point: own
        }


# White's chain has the liberties A2, A4, B4, C3, C2 and B1, and A2 is beside two of its stones
@shown_by(on(5, "w A3 w B3 w B2 b A2 b A4 b B4 b C3 b C2", "play w B2"), "?")
class TouchedTwiceCountsTwice(Counted):
    """A play takes a liberty from a chain of the other colour for each stone of it that it
    touches."""

    def put(self, colour, point):
        kept = self.free
        touched = [
            self.heads[near] for near in self.near[point] if self.board[near] == other(colour)
        ]
        self.free = {head: count - max(touched.count(head) - 1, 0) for head, count in kept.items()}
        board = super().put(colour, point)
        self.free = kept
        return board


# Black's A2 and B2 get the liberties A1 and B1, and White fills A3, B3, C2 and A1
@shown_by(on(5, "w A1 w B1 b A2 b B2 b C1 w A3 w B3 w C2 w A1", "play b A2"), "?")
class TakenChainGivesOneLiberty(Counted):
    """Where a chain is taken, each chain beside it gets one liberty, however many of its stones it
    touched."""

    def take(self, board, heads, free, head):
        stones = [stone for stone, name in heads.items() if name == head]
        for stone in stones:
            del board[stone], heads[stone]
        for beside in {
            heads[near] for stone in stones for near in self.near[stone] if near in heads
        }:
            free[beside] += 1


@shown_by(on(5, "w A2 w B2 w B1 w A1 b A3 b B3 b C2 b C1", "play b A2"), "=")
class ChainJoinsItself(Keeping):
    """A chain is a ring of links. A stone that touches one chain twice is linked twice, which cuts
    the ring in two."""

    def fresh(self):
        return {}  # for each stone the next one of its ring

    def place_handicap(self, points):
        super().place_handicap(points)
        self.kept = {point: point for point in points}

    def ring(self, stone):
        """Returns the stones of a ring."""
        found = [stone]
        while self.kept[found[-1]] != stone:
            found.append(self.kept[found[-1]])
        return found

    def captures(self, board, colour, point):
        whole = super().captures(board, colour, point)
        return {stone for near in self.near[point] if near in whole for stone in self.ring(near)}

    def kept_after(self, before, colour, point):
        links = {
            stone: following for stone, following in self.kept.items() if self.board[stone] != EMPTY
        }
        if point != PASS:
            links[point] = point
            for near in [near for near in self.near[point] if self.board[near] == colour]:
                links[point], links[near] = links[near], links[point]
        return links


@shown_by(on(5, "w A2 w B1 b A3 b C1 b B2", "play b B1"), "?")
class SharedLibertyCountsOnce(Bug):
    """Points are marked where liberties are counted, and the marks stay for the next chain beside
    the same play.

    So that chain is taken where all its liberties are those of the chain before.
    """

    def captures(self, board, colour, point):
        taken: Set[Point] = set()
        marked: Set[Point] = set()
        for near in self.near[point]:
            if board[near] == other(colour) and near not in marked:
                chain = self.chain(board, near)
                free = self.liberties(board, chain)
                taken |= set() if free - marked else chain
                marked |= chain | free
        return taken


# all points but two, of which one is played then
@shown_by(
    on(
        19,
        " ".join(
            f"b {column}{row}"
            for column in "ABCDEFGHJKLMNOPQRST"
            for row in range(1, 20)
            if (column, row) not in (("A", 1), ("T", 19))
        ),
        "play w A1",
    ),
    "?",
)
class SearchHasRoomForSixteenPoints(Bug):
    """The search of a chain has room for 16 points that wait, and what finds no room isn't looked
    at further."""

    def chain(self, board, point):
        found, todo = {point}, [point]
        while todo:
            for near in self.near[todo.pop()]:
                if near not in found and board[near] == board[point]:
                    found.add(near)
                    todo += [near] if len(todo) < 16 else []
        return found


@shown_by(on(5, "b C3", "play b C3"), "?")
class OwnStoneIsPlayedAgain(Bug):
    """A play on a stone of one's own is taken: only the other side's are looked for."""

    def is_legal(self, colour, point):
        return point != PASS and self.board[point] == colour or super().is_legal(colour, point)

    def is_candidate(self, colour, point):
        return self.board[point] == EMPTY and super().is_candidate(colour, point)


# A1 takes B1, and is looked at before it
@instead_of("move", on(5, KO, "play w B1"), "=")
def first_chain_without_a_liberty_is_taken(self, right, colour, point):
    """After a play the board is looked through from A1, and the first chain without a liberty is
    taken off, the mover's own too."""
    before = self.board
    right(colour, point)
    bare = filled(before, [] if point == PASS else [point], colour)
    own = set() if point == PASS else self.chain(bare, point)
    taken = removed(before, self.board)
    if taken and not self.is_free(bare, own) and in_order([*own, *taken])[0] in own:
        self.board = filled(bare, own)
