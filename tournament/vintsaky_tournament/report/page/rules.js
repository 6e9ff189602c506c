// The rules by which a game is shown: captures, and the point of a ko. The games were played by the
// same ones. The points of a board are numbered row by row from A1. Each is 0 where it is empty, 1
// for Black and 2 for White, and the move size * size is a pass.

const LETTERS = "ABCDEFGHJKLMNOPQRSTUVWXYZ";
const neighboursOf = new Map();  // of each size, those of each point

// Returns the points next to a point.
function neighbours(size, point) {
  if (!neighboursOf.has(size)) {
    neighboursOf.set(size, Array.from({length: size * size}, (_, at) => {
      const column = at % size, found = [];
      if (at >= size) found.push(at - size);
      if (column > 0) found.push(at - 1);
      if (column < size - 1) found.push(at + 1);
      if (at < size * (size - 1)) found.push(at + size);
      return found;
    }));
  }
  return neighboursOf.get(size)[point];
}

// Returns the points joined with one by points of its kind, and which other kinds are next to them.
function chainOf(size, points, point) {
  const chain = [point], seen = new Uint8Array(size * size), kinds = new Set();
  seen[point] = 1;
  for (const at of chain) {  // which grows
    for (const next of neighbours(size, at)) {
      if (points[next] !== points[point]) {
        kinds.add(points[next]);
      } else if (!seen[next]) {
        seen[next] = 1;
        chain.push(next);
      }
    }
  }
  return {points: chain, kinds};
}

// Returns the points of a handicap's stones.
function handicapPoints(size, stones) {
  const low = size < 13 ? 3 : 4, high = size + 1 - low, middle = (size + 1) >> 1;
  const hasCentre = stones >= 5 && stones % 2 === 1;
  const corners = [[low, low], [high, high], [low, high], [high, low]];
  const sides = [[low, middle], [high, middle], [middle, low], [middle, high]];
  const found = [...corners, ...sides].slice(0, stones - hasCentre);
  if (hasCentre) found.push([middle, middle]);
  return found.map(([column, row]) => (row - 1) * size + column - 1);
}

// Returns the position before the first move, with these stones of both sides.
function firstPosition(size, black, white, toMove) {
  const points = new Uint8Array(size * size);
  for (const point of black) points[point] = 1;
  for (const point of white) points[point] = 2;
  return {size, points, captured: [0, 0], toMove, last: null, ko: null, taken: 0, before: null};
}

// Returns the position after a move. `captured` has the stones that Black and White have captured,
// and `ko` the point on which the next move is forbidden.
function afterMove(before, move, side = before.toMove) {
  const {size} = before, points = before.points.slice(), captured = before.captured.slice();
  const after = {size, points, captured, toMove: 3 - side, last: move, ko: null, taken: 0, before};
  if (move === size * size) return after;
  points[move] = side;
  let taken = null;
  for (const next of neighbours(size, move)) {
    if (points[next] === 3 - side) {
      const chain = chainOf(size, points, next);
      if (!chain.kinds.has(0)) {
        for (const point of chain.points) points[point] = 0;
        after.taken += chain.points.length;
        taken = chain.points[0];
      }
    }
  }
  captured[side - 1] += after.taken;
  const own = chainOf(size, points, move);
  if (!own.kinds.has(0)) {  // suicide, which twogtp never has
    for (const point of own.points) points[point] = 0;
    captured[2 - side] += own.points.length;
  } else if (after.taken === 1 && own.points.length === 1) {
    const isFree = point => points[point] === 0;
    if (neighbours(size, move).filter(isFree).length === 1) after.ko = taken;
  }
  return after;
}

// Returns how a move is written.
function vertexOf(size, move) {
  return move === size * size ? "pass" : LETTERS[move % size] + (Math.floor(move / size) + 1);
}

// Returns for whom each point counts where these stones are dead: 0, 1 or 2.
function ownersOf({size, points}, dead = []) {
  const alive = new Uint8Array(points);
  for (const point of dead) alive[point] = 0;
  const found = new Uint8Array(alive), seen = new Set();
  alive.forEach((kind, point) => {
    if (kind || seen.has(point)) return;
    const region = chainOf(size, alive, point);
    const owner = region.kinds.size === 1 ? [...region.kinds][0] : 0;
    for (const at of region.points) {
      seen.add(at);
      found[at] = owner;
    }
  });
  return found;
}

// Returns the score of a position as a verdict has it.
function scoreOf(position, komi, dead = []) {
  const owners = ownersOf(position, dead), count = side => owners.filter(it => it === side).length;
  const ahead = count(1) - count(2) - Number(komi);
  return ahead ? `${ahead > 0 ? "B" : "W"}+${Math.abs(ahead)}` : "0";
}

// Returns a position as twogtp --show writes it.
function asText({size, points, captured}) {
  const lines = [];
  for (let row = size - 1; row >= 0; row--) {
    const stones = Array.from(points.subarray(row * size, (row + 1) * size), kind => ".XO"[kind]);
    lines.push([...stones, row + 1].join(" "));
  }
  lines.push([...LETTERS.slice(0, size)].join(" "));
  lines.push(`captures B ${captured[0]} W ${captured[1]}`);
  return lines.join("\n") + "\n";
}
