// The picture of a board.

const STEP = 20, MARGIN = 22;
const KINDS = ["", "black", "white"];

// Returns the picture of a position. `owners` has for whom each point counts, `dead` the dead
// stones, `numbers` the number of the last move on each point, and `refused` a move that wasn't
// played.
function boardOf(position, {owners = null, dead = [], numbers = null, refused = null} = {}) {
  const {size} = position, edge = 2 * MARGIN + STEP * (size - 1);
  const x = point => MARGIN + STEP * (point % size);
  const y = point => edge - MARGIN - STEP * Math.floor(point / size);
  const wood = draw("rect", {x: 0, y: 0, width: edge, height: edge, rx: 4, class: "wood"});
  const parts = [draw("title", {}, "the board"), wood, ...linesOf(size, edge)];
  position.points.forEach((kind, point) => {
    const place = {cx: x(point), cy: y(point)};
    if (kind) parts.push(draw("circle", {...place, r: 9.4, class: `stone ${KINDS[kind]}`}));
    const isDead = dead.includes(point);
    if (owners && owners[point] && (!kind || isDead)) {
      const corner = {x: x(point) - 3.5, y: y(point) - 3.5, width: 7, height: 7};
      parts.push(draw("rect", {...corner, class: `stone ${KINDS[owners[point]]}`}));
    } else if (kind && isDead) {
      parts.push(crossAt(x(point), y(point), "dead"));
    } else if (kind && numbers && numbers.has(point)) {
      const attributes = {x: x(point), y: y(point) + 3, class: `count ${KINDS[kind]}`};
      parts.push(draw("text", attributes, numbers.get(point)));
    } else if (kind && position.last === point) {
      parts.push(draw("circle", {...place, r: 4.4, class: `last ${KINDS[kind]}`}));
    }
  });
  if (position.ko !== null) {
    const corner = {x: x(position.ko) - 4, y: y(position.ko) - 4, width: 8, height: 8};
    parts.push(draw("rect", {...corner, class: "ko"}));
  }
  if (refused !== null && refused < size * size) {
    parts.push(crossAt(x(refused), y(refused), "refused"));
  }
  return draw("svg", {viewBox: `0 0 ${edge} ${edge}`, role: "img", class: "goban"}, ...parts);
}

// Returns the lines, the coordinates and the stars of a board.
function linesOf(size, edge) {
  const parts = [], end = edge - MARGIN;
  const write = (x, y, text) => parts.push(draw("text", {x, y, class: "coordinate"}, text));
  for (let at = 0; at < size; at++) {
    const place = MARGIN + STEP * at, row = end - STEP * at + 3;
    parts.push(draw("line", {x1: MARGIN, x2: end, y1: place, y2: place, class: "grain"}));
    parts.push(draw("line", {y1: MARGIN, y2: end, x1: place, x2: place, class: "grain"}));
    write(place, 10, LETTERS[at]);
    write(place, edge - 4, LETTERS[at]);
    write(8, row, at + 1);
    write(edge - 8, row, at + 1);
  }
  for (const point of size < 7 ? [] : handicapPoints(size, size % 2 ? 9 : 4)) {
    const cx = MARGIN + STEP * (point % size), cy = end - STEP * Math.floor(point / size);
    parts.push(draw("circle", {cx, cy, r: 2, class: "star"}));
  }
  return parts;
}

function crossAt(x, y, kind) {
  const path = `M${x - 5} ${y - 5}l10 10m0 -10l-10 10`;
  return draw("path", {d: path, class: kind});
}
