// The viewer of a game. A game has a name, a title, the engines, the size, the komi, the stones of
// both sides at first, and steps: each a move of a side with its seconds, or `undo`, or one that
// was `refused`, or a new `board`. Any step may have a text. A game may have `faults`, each of a
// side before a move and with a text, say `why` a side failed, have an illegal move that an engine
// `tried` at the end, and have links to `files`.

// Returns the positions of a game: at first, and after each step.
function positionsOf(game) {
  const found = [firstPosition(game.size, game.black, game.white, game.first)];
  for (const step of game.steps) {
    const now = found[found.length - 1];
    if (step.undo) {
      found.push(now.before || now);
    } else if (step.board) {
      const {size, black, white, first} = step.board;
      found.push(firstPosition(size, black, white, first));
    } else {
      const isMove = step.move !== undefined && !step.refused;
      found.push(isMove ? afterMove(now, step.move, step.side) : now);
    }
  }
  return found;
}

// Returns the positions on the way to one, the first one before all moves.
function lineTo(position) {
  const found = [];
  for (let each = position; each; each = each.before) found.unshift(each);
  return found;
}

// Returns the viewer. `another` opens a game so many places on, and `moved` is told each position.
function makeViewer({another, moved}) {
  let shown = null, timer = null;

  function open(game, move) {
    stop();
    shown = {game, positions: positionsOf(game), move: 0};
    byId("viewer-name").textContent = game.title;
    byId("players").replaceChildren(...playersOf(game, go));
    byId("slider").max = game.steps.length;
    byId("spent").replaceChildren(...secondsOf(game, go));
    const dialog = byId("viewer");
    if (dialog.showModal && !dialog.open) dialog.showModal();
    go(move === undefined ? game.steps.length : move);
    byId("slider").focus();
  }

  function go(move) {
    const {game, positions} = shown;
    shown.move = Math.max(0, Math.min(game.steps.length, move));
    const position = positions[shown.move], isLast = shown.move === game.steps.length;
    const step = shown.move ? game.steps[shown.move - 1] : {};
    const dead = isLast && game.dead || [], hasArea = byId("area").checked;
    const numbers = byId("numbers").checked ? numbersOf(position) : null;
    const owners = hasArea ? ownersOf(position, dead) : null;
    const tried = isLast && game.tried ? game.tried.move : null;
    const refused = step.refused ? step.move : tried;
    byId("slider").value = shown.move;
    for (const side of [0, 1]) {
      byId(`captured${side}`).textContent = `${position.captured[side]} captured`;
    }
    byId("board").replaceChildren(boardOf(position, {owners, dead, numbers, refused}));
    let text = textOf(game, position, shown.move);
    if (hasArea) text += `. By area: ${scoreOf(position, game.komi, dead)}`;
    byId("comment").textContent = text;
    byId("slider").setAttribute("aria-valuetext", text);
    for (const bar of byId("spent").querySelectorAll("rect")) {
      bar.classList.toggle("now", Number(bar.dataset.move) === shown.move);
    }
    moved(game, shown.move);
  }

  function stop() {
    clearInterval(timer);
    timer = null;
    document.querySelector("[data-go=play]").textContent = "▶";
  }

  function playOn() {
    if (timer) return stop();
    if (shown.move === shown.game.steps.length) go(0);
    document.querySelector("[data-go=play]").textContent = "❚❚";
    timer = setInterval(() => {
      if (shown.move < shown.game.steps.length) go(shown.move + 1); else stop();
    }, 400);
  }

  const ways = {
    first: () => go(0),
    back: () => go(shown.move - 1),
    play: playOn,
    on: () => go(shown.move + 1),
    last: () => go(shown.game.steps.length),
  };
  const keys = {
    ArrowLeft: ways.back,
    ArrowRight: ways.on,
    ArrowUp: () => go(shown.move - 10),
    ArrowDown: () => go(shown.move + 10),
    PageUp: () => go(shown.move - 10),
    PageDown: () => go(shown.move + 10),
    Home: ways.first,
    End: ways.last,
    " ": playOn,
    "[": () => another(shown.game, -1),
    "]": () => another(shown.game, 1),
    n: () => byId("numbers").click(),
    a: () => byId("area").click(),
  };

  byId("slider").addEventListener("input", () => go(Number(byId("slider").value)));
  for (const button of document.querySelectorAll("[data-go]")) {
    button.addEventListener("click", () => ways[button.dataset.go]());
  }
  for (const id of ["numbers", "area"]) byId(id).addEventListener("change", () => go(shown.move));
  byId("sgf").addEventListener("click", () => save(sgfOf(shown.game), `${shown.game.name}.sgf`));
  byId("copy").addEventListener("click", () => {
    navigator.clipboard.writeText(asText(shown.positions[shown.move]));
  });
  byId("before").addEventListener("click", () => another(shown.game, -1));
  byId("after").addEventListener("click", () => another(shown.game, 1));
  byId("viewer").addEventListener("keydown", event => {
    const isOwn = event.key === " " && event.target.closest("button, [type=checkbox]");
    const act = keys[event.key];
    if (!act || !shown || isOwn || event.ctrlKey || event.metaKey || event.altKey) return;
    event.preventDefault();
    act();
  });
  return {open, stop, shown: () => shown};
}

// Returns the two sides, how the game ended, and where engines failed in it.
function playersOf(game, go) {
  const lines = [0, 1].map(side => make("p", {class: `player ${KINDS[side + 1]}`},
    make("i"), make("strong", {}, game.engines[side]), make("span", {id: `captured${side}`}),
    make("span", {}, game.spent[side] === null ? "" : `${inSeconds(game.spent[side])} s`)));
  const buttons = faultsIn(game).map(({move, side, text}) => {
    const button = make("button", {type: "button", title: `${game.engines[side]}: ${text}`}, move);
    button.addEventListener("click", () => go(move));
    return button;
  });
  const restarts = buttons.length ? make("p", {class: "faults"}, "started again at move ") : "";
  if (restarts) restarts.append(...buttons.flatMap(button => [button, " "]));
  const files = game.files || [];
  const why = game.why || files.length ? make("p", {class: "why"}, game.why, ...files) : "";
  return [...lines, make("p", {class: "verdict"}, game.ended), why, restarts];
}

// Returns the faults after which an engine was started again, and played on.
function faultsIn(game) {
  return (game.faults || []).filter(fault => fault.move <= game.steps.length);
}

// Returns what is said of a position: the move that led to it, and what came of that.
function textOf(game, position, move) {
  const step = move ? game.steps[move - 1] : null, names = ["", "Black", "White"];
  const parts = [];
  if (!step) {
    const count = game.black.length + game.white.length;
    parts.push(count ? `${count} stones before the first move` : "The empty board");
  } else {
    const what = step.name || `${names[step.side]} ${vertexOf(position.size, step.move)}`;
    parts.push(`${move} of ${game.steps.length}: ${what}`);
    if (step.seconds != null) parts.push(`, ${inSeconds(step.seconds)} s`);
    if (step.refused) parts.push(" is refused");
    else if (step.move !== undefined && position.taken) parts.push(`, captures ${position.taken}`);
  }
  for (const fault of faultsIn(game).filter(fault => fault.move === move)) {
    parts.push(`. Before it ${game.engines[fault.side]} failed: ${fault.text}`);
  }
  if (position.ko !== null) parts.push(`; ko at ${vertexOf(position.size, position.ko)}`);
  if (step && step.text) parts.push(`. ${step.text}`);
  if (move === game.steps.length) {
    if (game.tried) parts.push(`. ${triedOn(position, game.tried)}`);
    parts.push(`. ${game.atEnd}`);
  }
  return parts.join("");
}

// Returns what is said of an illegal move.
function triedOn({size, points, ko}, {name, move}) {
  const why = points[move] ? "where a stone stood" : move === ko ? "where the ko forbids it"
    : "which the rules forbid";
  return `${name} tried ${vertexOf(size, move)}, ${why}`;
}

// Returns the number of the last move on each point.
function numbersOf(position) {
  return new Map(lineTo(position).slice(1).map((each, at) => [each.last, at + 1]));
}

// Returns the picture of the seconds of each move: Black's upwards, White's downwards.
function secondsOf(game, go) {
  const known = game.steps.map(step => step.seconds ?? 0), most = Math.max(0, ...known);
  if (!most && !faultsIn(game).length) return [];
  const width = 300, middle = 25, wide = width / known.length;
  const bars = known.map((seconds, at) => {
    const height = seconds ? Math.max(1, 24 * Math.sqrt(seconds / most)) : 0;
    const side = game.steps[at].side, y = side === 1 ? middle - height : middle;
    const place = {x: wide * at, y, width: Math.max(0.5, wide - 0.4), height};
    return draw("rect", {...place, class: `bar ${KINDS[side || 0]}`, "data-move": at + 1});
  });
  for (const {move} of faultsIn(game)) {
    const x = wide * (move - 1);
    bars.push(draw("line", {x1: x, x2: x, y1: 0, y2: 2 * middle, class: "failure"}));
  }
  const title = draw("title", {}, `the seconds of each move, up to ${inSeconds(most)}: Black's up`);
  const size = {viewBox: `0 0 ${width} 50`, preserveAspectRatio: "none", role: "img"};
  const picture = draw("svg", size, title, ...bars);
  picture.addEventListener("click", event => {
    const box = picture.getBoundingClientRect();
    go(Math.ceil((event.clientX - box.left) / box.width * known.length));
  });
  return [picture];
}

// Returns the record of a game in SGF: the moves that lead to the last position.
function sgfOf(game) {
  const positions = positionsOf(game), [first, ...line] = lineTo(positions[positions.length - 1]);
  const {size} = first, letter = at => String.fromCharCode(97 + at);
  const point = at => `[${letter(at % size)}${letter(size - 1 - Math.floor(at / size))}]`;
  const escaped = text => String(text).replace(/[\\\]:]/g, "\\$&");
  const pointsOf = kind => [...first.points.keys()].filter(at => first.points[at] === kind);
  const stones = kind => pointsOf(kind).map(point).join("");
  const head = [
    "FF[4]GM[1]CA[UTF-8]AP[Vintsaky]", `SZ[${size}]KM[${game.komi}]`,
    game.handicap ? `HA[${game.handicap}]` : "",
    stones(1) && `AB${stones(1)}`, stones(2) && `AW${stones(2)}`,
    `PB[${escaped(game.engines[0])}]PW[${escaped(game.engines[1])}]`,
    game.result ? `RE[${escaped(game.result)}]` : "",
    `GN[${escaped(game.name)}]C[${escaped(game.ended)}]`,
  ].join("");
  const nodes = line.map(each => {
    const step = game.steps[positions.indexOf(each) - 1];
    const time = step.seconds == null ? "" : `C[${inSeconds(step.seconds)} s]`;
    const move = each.last === size * size ? "[]" : point(each.last);
    return `;${"BW"[2 - each.toMove]}${move}${time}`;
  });
  return `(;${head}\n${nodes.join("")})\n`;
}

function save(text, name) {
  const address = URL.createObjectURL(new Blob([text], {type: "application/x-go-sgf"}));
  make("a", {href: address, download: name}).click();
  setTimeout(() => URL.revokeObjectURL(address), 1000);
}
