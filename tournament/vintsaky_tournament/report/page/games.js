// The games of the page: its data, and the table with its filter.

const ROWS = 100;  // of the table at once
const FAILED = ["time", "forfeit", "unfit", "abandoned", "late"];
let data = null, games = [], byName = new Map();
const unpacked = new Map();  // chunks of moves

// Takes the data of the page, which come anew while a run is going.
function takeData(text) {
  data = JSON.parse(text);
  const sums = steps => { let sum = 0; return steps.map(step => sum += step); };
  const numbers = sums(data.number), ended = sums(data.ended), {engines, sides} = data;
  games = numbers.map((number, place) => {
    const [black, white] = sides[number % sides.length];
    const seed = Math.floor(number / sides.length) + 1;
    return {
      place, seed, black, white, name: `${seed}_${engines[black]}_${engines[white]}`,
      verdict: data.verdicts[data.verdict[place]], kind: data.kinds[data.kind[place]],
      winner: data.winner[place], blamed: data.blamed[place] ?? null, count: data.count[place],
      spent: [data.black[place], data.white[place]], ended: data.began + ended[place],
      restarts: data.restarts[place] || [0, 0], dead: data.dead[place] || [],
      other: data.other[place] || "", files: data.files[place] ?? null,
      why: data.texts[data.why[place]] || "", tried: data.tried[place] ?? null,
      faults: (data.faults[place] || []).map(([move, side, text]) =>
        ({move, side, text: data.texts[text]})),
    };
  });
  byName = new Map(games.map(game => [game.name, game]));
  unpacked.clear();
}

// Returns the bytes of a chunk of games, which is unpacked where it is asked for the first time.
async function chunkOf(number) {
  if (!unpacked.has(number)) {
    const text = atob(byId(`moves${number}`).textContent);
    const packed = Uint8Array.from(text, character => character.charCodeAt(0));
    const unpacker = new DecompressionStream("deflate-raw");
    const stream = new Blob([packed]).stream().pipeThrough(unpacker);
    unpacked.set(number, new Uint8Array(await new Response(stream).arrayBuffer()));
  }
  return unpacked.get(number);
}

// Returns a game as the viewer takes it.
async function recordOf(game) {
  const chunk = Math.floor(game.place / data.chunk), first = chunk * data.chunk;
  const bytes = await chunkOf(chunk), {size} = data, planes = size * size > 255 ? 2 : 1;
  const countOf = some => some.reduce((sum, each) => sum + each.count, 0);
  const total = countOf(games.slice(first, first + data.chunk));
  const begin = countOf(games.slice(first, game.place)), steps = [], opener = data.handicap ? 2 : 1;
  for (let at = 0; at < game.count; at++) {
    const high = planes > 1 ? bytes[total + begin + at] : 0;
    const level = bytes[planes * total + begin + at];
    steps.push({
      side: at % 2 ? 3 - opener : opener,
      move: bytes[begin + at] + 256 * high,
      seconds: level > 1 ? data.first * data.growth ** (level - 2) : level ? 0 : null,
    });
  }
  const engines = [data.engines[game.black], data.engines[game.white]];
  const blamed = game.blamed === null ? null : `${engines[game.blamed]}: ${causeOf(game)}`;
  const other = game.other ? ` (by twogtp ${game.other})` : "";
  const again = restartsOf(game) ? `, restarts ${game.restarts.join(" / ")}` : "";
  const ended = `${game.verdict}${other}, ${game.count} moves${again}`;
  return {
    name: game.name, title: `${engines.join(" - ")}, seed ${game.seed}`, engines, size, steps,
    komi: data.komi, handicap: data.handicap, black: handicapPoints(size, data.handicap), white: [],
    first: opener, spent: game.spent, dead: game.dead, ended, result: resultOf(game),
    tried: game.tried === null ? null : {name: engines[game.blamed], move: game.tried},
    faults: game.faults, why: [blamed, game.why].filter(Boolean).join(": "), files: filesOf(game),
    atEnd: game.kind === "in play" ? "In play" : `The end: ${game.verdict}`,
  };
}

// Returns how a side failed, in the words of the tally.
function causeOf(game) {
  return game.kind === "forfeit" ? `forfeit (${game.verdict.slice(4, -1)})` : game.kind;
}

// Returns links to the log and the notes of a game in which an engine failed, where they are.
function filesOf({name, files}) {
  if (files === null) return [];
  const found = [["logs", "log"], ["notes", "notes"]].map(([kind, text], at) => {
    const href = `${data.folder}${kind}/${encodeURIComponent(name)}`;
    return files >> at & 1 ? make("a", {href, target: "_blank"}, text) : at ? null : "no log";
  });
  return found.filter(Boolean).flatMap(each => [" ", each]);
}

// Returns the result of a game as SGF has it.
function resultOf(game) {
  if (game.winner < 0) return game.verdict === "0" ? "0" : "Void";
  const points = {score: game.verdict.slice(2), resignation: "R", time: "T", late: "T"}[game.kind];
  return `${"BW"[game.winner]}+${points || "F"}`;
}

function restartsOf(game) {
  return game.restarts[0] + game.restarts[1];
}

// ---- the table

const COLUMNS = [
  {key: "seed", title: "seed", value: game => game.seed, isNumber: true},
  {key: "black", title: "Black", value: game => data.engines[game.black]},
  {key: "white", title: "White", value: game => data.engines[game.white]},
  {key: "verdict", title: "verdict", value: orderOf},
  {key: "kind", title: "end", value: game => data.kinds.indexOf(game.kind)},
  {key: "count", title: "moves", value: game => game.count, isNumber: true},
  {key: "blackSeconds", title: "s Black", value: game => game.spent[0] ?? -1, isNumber: true},
  {key: "whiteSeconds", title: "s White", value: game => game.spent[1] ?? -1, isNumber: true},
  {key: "restarts", title: "restarts", value: restartsOf, isNumber: true},
  {key: "ended", title: "ended, UTC", value: game => game.ended, isNumber: true},
];
const table = {key: "seed", isDown: false, first: 0, found: [], isBlamed: false};

// By the end of a game its verdict is sorted: who won, then who forfeited, then nobody.
const ENDS = ["score", "resignation", "time", "forfeit", "limit", "unfit", "abandoned", "late"];

// Returns a text by which verdicts are sorted: a score from Black's greatest win to White's, a draw
// between them, and then all else by its end.
function orderOf(game) {
  const isScore = ["score", "draw"].includes(game.kind), end = ENDS.indexOf(game.kind);
  const points = game.winner < 0 ? 0 : Number(game.verdict.slice(2)) * (game.winner ? 1 : -1);
  if (isScore) return `0 ${(5000 + points).toFixed(1)}`;
  return `${end < 0 ? ENDS.length : end} ${game.verdict}`;
}

// Returns whether a game is one of those that the filter asks for.
function filterOf() {
  const value = id => byId(id).value, place = id => value(id) === "" ? null : Number(value(id));
  const text = value("by-text").trim().toLowerCase(), kind = value("by-kind");
  const one = place("by-engine"), other = place("by-other"), colour = place("by-colour");
  const result = value("by-result"), least = place("by-least") ?? 0, most = place("by-most") ?? Infinity;
  return game => {
    const sides = [game.black, game.white], side = one === null ? -1 : sides.indexOf(one);
    if (one !== null && (side < 0 || colour !== null && side !== colour)) return false;
    if (one !== null && result && game.winner !== (result === "won" ? side : 1 - side)) return false;
    if (table.isBlamed && game.blamed !== side) return false;
    if (other !== null && (one === null ? !sides.includes(other) : sides[1 - side] !== other)) {
      return false;
    }
    if (kind === "failed" ? !FAILED.includes(game.kind) : kind && game.kind !== kind) return false;
    if (game.count < least || game.count > most) return false;
    return !text || `${game.name} ${game.verdict}`.toLowerCase().includes(text);
  };
}

// Shows the games that the filter asks for.
function showGames() {
  for (const id of ["by-colour", "by-result"]) byId(id).disabled = byId("by-engine").value === "";
  const {value} = COLUMNS.find(column => column.key === table.key), sign = table.isDown ? -1 : 1;
  const found = games.filter(filterOf()).map(game => [value(game), game]);
  found.sort(([x, one], [y, other]) =>
    sign * (x < y ? -1 : x > y ? 1 : 0) || one.place - other.place);
  table.found = found.map(([, game]) => game);
  const last = Math.max(0, Math.floor((table.found.length - 1) / ROWS) * ROWS);
  table.first = Math.min(table.first, last);
  showRows();
}

function showRows() {
  const {found, first} = table, active = document.activeElement;
  const focused = active && active.dataset.key;
  const body = make("tbody", {}, ...found.slice(first, first + ROWS).map(rowOf));
  const head = make("thead", {}, make("tr", {}, ...COLUMNS.map(headOf)));
  byId("list").replaceChildren(make("table", {}, head, body));
  if (focused) byId("list").querySelector(`[data-key="${focused}"]`).focus();
  byId("found").textContent = `${found.length} of ${games.length} games`;
  byId("pages").hidden = found.length <= ROWS;
  byId("page").textContent = `${first + 1} to ${Math.min(first + ROWS, found.length)}`;
  byId("earlier").disabled = first === 0;
  byId("later").disabled = first + ROWS >= found.length;
}

function headOf({key, title, isNumber}) {
  const isSorted = key === table.key, arrow = isSorted ? (table.isDown ? " ↓" : " ↑") : "";
  const button = make("button", {type: "button", "data-key": key}, title + arrow);
  const order = isSorted ? (table.isDown ? "descending" : "ascending") : null;
  return make("th", {scope: "col", class: isNumber ? "number" : null, "aria-sort": order}, button);
}

function rowOf(game) {
  const cell = (text, kind = null) => make("td", {class: kind}, text);
  const engine = (side, place) => cell(data.engines[place], game.winner === side ? "won" : null);
  const seconds = value => cell(value === null ? "" : value.toFixed(1), "number");
  const address = `#game=${encodeURIComponent(game.name)}`, hint = `the board of ${game.name}`;
  const link = data.moves ? make("a", {href: address, "aria-label": hint}, game.seed) : game.seed;
  const restarts = restartsOf(game) ? game.restarts.join(" / ") : "";
  return make("tr", {}, make("th", {scope: "row", class: "number"}, link),
    engine(0, game.black), engine(1, game.white),
    cell(game.verdict, FAILED.includes(game.kind) ? "bad" : null),
    make("td", {}, game.kind, ...(FAILED.includes(game.kind) ? filesOf(game) : [])),
    cell(game.count, "number"), ...game.spent.map(seconds), cell(restarts, "number"),
    cell(timeOf(game.ended), "number"));
}

// Returns a time in UTC, as all of the page has it.
function timeOf(seconds) {
  return new Date(1000 * seconds).toISOString().slice(0, 16).replace("T", " ");
}

// ---- the filter

function fillChoices(id, entries) {
  const before = byId(id).value, any = make("option", {value: ""}, "any");
  const choices = entries.map(([value, text]) => make("option", {value}, text));
  byId(id).replaceChildren(any, ...choices);
  byId(id).value = before;
}

function fillFilter() {
  const names = data.engines.map((name, place) => [place, name]);
  const kinds = data.kinds.filter(kind => games.some(game => game.kind === kind));
  fillChoices("by-engine", names);
  fillChoices("by-other", names);
  fillChoices("by-kind", [["failed", "any failure"], ...kinds.map(kind => [kind, kind])]);
}

// Asks for other games, from the first one on.
function change({isBlamed = false} = {}) {
  table.first = 0;
  table.isBlamed = isBlamed;
  showGames();
}

function turn(by) {
  table.first += by;
  showRows();
}

function startTable() {
  for (const id of ["filter", "list"]) byId(id).hidden = false;
  byId("filter").addEventListener("input", () => change());
  byId("filter").addEventListener("reset", () => setTimeout(change));
  byId("filter").addEventListener("submit", event => event.preventDefault());
  byId("list").addEventListener("click", event => {
    const {key} = event.target.dataset;
    if (!key) return;
    table.isDown = table.key === key && !table.isDown;
    table.key = key;
    change({isBlamed: table.isBlamed});
  });
  byId("earlier").addEventListener("click", () => turn(-ROWS));
  byId("later").addEventListener("click", () => turn(ROWS));
}
