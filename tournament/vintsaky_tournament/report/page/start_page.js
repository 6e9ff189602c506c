// The page of a tournament: the viewer in a dialog, and what the address asks for.

const viewer = makeViewer({
  another: (game, by) => {
    const place = table.found.findIndex(each => each.name === game.name);
    if (place >= 0 && table.found[place + by]) openGame(table.found[place + by]);
  },
  moved: (game, move) => {
    history.replaceState(null, "", `#game=${encodeURIComponent(game.name)}&move=${move}`);
  },
});

async function openGame(game, move) {
  if (!data.moves) return;
  let record = null;
  try {
    record = await recordOf(game);
  } catch (error) {
    alert("This browser can't unpack moves. tournament export FOLDER --sgf RECORDS writes them.");
    return;
  }
  viewer.open(record, move);
}

// Does what the address asks for: a game, or a filter.
function heedAddress() {
  const asked = new URLSearchParams(location.hash.slice(1));
  if (asked.has("game")) {
    const game = byName.get(asked.get("game"));
    if (game) openGame(game, asked.has("move") ? Number(asked.get("move")) || 0 : undefined);
    return;
  }
  byId("viewer").close();  // of a game that the address before has named
  if (asked.has("engine")) {
    const place = name => data.engines.includes(name) ? data.engines.indexOf(name) : "";
    for (const id of ["by-colour", "by-result", "by-text", "by-least", "by-most"]) byId(id).value = "";
    byId("by-engine").value = place(asked.get("engine"));
    byId("by-other").value = place(asked.get("other"));
    byId("by-kind").value = asked.get("kind") || "";
    change({isBlamed: asked.has("blamed")});
    byId("games").scrollIntoView();
  }
}

const playing = root => [...root.querySelectorAll(".playing .game")];
const smallBoardOf = link => link.parentNode.querySelector(".mini");

// Shows small boards of the games in play.
async function showPlaying() {
  if (!data.moves) return;
  for (const link of playing(document)) {
    const game = byName.get(link.textContent);
    if (game) {
      const positions = positionsOf(await recordOf(game));
      const small = boardOf(positions[positions.length - 1]), before = smallBoardOf(link);
      small.classList.add("mini");
      if (before) before.replaceWith(small); else link.parentNode.append(small);
    }
  }
}

function showData() {
  takeData(byId("data").textContent);
  showLinks(data.moves);
  fillFilter();
  showGames();
  showPlaying().catch(() => null);
}

// ---- a page that is served: it asks whether there is something new

const PAUSE = 3000;  // milliseconds
const sectionOf = details => details.closest("[data-live]").id;
const nameOf = details => `${sectionOf(details)} ${details.textContent.slice(0, 60)}`;

async function textOfServer(path) {
  const answer = await fetch(path, {cache: "no-store"});
  if (!answer.ok) throw new Error(path);
  return answer.text();
}

// Replaces the sections and the data of the page. Place, filter and what is open stay.
async function replaceParts() {
  const fresh = new DOMParser().parseFromString(await textOfServer("page"), "text/html");
  const open = [...document.querySelectorAll("[data-live] details[open]")].map(nameOf);
  // small boards stay until there are new ones
  const boards = new Map(playing(document).map(link => [link.textContent, smallBoardOf(link)]));
  for (const link of playing(fresh)) link.parentNode.append(boards.get(link.textContent) || "");
  const sections = [...fresh.querySelectorAll("[data-live]")].map(it => document.adoptNode(it));
  document.querySelectorAll("[data-live], script[id^=moves]").forEach(it => it.remove());
  byId("games").before(...sections);
  for (const each of document.querySelectorAll("[data-live] details")) {
    each.open = open.includes(nameOf(each));
  }
  document.querySelector("nav").replaceWith(document.adoptNode(fresh.querySelector("nav")));
  const moves = [...fresh.querySelectorAll("script[id^=moves]")];
  byId("data").after(...moves.map(it => document.adoptNode(it)));
  byId("data").textContent = fresh.getElementById("data").textContent;
  showData();
  const shown = byId("viewer").open && viewer.shown(), game = shown && byName.get(shown.game.name);
  if (game && (game.count !== shown.game.steps.length || game.kind !== "in play")) {
    const isLast = shown.move === shown.game.steps.length;
    await openGame(game, isLast ? undefined : shown.move);
  }
}

async function refresh(stamp) {
  try {
    const now = await textOfServer("stamp");
    if (stamp !== null && now !== stamp) await replaceParts();
    stamp = now;
    document.documentElement.classList.remove("lost");
  } catch (error) {
    document.documentElement.classList.add("lost");
  }
  setTimeout(refresh, PAUSE, stamp);
}

startShade();
startTable();
showData();
byId("close").addEventListener("click", () => byId("viewer").close());
byId("viewer").addEventListener("close", () => {
  viewer.stop();
  if (location.hash.startsWith("#game=")) history.replaceState(null, "", "#games");
});
byId("viewer").addEventListener("click", event => {
  if (event.target === byId("viewer")) byId("viewer").close();
});
addEventListener("hashchange", heedAddress);
// a link to the address that is there already changes none
document.addEventListener("click", event => {
  const link = event.target.closest("a");
  if (link && link.hash && link.href === location.href) heedAddress();
});
heedAddress();
if (document.documentElement.hasAttribute("data-served")) refresh(null);
