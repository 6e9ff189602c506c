// The page of a file with games: the first one is shown, or the one that the address names.

const {games} = JSON.parse(byId("data").textContent);

const viewer = makeViewer({
  another: (game, by) => {
    const next = games[games.indexOf(game) + by];
    if (next) viewer.open(next);
  },
  moved: (game, move) => history.replaceState(null, "", `#game=${game.name}&move=${move}`),
});

function heedAddress() {
  const asked = new URLSearchParams(location.hash.slice(1));
  const game = games.find(each => each.name === asked.get("game")) || games[0];
  viewer.open(game, asked.has("move") ? Number(asked.get("move")) || 0 : undefined);
}

startShade();
showLinks();
byId("viewer").hidden = false;
byId("close").hidden = true;
for (const id of ["before", "after"]) byId(id).hidden = games.length < 2;
addEventListener("hashchange", heedAddress);
heedAddress();
