// How elements are made: their texts are texts, and never HTML.

const SVG = "http://www.w3.org/2000/svg";
const byId = id => document.getElementById(id);

// Returns an element. An attribute that is true has no value, and null or false is left out.
function make(name, attributes = {}, ...children) {
  return filled(document.createElement(name), attributes, children);
}

// Returns an element of SVG.
function draw(name, attributes = {}, ...children) {
  return filled(document.createElementNS(SVG, name), attributes, children);
}

function filled(element, attributes, children) {
  for (const [name, value] of Object.entries(attributes)) {
    if (value !== null && value !== false) element.setAttribute(name, value === true ? "" : value);
  }
  element.append(...children.filter(child => child !== null).map(child =>
    child instanceof Node ? child : document.createTextNode(child)));
  return element;
}

// Makes links of what only the script can show: games, if there are boards, and filtered ones.
function showLinks(hasBoards = true) {
  for (const link of document.querySelectorAll("a[data-to]")) {
    if (hasBoards || !link.dataset.to.startsWith("#game=")) link.href = link.dataset.to;
  }
}

// Returns seconds with two digits.
function inSeconds(seconds) {
  return seconds.toFixed(seconds >= 10 ? 0 : seconds >= 1 ? 1 : seconds >= 0.095 ? 2 : 3);
}

// Keeps a value in the browser, or returns it; null where the browser keeps none.
function remembered(key, value) {
  try {
    return value === undefined ? localStorage.getItem(key) : localStorage.setItem(key, value);
  } catch (error) {
    return null;
  }
}

// Lets a button change between dark and light.
function startShade() {
  const root = document.documentElement, kept = remembered("shade");
  if (kept === "dark" || kept === "light") root.dataset.shade = kept;
  byId("shade").hidden = false;
  byId("shade").addEventListener("click", () => {
    const asked = matchMedia("(prefers-color-scheme: dark)").matches ? "dark" : "light";
    root.dataset.shade = (root.dataset.shade || asked) === "dark" ? "light" : "dark";
    remembered("shade", root.dataset.shade);
  });
  addEventListener("beforeprint", () => {
    for (const each of document.querySelectorAll("details")) {
      each.open = !each.closest("#failures");
    }
  });
}
