// The panel of a word: what the index says of it, its definition with the lines behind it, and its references by files, a page at a time. It's kept while one goes from place to place, also from page to page.

import { made } from "./lines.js";
import { built } from "./tip.js";

const element = (id) => document.getElementById(id);
const KEPT = "codenav-panel";
const here = () => (location.pathname + location.search + location.hash).replace("&refs", "");
let ask = null; // asks the server about a word
let state = null; // the word that is shown, and the answers

function keep() {
  try {
    sessionStorage.setItem(KEPT, JSON.stringify(state));
  } catch {
    sessionStorage.removeItem(KEPT);
  }
}

// The text of a place, with the part that was found marked.
function textOf(place) {
  const text = made("code", "");
  if (place.start < 0 || place.end <= place.start) text.textContent = place.text;
  else text.append(place.text.slice(0, place.start), made("mark", place.text.slice(place.start, place.end)), place.text.slice(place.end));
  return text;
}

function row(place) {
  const link = made(place.href ? "a" : "span", "", "place");
  if (place.href) link.href = place.href;
  link.append(made("span", String(place.line), "number"), textOf(place));
  if (place.is_definition) link.append(made("span", "definition", "badge"));
  return link;
}

function heading({ file, line, href }) {
  const title = made("h3", "Definition ");
  const link = made(href ? "a" : "span", `${file}:${line}`);
  if (href) link.href = href;
  title.append(link);
  return title;
}

function drawHover() {
  const { nodes, said } = state.hover;
  element("about").replaceChildren(...(nodes ?? []).map(built));
  if (said) element("about").append(made("p", said, "said"));
}

function drawDefinition() {
  const { places, said } = state.definition;
  const [first] = places;
  element("defined").replaceChildren(...places.flatMap((place) => {
    const lines = made("div", "", "around");
    lines.append(row({ ...place, href: null }), ...(place.around ?? []).map((text, index) => row({ line: place.line + 1 + index, text, start: 0, end: 0 })));
    return [heading(place), lines];
  }));
  const notes = places.length ? said.split("; ").slice(1).join("; ") : said;
  if (notes) element("defined").append(made("p", notes, "said"));
  element("definition").hidden = !first?.href;
  if (first?.href) element("definition").href = first.href;
}

function drawReferences() {
  const { places, said, files = {}, start = 0, count = 0, size = 1 } = state.references;
  element("counted").textContent = places.length || state.only ? said : "";
  const groups = new Map();
  for (const place of places) groups.set(place.file, [...(groups.get(place.file) ?? []), place]);
  element("places").replaceChildren(...[...groups].map(([file, found]) => {
    const group = made("section", "");
    const title = made("h4", `${file} `);
    title.append(made("span", String(files[file] ?? found.length), "count"));
    const rows = made("ul", "");
    rows.append(...found.map((place) => {
      const item = made("li", "");
      item.append(row(place));
      return item;
    }));
    group.append(title, rows);
    return group;
  }));
  if (!places.length) element("places").append(made("p", said, "said"));
  element("pager").hidden = count <= size;
  element("shown").textContent = `${start + 1} to ${Math.min(start + size, count)} of ${count.toLocaleString("en")}`;
  element("before").disabled = start === 0;
  element("after").disabled = start + size >= count;
  element("only").parentElement.hidden = count < 10 && !state.only;
}

function draw() {
  element("question").textContent = state.text;
  element("only").value = state.only;
  element("answers").setAttribute("aria-busy", String(!state.references));
  for (const [part, drawn, box] of [["hover", drawHover, "about"], ["definition", drawDefinition, "defined"], ["references", drawReferences, "places"]]) {
    if (state[part]) drawn();
    else element(box).replaceChildren();
  }
  if (!state.definition) element("definition").hidden = true;
  if (!state.references) {
    element("counted").textContent = "";
    element("pager").hidden = element("only").parentElement.hidden = true;
    element("places").append(made("p", state.fault ?? "Asking the index …", state.fault ? "said bad" : "said"));
    if (state.fault) element("places").append(made("button", "Ask again", "again"));
  }
  element("answers").hidden = false;
  current();
}

// Asks the three questions about a word, one after the other, and shows each answer when it's there.
async function askAll(own) {
  try {
    for (const what of ["hover", "definition", "references"]) {
      own[what] = await ask(own.word, what, what === "references" ? { start: own.start, only: own.only } : {}, own.page === location.pathname + location.search ? undefined : own.page);
      if (own !== state) return null;
      draw();
    }
    keep();
  } catch (fault) {
    if (own !== state) return null;
    own.fault = fault.message;
    draw();
  }
  return own;
}

// Opens the panel of a word: `question` asks the server about it.
export function openPanel(word, text, question, page = location.pathname + location.search) {
  ask = question;
  state = { page, word, text, start: 0, only: "", hover: null, definition: null, references: null };
  draw();
  element("answers").scrollTop = 0;
  return askAll(state);
}

// Shows another page of the references, or those of some paths alone.
export async function turn(change) {
  if (!state?.references) return;
  const own = state;
  Object.assign(own, change);
  own.references = await ask(own.word, "references", { start: own.start, only: own.only }, own.page);
  if (own !== state) return;
  drawReferences();
  markCurrent();
  keep();
}

export function closePanel() {
  sessionStorage.removeItem(KEPT);
  state = null;
  element("answers").hidden = true;
}

export function isOpen() {
  return !element("answers").hidden;
}

// Whether the panel is that of a word of this page.
export function isOf(word) {
  return state !== null && state.page === location.pathname + location.search && word?.line === state.word.line && word.start === state.word.start;
}

// Shows the panel again on the page of one of its places.
export function restorePanel(question) {
  const kept = state ?? JSON.parse(sessionStorage.getItem(KEPT) ?? "null");
  if (!kept) return;
  const places = [...(kept.definition?.places ?? []), ...(kept.references?.places ?? [])];
  const own = `${kept.page}#L${kept.word.line}C${kept.word.start + 1}`;
  if (own !== here() && !places.some((place) => place.href === here())) return closePanel();
  ask = question;
  state = kept;
  draw();
  markCurrent();
}

function links() {
  return [...document.querySelectorAll("#places a.place")];
}

// The link of the list that leads to where one is; it's marked.
function current() {
  const found = links().find((link) => link.getAttribute("href") === here());
  for (const link of links()) link.toggleAttribute("aria-current", link === found);
  return found;
}

export function markCurrent() {
  current()?.scrollIntoView({ block: "nearest" });
}

// The address of the next place of the list in a direction, of the next page where this one ends, or null.
export async function nextPlace(step) {
  if (!isOpen() || !links().length) return null;
  const { start, size, count } = state.references;
  const all = links();
  const focused = all.indexOf(document.activeElement);
  const at = focused >= 0 ? focused : all.indexOf(current());
  const next = at < 0 && step < 0 ? all.length - 1 : at + step;
  if (all[next]) return all[next].getAttribute("href");
  const last = Math.floor((count - 1) / size) * size;
  const wanted = next < 0 ? (start === 0 ? last : start - size) : (start === last ? 0 : start + size);
  await turn({ start: wanted });
  return links().at(next < 0 ? -1 : 0)?.getAttribute("href") ?? null;
}

export function moveFocus(step) {
  const all = links();
  all[all.indexOf(document.activeElement) + step]?.focus();
}

export function focusList() {
  (current() ?? links()[0] ?? element("question")).focus();
}

const page = (step) => turn({ start: state.start + step * state.references.size }).then(() => links()[0]?.scrollIntoView({ block: "nearest" }));
element("before").addEventListener("click", () => page(-1));
element("after").addEventListener("click", () => page(1));
element("only").addEventListener("input", (event) => turn({ only: event.target.value, start: 0 }));
element("places").addEventListener("click", (event) => {
  if (event.target.matches(".again")) openPanel(state.word, state.text, ask, state.page);
});
