// Asks at words of the file that is shown. Everything that comes from the index or the files is put in as text, never as HTML.

import { openFinder } from "./finder.js";
import { beside, code, indexLabel, isUnknown, learn, lineOf, mark, markLines, rangeOf, setUnknown, textOf, watch, wordAt, wordAtPoint } from "./lines.js";
import { closePanel, focusList, isOf, isOpen, moveFocus, nextPlace, openPanel, restorePanel } from "./panel.js";
import { areLettersKeys } from "./settings.js";
import { fillSymbols, firstLine, followSymbol, lineAbove, watchSymbols } from "./symbols.js";
import { hideTip, showTip } from "./tip.js";
import { watchTree } from "./tree.js";

const HOVER_WAIT = 250; // milliseconds
const NUMBER_WIDTH = 56; // pixels, 3.5rem
const SAID = 4000; // milliseconds
const MOST_LINES = 5000; // of a range that is marked
const PLACE = /^#L([1-9]\d*)(?:C([1-9]\d*))?(?:-L([1-9]\d*))?(&refs)?$/;
const element = (id) => document.getElementById(id);
const main = element("main");
const tip = element("tip");
const searchAddress = document.body.dataset.search;
const revision = new URLSearchParams(location.search).get("revision") ?? "";
let word = null; // the word that is asked about
let range = null; // the first and the last line that the address names
let quiet = 0;
let opener = null; // the link that opened the panel on a page that isn't a file's text

// What is said stays seen for some seconds; what the panel shows is told to readers of screens alone.
function say(text, isSeen = true) {
  element("status").textContent = text ?? "";
  element("status").classList.toggle("seen", Boolean(text) && isSeen);
  clearTimeout(quiet);
  quiet = setTimeout(() => element("status").classList.remove("seen"), SAID);
}

// The path of a file is sent as it stands in addresses, since a name may be no UTF-8.
async function fetched(path, { path: name, ...parameters }, of = revision) {
  const query = new URLSearchParams(of ? { ...parameters, revision: of } : parameters);
  const own = name === undefined ? "" : `path=${name.replace(/[&+;]/g, encodeURIComponent)}&`;
  const response = await fetch(`${path}?${own}${query}`);
  const answer = await response.json();
  if (!response.ok) throw new Error(answer.fault);
  return answer;
}

function at(place, path = code.dataset.path) {
  return { path, line: place.line - 1, character: place.start };
}

function show(place, focus) {
  word = place;
  mark(place, focus);
  followSymbol();
  if (place && isUnknown(place)) say(`not in ${indexLabel() || "the text that was indexed"}`);
}

// Places in the address

function hashOf(place) {
  return `#L${place.line}C${place.start + 1}`;
}

function follow() {
  const today = document.querySelector("#crumbs .today");
  if (today) today.hash = location.hash;
  const parts = PLACE.exec(location.hash);
  if (!code || !parts) return;
  const number = Number(parts[1]);
  const line = lineOf(number);
  if (!line) return say(`There is no line ${number}.`);
  range = [number, Math.min(Math.max(Number(parts[3] ?? number), number), number + MOST_LINES)];
  line.scrollIntoView({ block: "center", inline: "nearest" });
  show(parts[2] ? wordAt(number, Number(parts[2]) - 1) : null, true);
  markLines(...range);
  followSymbol();
  if (parts[4] && word && !isOf(word)) panel();
  else restorePanel(question);
  if (isOpen()) seen();
}

function go(href) {
  if (href === location.pathname + location.search + location.hash) follow();
  else location.assign(href);
}

// Has the word in sight beside the panel.
function seen() {
  element("word")?.scrollIntoView({ block: "nearest", inline: "nearest" });
}

// Questions and answers

async function question(place, what, more, page) {
  const [path, query] = (page ?? location.pathname + location.search).split("?");
  const answer = await fetched("/ask", { what, ...more, ...at(place, path.slice("/files/".length)) }, new URLSearchParams(query).get("revision") ?? "");
  if (answer.is_new && !page) setUnknown(place);
  return answer;
}

// Opens the panel of the word: a first click adds a step to go back by, others replace it.
async function panel() {
  if (!word || isUnknown(word)) return;
  hideTip();
  const hash = `${hashOf(word)}&refs`;
  if (location.hash !== hash) history[isOpen() || location.hash.startsWith(hashOf(word)) ? "replaceState" : "pushState"](null, "", hash);
  const asked = openPanel(word, textOf(word), question);
  seen();
  const answers = await asked;
  if (answers) say(answers.references?.said ?? answers.fault, false);
}

async function definition() {
  if (!isOf(word)) await panel();
  const link = element("definition");
  if (!isOpen() || link.hidden) return;
  if (link.getAttribute("href") === location.pathname + location.search + hashOf(word)) return say("This is the definition.");
  go(link.getAttribute("href"));
}

async function references() {
  if (word && !isOf(word) && !isOpen()) await panel();
  if (isOpen()) focusList();
}

const hovers = new Map();

async function hoverOf(place) {
  const key = hashOf(place);
  if (!hovers.has(key)) {
    hovers.set(key, fetched("/ask", { what: "hover", ...at(place) }).catch((fault) => { hovers.delete(key); say(fault.message); return { fault: fault.message }; }));
  }
  return hovers.get(key);
}

async function hover(place, box, key) {
  const answer = await hoverOf(place);
  if (!key || key === under) showTip(answer, box);
  return answer;
}

async function hoverHere() {
  const marked = element("word");
  if (!marked) return;
  clearTimeout(timer);
  marked.setAttribute("aria-describedby", "tip");
  const answer = await hover(word, marked.getBoundingClientRect());
  if (tip.hidden) say(answer.fault ?? "Nothing is said of it.");
}

// Closes one thing at a time: the hover, the drawer, the panel.
function close() {
  if (!tip.hidden) return leave();
  if (document.body.classList.contains("drawer")) return toggle();
  closePanel();
  if (location.hash.endsWith("&refs")) history.replaceState(null, "", location.hash.replace("&refs", ""));
  (element("word") ?? opener)?.focus({ preventScroll: true });
}

// The left is hidden, or in a narrow window a drawer over the text.
function toggle() {
  const isNarrow = matchMedia("(max-width: 56rem)").matches;
  const isShown = document.body.classList.toggle(isNarrow ? "drawer" : "no-side") === isNarrow;
  element("toggle").setAttribute("aria-expanded", String(isShown));
  if (isNarrow && isShown) element("side").querySelector("a")?.focus();
}

function symbols() {
  const isHidden = getComputedStyle(element("side")).visibility === "hidden";
  if (isHidden) toggle();
  (document.querySelector("#outline [aria-current]") ?? document.querySelector("#outline a"))?.focus();
}

function search(event) {
  event?.preventDefault();
  const text = word ? encodeURIComponent(textOf(word)) : "";
  if (text && searchAddress) window.open(searchAddress.replace("{}", text), "_blank", "noopener");
  else location.assign(`/search?text=${text}${revision ? `&revision=${encodeURIComponent(revision)}` : ""}`);
}

// A word of a page that isn't a file's text: its link says where it is.
function clickElsewhere(event) {
  const link = event.target.closest("a[href]");
  const url = link && new URL(link.href);
  const [line, column] = (url?.searchParams.get("at") ?? "").split(".").map(Number);
  if (!column || event.ctrlKey || event.metaKey || event.altKey || event.shiftKey) return;
  event.preventDefault();
  if (!getSelection().isCollapsed) return;
  opener = link;
  const of = url.searchParams.get("revision");
  const place = { line, start: column - 1, end: column - 1 + link.textContent.length };
  openPanel(place, link.textContent, question, url.pathname + (of ? `?revision=${encodeURIComponent(of)}` : ""))
    .then((answers) => answers && say(answers.references?.said ?? answers.fault, false));
}

function up() {
  const line = lineAbove(word?.line ?? range?.[0] ?? firstLine(), Boolean(word));
  if (line) go(`${location.pathname}${location.search}#L${line}`);
}

async function address() {
  if (!code) return;
  const [first, last] = range ?? [1, 1];
  const place = word ?? { line: first, start: 0 };
  try {
    const answer = await fetched("/address", at(place));
    let whole = location.origin + answer.href;
    if (word && isOpen()) whole += "&refs";
    else if (!word) whole = whole.replace(/C1$/, "");
    if (last > first) whole += `-L${(await fetched("/address", at({ line: last, start: 0 }))).href.match(/#L(\d+)/)[1]}`;
    try {
      await navigator.clipboard.writeText(whole);
      say(answer.said);
    } catch {
      say(whole);
    }
  } catch (fault) {
    say(fault.message);
  }
}

// Finders

function findFile() {
  openFinder("File, by some letters of its name", (text) => fetched("/find", { text }), go);
}

// Behind the names, one row leads to the page of all that has the text.
function withTexts(text, answer) {
  const of = revision ? `&revision=${encodeURIComponent(revision)}` : "";
  return { ...answer, names: [...answer.names, { name: `Texts with ${text}`, place: "", href: `/search?text=${encodeURIComponent(text)}${of}` }] };
}

function findName() {
  const own = code ? { path: code.dataset.path } : {};
  openFinder("Name, by a part of it", async (text) => (text ? withTexts(text, await fetched("/names", { prefix: text, ...own })) : { names: [], said: "" }), go);
}

// Mouse and keys

let timer = 0;
let under = null; // the word under the mouse, as its place in the address

function leave() {
  clearTimeout(timer);
  under = null;
  hideTip();
}

// What is shown stays while the mouse goes from the word to it.
function over(event) {
  const found = wordAtPoint(event.clientX, event.clientY);
  const place = found && !isUnknown(found) ? found : null;
  const key = place && hashOf(place);
  code.classList.toggle("on-word", Boolean(place));
  if (key === under) return;
  under = key;
  clearTimeout(timer);
  timer = setTimeout(place ? () => hover(place, rangeOf(place).getBoundingClientRect(), key) : leave, HOVER_WAIT);
}

function click(event) {
  const isOwn = !(event.ctrlKey || event.metaKey || event.altKey);
  const line = event.target.closest(".line");
  if (line && event.clientX < line.getBoundingClientRect().left + NUMBER_WIDTH) {
    const [first, last] = [Number(line.dataset.number), range?.[0] ?? 0].sort((a, b) => a - b);
    return go(`${location.pathname}${location.search}${event.shiftKey && first > 0 ? `#L${first}-L${last}` : `#${line.id}`}`);
  }
  if (!isOwn || event.shiftKey && event.target.closest("a")) return;
  event.preventDefault();
  if (!getSelection().isCollapsed) return;
  const place = wordAtPoint(event.clientX, event.clientY);
  if (!place) return;
  leave();
  show(place, true);
  panel();
}

async function step(direction) {
  const href = await nextPlace(direction);
  if (href) go(href);
}

const KEYS = {
  f: findFile, "/": findName, b: toggle, o: symbols, d: definition, r: references, h: hoverHere, s: search, y: address,
  n: () => step(1), p: () => step(-1), u: up, x: () => element("larger").click(), "?": () => element("help").showModal(),
};

function press(event) {
  if (event.ctrlKey || event.altKey || event.metaKey || event.target.closest("dialog[open]")) return;
  if (event.key === "Escape") return close();
  if (event.target.matches("input") && !event.target.closest("dialog")) return; // a dialog that was closed keeps the focus up to the next frame
  const inCode = code?.contains(event.target);
  const inList = element("places").contains(event.target);
  if (Object.hasOwn(KEYS, event.key)) {
    if (!areLettersKeys()) return;
    KEYS[event.key]();
  } else if (event.key === "Enter" && word && inCode) panel();
  else if (inCode && event.key.startsWith("Arrow")) show(beside(word, event.key) ?? word, true);
  else if (inList && (event.key === "ArrowDown" || event.key === "ArrowUp")) moveFocus(event.key === "ArrowDown" ? 1 : -1);
  else return;
  event.preventDefault();
}

const CLICKS = { toggle, files: findFile, names: findName, search, address, keys: KEYS["?"], close, larger: () => { document.body.classList.toggle("larger"); seen(); } };
for (const [id, action] of Object.entries(CLICKS)) element(id).addEventListener("click", action);
document.addEventListener("keydown", press);
addEventListener("hashchange", follow);
addEventListener("popstate", () => { if (!location.hash.endsWith("&refs")) restorePanel(question); });
watchTree(fetched, say);
if (!code) main.addEventListener("click", clickElsewhere);
if (code) {
  element("address").disabled = false;
  code.addEventListener("click", click);
  code.addEventListener("mousemove", over);
  code.addEventListener("mouseleave", () => { clearTimeout(timer); timer = setTimeout(leave, HOVER_WAIT); });
  tip.addEventListener("mouseenter", () => clearTimeout(timer));
  tip.addEventListener("mouseleave", leave);
  main.addEventListener("scroll", leave);
  watch(main);
  follow();
  watchSymbols(main, () => word?.line ?? range?.[0] ?? 0);
  fetched("/outline", { path: code.dataset.path }).then(({ names }) => fillSymbols(names), () => {});
  const learnt = () => { learn(); if (word) show(word, false); };
  if (document.readyState === "loading") document.addEventListener("DOMContentLoaded", learnt);
  else learnt();
}
document.documentElement.dataset.ready = "yes";
