// The lines of the file that is shown. Their elements are made when they come near the window: up to then a block of a hundred is one text.

const WORD = /[\p{L}\p{N}_]+/gu;
const BLOCK = 100;
const AHEAD = "1500px";
const element = (id) => document.getElementById(id);

export const code = element("code");
const blocks = code ? [...code.children] : [];
const colours = { kinds: [], lines: [] };
const unknown = new Map();
let label = "";
let marked = null;

export function made(name, text, className) {
  const made = document.createElement(name);
  made.textContent = text;
  if (className) made.className = className;
  return made;
}

// A block's lines

function render(block) {
  if (block.rendered) return;
  const texts = block.textContent.split("\n");
  texts.pop();
  const first = Number(block.dataset.first);
  block.replaceChildren(...texts.map((text, index) => {
    const line = made("span", "", "line");
    line.id = `L${first + index}`;
    line.dataset.number = first + index;
    fill(line, text);
    return line;
  }));
  block.rendered = true;
}

// The address of a word's link: the server leads on to its definition.
function linkTo(place) {
  return `${location.pathname}${location.search}${location.search ? "&" : "?"}at=${place.line}.${place.start + 1}`;
}

// The parts of a line that have a colour or that the index doesn't know: each its start, its end and its class.
function partsOf(number) {
  const parts = [];
  let at = 0;
  const found = colours.lines[number - 1] ?? [];
  for (let index = 0; index < found.length; index += 3) {
    const start = at + found[index];
    at = start + found[index + 1];
    parts.push([start, at, colours.kinds[found[index + 2]]]);
  }
  for (const [start, length] of unknown.get(number) ?? []) parts.push([start, start + length, "new"]);
  return parts;
}

// The element of a word: a link, unless the index doesn't know it; the word that is marked is the one that Tab comes to.
function wordElement(place) {
  const isMarked = marked?.line === place.line && marked.start === place.start;
  const word = made(isUnknown(place) ? "span" : "a", "", "word");
  if (isMarked) word.id = "word";
  word.tabIndex = isMarked ? 0 : -1;
  if (word.tagName === "SPAN") return word;
  word.href = linkTo(place);
  word.draggable = false;
  return word;
}

// The text of a line, as elements for its words and for what has a colour.
function fill(line, text) {
  const number = Number(line.dataset.number);
  const parts = partsOf(number);
  const words = wordsIn(number, text);
  const cuts = [...new Set([0, text.length, ...[...parts, ...words.map(({ start, end }) => [start, end])].flatMap(([start, end]) => [start, end])])].sort((a, b) => a - b);
  const nodes = [];
  let next = 0, word = null;
  for (let index = 0; index + 1 < cuts.length; index += 1) {
    const [start, end] = [cuts[index], cuts[index + 1]];
    if (words[next]?.end <= start) [next, word] = [next + 1, null];
    const classes = parts.filter((part) => part[0] <= start && end <= part[1]).map((part) => part[2]).join(" ");
    const node = classes ? made("span", text.slice(start, end), classes) : document.createTextNode(text.slice(start, end));
    if (words[next]?.start <= start) {
      if (!word) nodes.push(word = wordElement(words[next]));
      word.append(node);
    } else nodes.push(node);
  }
  const hadFocus = line.contains(document.activeElement);
  line.replaceChildren(...nodes);
  if (hadFocus) line.querySelector("#word")?.focus({ preventScroll: true });
}

// What comes behind the text of the page: the colours, and the words that the index doesn't know.
export function learn() {
  const read = (id) => JSON.parse(element(id)?.textContent ?? "null");
  const found = read("unknown");
  for (const [line, ...numbers] of found?.lines ?? []) {
    const words = [];
    for (let index = 0; index < numbers.length; index += 2) words.push([numbers[index], numbers[index + 1]]);
    unknown.set(line + 1, words);
  }
  label = found?.label ?? "";
  Object.assign(colours, read("colours") ?? {});
  for (const block of blocks) if (block.rendered) for (const line of block.children) fill(line, line.textContent);
}

export function watch(root) {
  const observer = new IntersectionObserver((entries) => {
    for (const entry of entries) if (entry.isIntersecting) {
      render(entry.target);
      observer.unobserve(entry.target);
    }
  }, { root, rootMargin: `${AHEAD} 0px` });
  for (const block of blocks) {
    if (!block.rendered) block.textContent = block.textContent; // its links would be stops of Tab
    observer.observe(block);
  }
}

// Lines and words; a word is { line, start, end }, the line from 1, characters from 0 in UTF-16 code units

export function lineOf(number) {
  const block = blocks[Math.floor((number - 1) / BLOCK)];
  if (!block) return null;
  render(block);
  return element(`L${number}`);
}

export function wordsOf(number) {
  const line = lineOf(number);
  return line ? wordsIn(number, line.textContent) : [];
}

function wordsIn(number, text) {
  return [...text.matchAll(WORD)].map((found) => ({ line: number, start: found.index, end: found.index + found[0].length }));
}

export function wordAt(number, character) {
  return wordsOf(number).find((place) => place.start <= character && character <= place.end) ?? null;
}

export function isUnknown(place) {
  return (unknown.get(place.line) ?? []).some(([start]) => start === place.start);
}

export function setUnknown(place) {
  unknown.set(place.line, [...(unknown.get(place.line) ?? []), [place.start, place.end - place.start]]);
  const line = lineOf(place.line);
  fill(line, line.textContent);
}

export function indexLabel() {
  return label;
}

// Marks the lines from one to another as those that are shown.
export function markLines(first, last) {
  for (const line of document.querySelectorAll(".line.here")) line.classList.remove("here");
  for (let number = first; number <= last && lineOf(number); number += 1) lineOf(number).classList.add("here");
}

export function mark(place, focus) {
  const before = marked && lineOf(marked.line);
  marked = place;
  if (before) fill(before, before.textContent);
  if (!place) return;
  markLines(place.line, place.line);
  const line = lineOf(place.line);
  fill(line, line.textContent);
  if (focus) element("word").focus({ preventScroll: true });
  element("word").scrollIntoView({ block: "nearest", inline: "nearest" });
}

export function textOf(place) {
  return lineOf(place.line).textContent.slice(place.start, place.end);
}

export function rangeOf(place) {
  const line = lineOf(place.line);
  const range = document.createRange();
  const walker = document.createTreeWalker(line, NodeFilter.SHOW_TEXT);
  let passed = 0;
  for (let node = walker.nextNode(); node; node = walker.nextNode()) {
    const length = node.length;
    if (passed <= place.start && place.start < passed + length) range.setStart(node, place.start - passed);
    if (passed < place.end && place.end <= passed + length) range.setEnd(node, place.end - passed);
    passed += length;
  }
  return range;
}

export function wordAtPoint(x, y) {
  const caret = document.caretPositionFromPoint?.(x, y);
  const range = caret ? null : document.caretRangeFromPoint?.(x, y);
  const [node, offset] = caret ? [caret.offsetNode, caret.offset] : [range?.startContainer, range?.startOffset];
  const line = node?.parentElement?.closest(".line");
  if (!line || node.nodeType !== Node.TEXT_NODE) return null;
  const before = document.createRange();
  before.setStart(line, 0);
  before.setEnd(node, offset);
  const place = wordAt(Number(line.dataset.number), before.toString().length);
  if (!place) return null;
  const box = rangeOf(place).getBoundingClientRect();
  return box.left <= x && x <= box.right && box.top <= y && y <= box.bottom ? place : null;
}

// The next word in a direction
export function beside(word, key) {
  const number = word ? word.line : 1;
  const words = wordsOf(number);
  const index = word ? words.findIndex((place) => place.start === word.start) : -1;
  const next = { ArrowLeft: words[index - 1], ArrowRight: words[index + 1] }[key];
  if (next) return next;
  const step = key === "ArrowLeft" || key === "ArrowUp" ? -1 : 1;
  for (let line = number + step; lineOf(line); line += step) {
    const found = wordsOf(line);
    if (found.length && key === "ArrowLeft") return found[found.length - 1];
    if (found.length && key === "ArrowRight") return found[0];
    if (found.length) return found.find((place) => word && place.end > word.start) ?? found[found.length - 1];
  }
  return null;
}
