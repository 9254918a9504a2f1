// The symbols of the file, at the left, in the order of its lines and nested as they stand there; the first lines of those around the text that is seen stay on top, and the path says the innermost.

import { code, lineOf, made } from "./lines.js";

const MOST = 3; // lines that stay
const section = document.getElementById("outline");
const stuck = document.getElementById("stuck");
const KINDS = { f: "fn", m: "member", s: "struct", g: "enum", i: "trait", t: "type", n: "mod", c: "class", v: "var", M: "macro", e: "value", P: "fn", d: "macro", C: "const" };
const RUST = { ...KINDS, c: "impl", m: "field", P: "fn" };
let symbols = []; // each with its line, its end, and its depth
let main = null;
let marked = () => 0; // the line that is marked, or 0

function rowOf(symbol, kinds) {
  const item = made("li", "");
  const link = made("a", "");
  link.href = symbol.href;
  link.style.paddingLeft = `${0.75 + 0.9 * symbol.depth}rem`;
  link.append(made("span", kinds[symbol.kind] ?? symbol.kind, "kind"), " ", made("span", symbol.name));
  item.append(link);
  return item;
}

export function fillSymbols(names) {
  const kinds = location.pathname.endsWith(".rs") ? RUST : KINDS;
  const around = [];
  symbols = names.map((name) => {
    while (around.length && around.at(-1).end < name.line) around.pop();
    const symbol = { ...name, depth: around.length };
    if (name.end > name.line) around.push(symbol);
    return symbol;
  });
  section.querySelector("ul").replaceChildren(...symbols.map((symbol) => rowOf(symbol, kinds)));
  section.querySelector(".count").textContent = names.length;
  section.hidden = !names.length;
  followSymbol();
}

// The symbols around a line, the outermost first.
function around(line) {
  return symbols.filter((symbol) => symbol.line <= line && line <= symbol.end);
}

// The line of the symbol around a line; at the beginning of one, of that around it.
export function lineAbove(line) {
  return around(line).findLast((symbol) => symbol.line < line)?.line ?? null;
}

// The line at so many pixels below the beginning of what is seen, by the middle of the lines' blocks.
function lineAt(pixels) {
  const top = main.getBoundingClientRect().top + pixels + 1;
  const first = (list) => {
    let [low, high] = [0, list.length - 1];
    while (low < high) {
      const middle = (low + high) >> 1;
      if (list[middle].getBoundingClientRect().bottom > top) high = middle;
      else low = middle + 1;
    }
    return list[low];
  };
  const block = first(code.children);
  lineOf(Number(block.dataset.first));
  return Number(first(block.children).dataset.number);
}

// The first line that nothing covers.
export function firstLine() {
  return lineAt(stuck.offsetHeight);
}

function isSeen(line) {
  const box = line && lineOf(line)?.getBoundingClientRect();
  const own = main.getBoundingClientRect();
  return Boolean(box) && box.bottom > own.top && box.top < own.bottom;
}

// Has the first lines of the symbols stay whose own ones are above what is seen, the outermost first.
function stick() {
  const most = innerHeight < 320 ? 0 : innerHeight < 450 ? 1 : MOST;
  const [top, height] = [main.getBoundingClientRect().top, parseFloat(getComputedStyle(code).lineHeight)];
  const rows = [];
  while (rows.length < most) {
    const next = around(lineAt(rows.length * height))[rows.length];
    if (!next || lineOf(next.line).getBoundingClientRect().top >= top + rows.length * height) break;
    rows.push(next);
  }
  const lines = rows.map((symbol) => symbol.line).join();
  if (lines === stuck.dataset.lines) return;
  stuck.dataset.lines = lines;
  stuck.replaceChildren(...rows.map((symbol) => {
    const row = made("div", lineOf(symbol.line).textContent, "line");
    row.dataset.number = symbol.line;
    row.addEventListener("click", () => location.assign(`#L${symbol.line}`));
    return row;
  }));
  main.style.scrollPaddingTop = `${rows.length * height + 12}px`;
}

// Marks the innermost symbol around the marked line while it's seen, else around the first one, here and in the path.
export function followSymbol() {
  if (!main || !symbols.length) return;
  stick();
  const first = firstLine();
  const line = isSeen(marked()) ? marked() : first;
  const at = symbols.indexOf(around(line).at(-1));
  const links = [...section.querySelectorAll("a")];
  const before = links.findIndex((link) => link.hasAttribute("aria-current"));
  if (before === at) return;
  links[before]?.removeAttribute("aria-current");
  links[at]?.setAttribute("aria-current", "true");
  links[at]?.scrollIntoView({ block: "nearest" });
  const symbol = document.querySelector("#crumbs .symbol");
  if (symbol) symbol.textContent = at < 0 ? "" : `› ${symbols[at].name}`;
}

export function watchSymbols(scrolled, line) {
  [main, marked] = [scrolled, line];
  let due = false;
  main.addEventListener("scroll", () => {
    if (due) return;
    due = true;
    requestAnimationFrame(() => { due = false; followSymbol(); });
  });
}
