// The field that finds files, names and the tags of the file, as one types.

import { made } from "./lines.js";

const element = (id) => document.getElementById(id);
let mode = null;
let choice = -1;
let asked = 0;

function choose(index) {
  const options = [...element("offered").children];
  choice = options.length ? (index + options.length) % options.length : -1;
  options.forEach((option, number) => option.setAttribute("aria-selected", String(number === choice)));
  options[choice]?.scrollIntoView({ block: "nearest" });
  if (choice < 0) element("wanted").removeAttribute("aria-activedescendant");
  else element("wanted").setAttribute("aria-activedescendant", options[choice].id);
}

function offer(rows) {
  element("offered").replaceChildren(...rows.map((row, index) => {
    const option = made("li", `${row.name} `);
    option.id = `offer${index}`;
    option.setAttribute("role", "option");
    option.append(made("small", row.place ?? [row.kind, row.line].filter(Boolean).join(" · ")));
    option.addEventListener("click", () => take(row.href));
    option.dataset.href = row.href;
    return option;
  }));
  element("wanted").setAttribute("aria-expanded", String(rows.length > 0));
  choose(0);
}

function take(href) {
  element("finder").close();
  mode.go(href);
}

async function type() {
  const number = ++asked;
  const text = element("wanted").value;
  try {
    const answer = await mode.rows(text);
    if (number !== asked || !element("finder").open) return;
    offer(answer.names);
    element("found").textContent = answer.said;
  } catch (fault) {
    if (number === asked) element("found").textContent = fault.message;
  }
}

function press(event) {
  const options = element("offered").children;
  if (event.key === "ArrowDown") choose(choice + 1);
  else if (event.key === "ArrowUp") choose(choice - 1);
  else if (event.key === "Enter" && options[choice]) take(options[choice].dataset.href);
  else return;
  event.preventDefault();
}

// Opens the finder: `rows` answers what a text finds, with a line about it, and `go` follows an address.
export function openFinder(label, rows, go) {
  mode = { rows, go };
  element("found").textContent = "";
  element("finder-label").textContent = label;
  element("wanted").value = "";
  offer([]);
  element("finder").showModal();
  element("wanted").focus();
  type();
}

element("wanted").addEventListener("input", type);
element("wanted").addEventListener("keydown", press);
