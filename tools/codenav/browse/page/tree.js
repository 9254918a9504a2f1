// The tree of files: a folder opens where it stands, and of a large one more is shown by a button.

import { made } from "./lines.js";

const MOST = 200;
const tree = document.getElementById("tree");

function item(entry) {
  const item = made("li", "");
  const link = made("a", entry.name);
  link.href = entry.href;
  item.append(link);
  return item;
}

async function more(button, fetched) {
  const [start, end] = [Number(button.dataset.start), Number(button.dataset.end)];
  const before = button.dataset.before === "true";
  const [from, to] = before ? [Math.max(start, end - MOST), end] : [start, Math.min(end, start + MOST)];
  const answer = await fetched("/list", { path: button.dataset.path, start: from, end: to });
  const place = button.parentElement;
  place[before ? "after" : "before"](...answer.entries.map(item));
  Object.assign(button.dataset, before ? { end: from } : { start: to });
  const left = Number(button.dataset.end) - Number(button.dataset.start);
  button.textContent = `${left.toLocaleString("en")} more`;
  if (left === 0) place.remove();
}

// Opens or closes a folder. Of a very large one the folder's page has the rest.
async function toggle(link, fetched) {
  const folder = link.parentElement;
  let list = folder.querySelector("ul");
  if (list) list.hidden = !list.hidden;
  else {
    list = made("ul", "");
    folder.append(list);
    const { entries } = await fetched("/list", { path: `${link.pathname.slice("/files/".length)}/`, start: 0, end: MOST });
    list.append(...entries.map(item));
    if (entries.length === MOST) list.append(item({ name: "all of it", href: link.href }));
  }
  link.setAttribute("aria-expanded", String(!list.hidden));
}

export function watchTree(fetched, say) {
  tree.addEventListener("click", (event) => {
    const isOwn = !(event.ctrlKey || event.metaKey || event.shiftKey || event.altKey);
    const isFolder = event.target.matches("a") && event.target.textContent.endsWith("/");
    if (event.target.matches("button.more")) more(event.target, fetched).catch((fault) => say(fault.message));
    if (!isFolder || !isOwn) return;
    event.preventDefault();
    toggle(event.target, fetched).catch((fault) => say(fault.message));
  });
  for (const link of tree.querySelectorAll("li > a")) if (link.textContent.endsWith("/")) link.setAttribute("aria-expanded", String(link.nextElementSibling !== null));
  tree.querySelector("[aria-current]")?.scrollIntoView({ block: "nearest" });
}
