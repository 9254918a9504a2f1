// Hovers. The server sends a tree of a few kinds of nodes; elements are made of it, and texts are put in as texts, never as HTML.

const ELEMENTS = new Set(["p", "h1", "h2", "h3", "h4", "h5", "h6", "ul", "ol", "li", "blockquote", "em", "strong", "s", "table", "thead", "tbody", "tr", "th", "td",
  "hr", "br", "a", "pre", "code", "span"]);
const KINDS = new Set(["comment", "keyword", "string", "number", "function", "type", "meta"]);
const tip = document.getElementById("tip");

export function built(node) {
  if (typeof node === "string") return document.createTextNode(node);
  const [name, attributes, children] = node;
  const made = document.createElement(ELEMENTS.has(name) ? name : "span");
  if (KINDS.has(attributes.class)) made.className = attributes.class;
  if (name === "a" && /^https?:\/\//i.test(attributes.href ?? "")) {
    made.href = attributes.href;
    made.rel = "noopener noreferrer";
    made.target = "_blank";
  }
  made.append(...children.map(built));
  return made;
}

export function hideTip() {
  tip.hidden = true;
}

export function showTip(answer, box) {
  tip.replaceChildren(...(answer.nodes ?? []).map(built));
  if (answer.said) {
    const said = document.createElement("p");
    said.className = "said";
    said.textContent = answer.said;
    tip.append(said);
  }
  tip.hidden = !tip.hasChildNodes();
  if (tip.hidden) return;
  const below = box.bottom + 4 + tip.offsetHeight <= innerHeight;
  tip.style.left = `${Math.max(4, Math.min(box.left, innerWidth - tip.offsetWidth - 4))}px`;
  tip.style.top = `${below ? box.bottom + 4 : Math.max(4, box.top - tip.offsetHeight - 4)}px`;
}
