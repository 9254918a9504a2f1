"""What a page has to have for everybody, as a browser lays it out: text that can be told from its
ground, controls that can be hit, names of all that can be used, and no need to scroll sideways."""

from typing import Any, Iterator

from tests.webdriver import Page

SEEN = "checkVisibility({ visibilityProperty: true, opacityProperty: true })"
CONTRAST = f"""(() => {{
  const canvas = document.createElement('canvas');
  canvas.width = canvas.height = 1;
  const context = canvas.getContext('2d', {{ willReadFrequently: true }});
  const colour = (text) => {{
    context.clearRect(0, 0, 1, 1);
    context.fillStyle = text;
    context.fillRect(0, 0, 1, 1);
    return [...context.getImageData(0, 0, 1, 1).data];
  }};
  const part = (value) => (value / 255 <= 0.04045 ? value / 255 / 12.92 : ((value / 255 + 0.055) / 1.055) ** 2.4);
  const light = ([red, green, blue]) => 0.2126 * part(red) + 0.7152 * part(green) + 0.0722 * part(blue);
  const ground = (element) => {{
    for (; element; element = element.parentElement) {{
      const found = colour(getComputedStyle(element).backgroundColor);
      if (found[3] > 200) return found;
    }}
    return colour('Canvas');
  }};
  const least = new Map();
  const walker = document.createTreeWalker(document.body, NodeFilter.SHOW_TEXT);
  for (let node = walker.nextNode(); node; node = walker.nextNode()) {{
    const own = node.parentElement;
    if (!node.data.trim() || own.closest('script') || !own.{SEEN}) continue;
    const two = [light(colour(getComputedStyle(own).color)), light(ground(own))].sort((a, b) => b - a);
    const ratio = (two[0] + 0.05) / (two[1] + 0.05);
    const key = `${{own.tagName}}.${{own.className}}`;
    if (!(least.get(key)?.[0] <= ratio)) least.set(key, [Math.round(ratio * 100) / 100, node.data.trim().slice(0, 20)]);
  }}
  return [...least].filter(([, [ratio]]) => ratio < 4.5).map(String);
}})()"""
INLINE = "#code, #stuck, .around, .run pre, .changes, .readme, #about, #tip, .skip, .who"
TARGETS = f"""[...document.querySelectorAll('a, button, input, label, [role=option]')]
  .filter((one) => one.{SEEN} && !one.closest('{INLINE}') && !(one.matches('input') && one.closest('label')))
  .map((one) => [one, one.getBoundingClientRect()]).filter(([, box]) => box.width && (box.width < 24 || box.height < 24))
  .map(([one, box]) => `${{one.tagName}} ${{one.id}} ${{one.className}} ${{one.textContent.slice(0, 20)}} ${{box.width}} by ${{box.height}}`)"""
NAMES = """[...document.querySelectorAll('button, a[href], input, dialog, section, aside, nav, table, [role]')]
  .filter((one) => one.checkVisibility() && !['status', 'presentation'].includes(one.getAttribute('role')))
  .filter((one) => !(one.getAttribute('aria-label') || one.textContent.trim() || one.closest('label')?.textContent || one.title || one.labels?.length
    || document.getElementById(one.getAttribute('aria-labelledby'))?.textContent))
  .map((one) => one.outerHTML.slice(0, 90))"""
TWICE = "(([...ids]) => ids.filter((one, at) => ids.indexOf(one) !== at))([...document.querySelectorAll('[id]')].map((one) => one.id))"
WIDE = """[document.documentElement, document.body, ...document.querySelectorAll('header, #answers, #views')]
  .filter((one) => one?.checkVisibility() && one.scrollWidth > one.clientWidth + 1)
  .map((one) => `${one.tagName} ${one.id}: ${one.scrollWidth} in ${one.clientWidth}`)"""
HEADINGS = "document.querySelectorAll('h1').length === 1 ? [] : [document.querySelectorAll('h1').length + ' h1']"
CHECKS = {
    "text of too little contrast": CONTRAST,
    "too small to hit": TARGETS,
    "without a name": NAMES,
    "an id twice": TWICE,
    "wider than its window": WIDE,
    "headings": HEADINGS,
}


def faults(page: Page) -> Iterator[str]:
    """What is wrong with the page that is shown."""
    for what, script in CHECKS.items():
        found: list[Any] = page.run(script)
        if found:
            yield f"{what}: {found[:4]}"


SPOILT = """(() => {
  const add = (name, style, text, more) => {
    const made = Object.assign(document.createElement(name), { textContent: text, ...more });
    Object.assign(made.style, style);
    document.querySelector('header').append(made);
  };
  add('p', { color: '#999', background: '#888' }, 'grey');
  add('a', { width: '9px', height: '9px', overflow: 'hidden', display: 'block' }, 'small', { href: '/' });
  add('button', { width: '30px', height: '30px' }, '');
  add('i', {}, 'twice', { id: 'main' });
  add('p', { flex: 'none', width: '5000px' }, 'wide');
  add('h1', {}, 'another');
})()"""


def unseen(page: Page) -> list[str]:
    """The kinds of faults that aren't found on a page that is given one of each."""
    page.run(f"void {SPOILT}")
    found = [one.partition(":")[0] for one in faults(page)]
    return [what for what in CHECKS if what not in found]
