// What a reader sets: colours, and whether single letters are keys. It's kept by the browser.

const KEPT = "codenav-settings";
const element = (id) => document.getElementById(id);
const settings = { theme: "", letters: true, ...JSON.parse(localStorage.getItem(KEPT) ?? "{}") };

function apply() {
  document.documentElement.dataset.theme = settings.theme;
  for (const input of document.querySelectorAll("input[name=theme]")) input.checked = input.value === settings.theme;
  element("letters").checked = settings.letters;
}

element("help").addEventListener("change", (event) => {
  if (event.target.name === "theme") settings.theme = event.target.value;
  else settings.letters = event.target.checked;
  localStorage.setItem(KEPT, JSON.stringify(settings));
  apply();
});
apply();

export function areLettersKeys() {
  return settings.letters;
}
