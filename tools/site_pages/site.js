// What the words of the notation mean, by READING's table: for each one the form that it is of, and a text.
const NOTATION = {};
for (const [forms, meaning] of ROWS) {
  const names = [...forms.matchAll(/`([^`]+)`/g)].map((found) => found[1]), meanings = meaning.split(/[,;] /);
  const each = names.length > 2 && names.length === meanings.length ? meanings : names.map(() => meaning);
  names.forEach((name, at) => {
    for (const [word] of name.matchAll(/[\p{L}][\w]+|[^\w\s(){}.,:=*<>⟦⟧]+/gu)) NOTATION[word] ||= [name, each[at]];
  });
}

// Boxes of definitions: each file of definitions has a script with its boxes, which is loaded when one of them is opened.
const BOXES = {};
function addBoxes(found) { Object.assign(BOXES, found); }
function withBox(to, then) {
  if (BOXES[to]) { then(BOXES[to]); return; }
  const script = document.createElement("script");
  script.src = to.replace(/html#.*$/, "js");
  script.onload = () => then(BOXES[to]);
  script.onerror = () => { location.href = to; };
  document.head.append(script);
}
function element(tag, properties, ...children) {
  const made = Object.assign(document.createElement(tag), properties);
  made.append(...children);
  return made;
}

// A name of a definition opens its box in place; with Ctrl or Shift the link is followed.
function open(link, then) {
  const to = link.getAttribute("href");
  const at = link.closest(".clause, .body > pre, .says li, .body > p, .doc > p") || link.parentElement;
  const inside = at.matches(".clause, li");
  const opened = () => {
    const box = inside ? at.querySelector(":scope > .peek") : at.nextElementSibling;
    return box && box.matches(".peek") ? box : null;
  };
  if (opened() && opened().dataset.of === to) { opened().remove(); return; }
  withBox(to, ([name, sentence, html]) => {
    if (opened()) opened().remove();
    const close = element("button", { textContent: "×", title: "Close" });
    const body = element("div", { className: "body", innerHTML: html });
    const made = element("div", { className: "peek" }, element("code", { textContent: name }), close, body);
    made.dataset.of = to;
    close.onclick = () => made.remove();
    if (inside) at.append(made); else at.after(made);
    if (then) then();
  });
}
document.addEventListener("click", (event) => {
  const link = event.target.closest("a.d");
  if (!link || event.ctrlKey || event.metaKey || event.shiftKey) return;
  event.preventDefault();
  open(link);
});
for (const list of document.querySelectorAll(".says")) {
  if (!list.querySelector("li > a.d")) continue;
  const all = element("button", { className: "all", textContent: "Open all, to read or print them" });
  all.onclick = () => {
    all.remove();
    list.querySelectorAll("li").forEach((row) => { if (!row.querySelector(":scope > .peek")) open(row.querySelector("a.d")); });
  };
  list.querySelector("h2").after(all);
}

// Symbols and names say what they mean when the pointer rests on them.
document.addEventListener("mouseover", (event) => {
  const at = event.target.closest("a.d, i.n");
  if (!at || at.dataset.asked) return;
  at.dataset.asked = "yes";
  if (at.matches("i.n")) {
    const [form, meaning] = NOTATION[at.textContent] || [];
    if (form) at.title = form + ": " + meaning.replaceAll("`", "");
  } else {
    withBox(at.getAttribute("href"), ([, sentence]) => { at.title = element("span", { innerHTML: sentence }).textContent; });
  }
});

// Beside the page stands what is on it, and below it what its symbols mean.
const places = [...document.querySelectorAll("main h2[id], main .item[id], main > .box[id]")];
if (places.length > 1) {
  const rows = places.map((at) => {
    const title = (at.matches("h2") ? at : at.querySelector("h3, summary > code")).cloneNode(true);
    title.querySelectorAll("small, .tag").forEach((part) => part.remove());
    return element("li", {}, element("a", { href: "#" + encodeURIComponent(at.id), textContent: title.textContent }));
  });
  const list = element("details", { open: innerWidth > 1150 }, element("summary", { textContent: "On this page" }), element("ul", {}, ...rows));
  document.querySelector(".page").append(element("aside", {}, list));
}
const used = [...new Set([...document.querySelectorAll("i.n")].map((at) => at.textContent))];
const known = used.filter((word) => NOTATION[word] && !/^\w+$/.test(word));
if (known.length) {
  const told = known.map((word) => element("span", {}, element("i", { textContent: word }), " " + NOTATION[word][1].replaceAll("`", "")));
  const more = element("a", { href: "notation.html", textContent: "How to read a contract" });
  document.querySelector("main").append(element("footer", {}, ...told, more));
}
addEventListener("beforeprint", () => document.querySelectorAll("details").forEach((at) => { at.open = true; }));

// The search: names that begin with the text come first. "/" goes to it.
const field = document.getElementById("q");
const list = document.getElementById("found");
let names = null;
function load() {
  if (names) return;
  names = [];
  document.head.append(element("script", { src: "search.js", onload: () => { names = NAMES; search(); } }));
}
function search() {
  const text = field.value.trim().toLowerCase();
  const found = [];
  for (const [name, to, told] of text ? names : []) {
    const whole = name.toLowerCase(), last = whole.split("::").pop();
    const rank = last === text || whole === text ? 0 : last.startsWith(text) ? 1 : whole.includes(text) ? 2 : told.toLowerCase().includes(text) ? 4 : 9;
    if (rank < 9) found.push([rank + (told.startsWith("definition") ? 0.5 : 0), name, to, told]);
  }
  found.sort((a, b) => a[0] - b[0] || a[1].length - b[1].length);
  list.replaceChildren(...found.slice(0, 30).map(([, name, to, told]) =>
    element("li", {}, element("a", { href: to }, name, element("span", { textContent: told })))));
}
field.addEventListener("focus", load);
field.addEventListener("input", search);
field.form.addEventListener("submit", (event) => {
  event.preventDefault();
  const first = list.querySelector("a");
  if (first) location.href = first.href;
});
document.addEventListener("keydown", (event) => {
  const links = [...list.querySelectorAll("a")], at = links.indexOf(document.activeElement);
  if (event.key === "/" && !/INPUT|TEXTAREA/.test(document.activeElement.tagName)) { event.preventDefault(); field.focus(); }
  if (event.key === "Escape") { list.replaceChildren(); field.blur(); }
  if (links.length && (event.key === "ArrowDown" || event.key === "ArrowUp") && (at >= 0 || document.activeElement === field)) {
    event.preventDefault();
    (links[at + (event.key === "ArrowDown" ? 1 : -1)] || field).focus();
  }
});
