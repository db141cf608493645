// Elements of the page, and its messages. Texts of the desk become text nodes, never markup.

import { words } from "./words.js";

// An element with these attributes, listeners (`onclick`) and children. What is missing or false is left out.
export function el(tag, props = {}, ...children) {
  const made = document.createElement(tag);
  for (const [name, value] of Object.entries(props)) {
    if (name.startsWith("on")) made.addEventListener(name.slice(2), value);
    else if (value === true) made.setAttribute(name, "");
    else if (value !== false && value !== undefined && value !== null) made.setAttribute(name, value);
  }
  made.append(...children.flat(2).filter(child => child !== null && child !== undefined && child !== false));
  return made;
}

export const $ = id => document.getElementById(id);
export const p = (...children) => el("p", {}, children);
export const hint = (...children) => el("p", { class: "hint" }, children);
// What matters most in a window; a screen reader says it when the window opens.
export const so = (...children) => el("p", { class: "so", role: "alert" }, children);
export const none = text => el("p", { class: "none" }, text);
export const acts = (...buttons) => el("div", { class: "acts" }, buttons);
export const tag = text => el("span", { class: "tag" }, text);
export const card = (title, ...content) => el("section", { class: "card" }, el("h2", {}, title), content);
export const pair = (...cards) => el("div", { class: "pair" }, cards);
export const head = (title, ...more) => el("div", { class: "head" }, el("h1", {}, title), more);

export const titled = (title, sum) => el("div", {}, el("h1", {}, title), el("p", { class: "sum" }, sum));

// A guest's name, isolated from the direction of the text around it.
export const guestName = guest => el("bdi", { class: "guest" }, guest);

// A code in three groups.
export const code = text => el("span", { class: "code" }, text.match(/.{4}/g).map(part => el("span", {}, part)));

// A button; `key` finds it again after the view is drawn anew.
export const button = (text, onclick, key, props = {}) =>
  el("button", { type: "button", onclick, "data-key": key, ...props }, text);

// A button of a row, for the row's guest.
export const rowButton = (text, onRow, row, props = {}) =>
  button(text, () => onRow(row), `${text} ${row.party}`, { "aria-label": `${text}: ${row.guest}`, ...props });

// The button of a window that Enter presses.
export const first = (text, onclick) => button(text, onclick, null, { class: "main", autofocus: true });

export const printer = text => button(text, () => print(), `print ${text}`);

// A button that copies this text. `what` says which text it is to those who don't see what is beside the button.
export function copier(text, what) {
  const copy = button(words.copy, async () => {
    try {
      await navigator.clipboard.writeText(text);
      copy.textContent = words.copied;
    } catch {
      copy.textContent = words.notCopied;
    }
    copy.setAttribute("aria-label", `${copy.textContent}: ${what}`);
  }, null, { "aria-label": words.copyWhat(what), class: "copy" });
  return copy;
}

// A table: its columns are pairs of a header and what is shown of a row.
export function table(caption, columns, rows) {
  // In a narrow window a cell has its header above it (desk.css).
  const cell = (row, [title, shown], at) => el(at ? "td" : "th", { scope: at ? null : "row",
    "data-title": title.nodeType ? null : title }, shown(row));
  return el("table", {}, el("caption", { class: "away" }, caption),
    el("thead", {}, el("tr", {}, columns.map(([title]) => el("th", { scope: "col" }, title)))),
    el("tbody", {}, rows.map(row => el("tr", {}, columns.map((column, at) => cell(row, column, at))))));
}

const MOST = 150; // rows of a table: more take long to draw

// The first rows of a table, and how many more there are; `more` says how to find those.
export const tableOfFirst = (caption, columns, rows, more = "") => [table(caption, columns, rows.slice(0, MOST)),
  rows.length > MOST ? none(`${words.moreRows(rows.length - MOST)} ${more}`) : null];

export const field = (text, input, below) =>
  el("label", { class: "field" }, el("span", {}, text), input, below ? el("small", {}, below) : null);

// A form: `onvalues` gets what is typed and chosen.
export const form = (props, onvalues, ...children) => el("form", { ...props, onsubmit: event => {
  event.preventDefault();
  onvalues(Object.fromEntries(new FormData(event.target)));
} }, children);

// --- messages -------------------------------------------------------------------------------------------------------

let passing, mustStay = false;

function hush() {
  mustStay = false;
  $("said").replaceChildren();
}

// Ends a message, unless the clerk must close it.
export const hushPassing = () => mustStay || hush();

// Says something, aloud to a screen reader too. It passes, unless it has a button of its own, or must be closed.
export function say(told, { mustClose = false } = {}) {
  clearTimeout(passing);
  mustStay = mustClose;
  const isKept = mustClose || told.some(part => part instanceof HTMLButtonElement);
  $("said").replaceChildren(p(told), button(words.close, hush, null, { class: "plain" }));
  if (!isKept) passing = setTimeout(hush, 12_000);
}

// Says something until what it returns is called, unless something else is said before.
export function sayMeanwhile(told) {
  say(told, { mustClose: true });
  const said = $("said").firstChild;
  return () => said.isConnected && hush();
}
