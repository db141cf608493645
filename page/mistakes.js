// The reception's sheet, a page of its own in each language; and "A mistake?" in a window: the rows of the sheet that
// fit there, and the rules that they name.

import { el, p } from "./dom.js";
import { words } from "./words.js";

export const SHEET = `sheet-${words.language}.html`;

// Asks for the sheet as a document: the page may not make markup of a text (nginx.conf).
const askSheet = () => new Promise(then => {
  const request = new XMLHttpRequest();
  request.open("GET", SHEET);
  request.responseType = "document";
  request.onloadend = () => then(request.response);
  request.send();
});

// What an element of the sheet contains, to be shown here. Its links lead into the sheet.
function contentOf(one) {
  const copy = document.importNode(one, true);
  for (const link of copy.querySelectorAll("a")) Object.assign(link, { href: SHEET + link.hash, target: "_blank" });
  return [...copy.childNodes];
}

let sheet; // asked once

async function fill(rows, rules, places) {
  sheet ??= await askSheet();
  if (!sheet) return;
  const found = [...sheet.querySelectorAll(places.map(place => `[data-at~=${place}]`).join())];
  rows.replaceChildren(...found.flatMap(({ cells: [happened, todo] }) =>
    [el("dt", {}, contentOf(happened)), el("dd", {}, contentOf(todo))]));
  rules.replaceChildren(...contentOf(sheet.querySelector("ol")));
}

// Opens the rows for these places (`data-at` in the sheet).
export function mistakes(...places) {
  const rows = el("dl", { class: "otherwise" }), rules = el("ol", { class: "hint" });
  return el("details", { ontoggle: ({ target }) => target.open && fill(rows, rules, places) },
    el("summary", {}, words.aMistake), rows, rules, p(el("a", { href: SHEET, target: "_blank" }, words.sheet)));
}
