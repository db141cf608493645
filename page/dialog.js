// The one window of the page: what it shows, and where the keyboard is in it and after it.

import { $, acts, button, el, first, hint, hushPassing, p, sayMeanwhile } from "./dom.js";
import { words } from "./words.js";

export const isShown = () => $("dialog").open;
export const shut = () => $("dialog").close();

let opener; // where the keyboard was before the window
let showing = 0; // the number of the latest thing that was shown, or is to be shown

// Shows a window. Esc closes it, and so does its last button.
export function show(title, ...content) {
  const dialog = $("dialog");
  showing += 1;
  hushPassing();
  if (!isShown()) opener = document.activeElement?.dataset?.key;
  dialog.className = "";
  dialog.replaceChildren(el("h2", { id: "dialog-title" }, title), ...content.flat().filter(Boolean));
  if (!isShown()) dialog.showModal();
  (dialog.querySelector("[autofocus]") ?? dialog.querySelector("button, input"))?.focus();
  dialog.scrollTop = 0;
  return dialog;
}

// Leads the keyboard back to where it was, or to the view, if that is gone.
function back() {
  if (isShown()) return;
  showing += 1;
  const from = opener && document.querySelector(`[data-key="${CSS.escape(opener)}"]`);
  (from ?? $("main")).focus({ preventScroll: !from });
}

// A window that asks once more before what can't be undone: the keyboard is on what does nothing.
export function askOnce(title, content, doing, onyes) {
  show(title, content, acts(button(doing, onyes, null, { class: "main" }),
    button(words.dont, shut, null, { autofocus: true })));
}

const SLOW = 400; // milliseconds, after which a clerk is told that the page waits
let isHeld = false; // whether a command is being carried out: then the window can't be closed

// The result of `doing`. Until it is there the window's buttons do nothing, and after a while a window says `what`. If
// no window is open, a message does: the clerk goes on typing in the view.
export async function whileHeld(what, doing) {
  const isAsked = isShown();
  let hush = () => undefined;
  for (const one of isAsked ? $("dialog").querySelectorAll("button, input") : []) one.disabled = true;
  const timer = setTimeout(() => {
    if (!isAsked) {
      hush = sayMeanwhile([`${words.pleaseWait}. `, ...what.childNodes]);
      return;
    }
    isHeld = true;
    show(words.pleaseWait, what, hint(words.oneAfterTheOther));
  }, SLOW);
  try {
    return await doing();
  } finally {
    clearTimeout(timer);
    hush();
    isHeld = false;
  }
}

// Hands what comes of this to `onready`, which shows it. Of several that are asked for only the latest is shown, and
// none once the clerk has closed the window.
export async function showWhenReady(coming, onready) {
  let mine = showing += 1;
  const timer = setTimeout(() => {
    if (mine !== showing) return;
    show(words.pleaseWait, p(words.asksLists), acts(first(words.close, shut)));
    mine = showing;
  }, SLOW);
  const ready = await coming;
  clearTimeout(timer);
  if (mine === showing) onready(ready);
}

$("dialog").addEventListener("cancel", event => {
  if (isHeld) event.preventDefault();
});
$("dialog").addEventListener("close", back);
// A key that is held down presses nothing twice.
addEventListener("keydown", event => {
  if (event.repeat && ["Enter", " "].includes(event.key)) event.preventDefault();
}, { capture: true });
