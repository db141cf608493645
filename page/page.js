// The page: which view is drawn and when, the language, the keys, the search, and when the desk is asked anew by
// itself.

import { book, completeBooking, fillBooking, forgetNights, renewBooking } from "./book.js";
import { anotherDay, completeDay, dayShown, fillDay, goOn } from "./day.js";
import { clockDay, shortDay } from "./days.js";
import { hotel, isRefreshing, refresh } from "./desk.js";
import { isShown } from "./dialog.js";
import { $, el, head, none, say } from "./dom.js";
import { SHEET } from "./mistakes.js";
import { setup } from "./setup.js";
import { guests, locks, openSought, rooms, today } from "./views.js";
import { isDoing } from "./windows.js";
import { LANGUAGES, words } from "./words.js";

const views = { today, book, rooms, guests, locks, setup };
const waiting = () => [head(words.desk), none(words.asksLists)];
// The view that the address names.
function named() {
  const name = location.hash.slice(1);
  return dayShown() ? anotherDay : Object.hasOwn(views, name) ? views[name] : today;
}

const view = () => !hotel.isKnown ? waiting : !hotel.today ? setup : named();
// What a view asks the desk for, after it is drawn; and what it asks for again after a lost answer.
const fills = new Map([[book, fillBooking], [anotherDay, fillDay]]);
const completes = new Map([[book, completeBooking], [anotherDay, completeDay]]);

// Draws the view. The keyboard stays where it was.
function draw() {
  const key = $("main").contains(document.activeElement) && document.activeElement.dataset.key;
  $("main").replaceChildren(...view()().flat(2).filter(Boolean));
  drawHead();
  if (key) document.querySelector(`[data-key="${CSS.escape(key)}"]`)?.focus();
  fills.get(view())?.();
}

function drawHead() {
  const shown = view() === anotherDay ? today : view();
  for (const to of document.querySelectorAll("header nav a")) {
    if (views[to.hash.slice(1)] === shown) to.setAttribute("aria-current", "page");
    else to.removeAttribute("aria-current");
  }
  $("behind").textContent = hotel.behind.length || "";
  $("behind").title = hotel.behind.length ? words.locksToSet : "";
  $("day").textContent = hotel.today ? shortDay(hotel.today) : "";
  $("calendar").textContent = hotel.today < clockDay() ? words.calendar(shortDay(clockDay())) : "";
  document.title = `${document.querySelector("h1").textContent} – ${location.hostname}`;
}

// Whether something is being typed or chosen: then the view isn't drawn anew below it. A field for another day counts
// once it is touched.
function isTyping() {
  const at = document.activeElement;
  return $("main").contains(at) && at.matches("input:not([type=radio], [type=file]), select")
    && !(at.matches(".days input") && at.value === at.defaultValue);
}

let told = ""; // why the desk doesn't answer, as it was said

// Without an answer the page says so once, and shows what it has.
function tell(fault) {
  const text = fault ? (fault.words ?? [fault.message, words.asksAgain]).join(" ") : "";
  document.body.classList.toggle("alone", Boolean(fault));
  $("alone").textContent = fault ? words.noAnswer : "";
  if (text !== told) say([text || words.answersAgain]);
  told = text;
}

document.addEventListener("refreshed", ({ detail: { fault, isChanged } }) => {
  tell(fault);
  if (!isChanged) {
    drawHead(); // midnight may have come
    if (!fault) completes.get(view())?.();
    return;
  }
  forgetNights();
  if (!isTyping()) {
    draw();
    return;
  }
  drawHead();
  if (view() === book) renewBooking();
});
document.addEventListener("login", ({ detail: login }) => {
  if (login) $("login").textContent = login;
});

addEventListener("hashchange", () => {
  $("find").value = "";
  draw();
  refresh();
  scrollTo(0, 0);
  (document.querySelector("#booking [name=guest]") ?? $("main")).focus({ preventScroll: true });
});

// --- the language ---------------------------------------------------------------------------------------------------

// Puts the words into what is the same in each view.
function drawAround() {
  document.documentElement.lang = words.language;
  for (const one of document.querySelectorAll("[data-word]")) one.textContent = words[one.dataset.word];
  document.querySelector("header nav").setAttribute("aria-label", words.views);
  $("find").placeholder = words.findWhat;
  $("sheet").href = SHEET;
  $("about-keys").append(...words.keys(key => el("kbd", {}, key)));
  $("language").append(...Object.entries(LANGUAGES).map(([name, text]) =>
    el("option", { value: name, lang: name, selected: name === words.language }, text)));
}

$("language").addEventListener("change", () => {
  localStorage.setItem("language", $("language").value);
  location.reload();
});

// --- keys and the search --------------------------------------------------------------------------------------------

// Speech input can press single keys by mistake: so they can be switched off, in this browser.
$("keys").checked = localStorage.getItem("keys") !== "off";
$("keys").addEventListener("change", () => localStorage.setItem("keys", $("keys").checked ? "on" : "off"));

addEventListener("keydown", event => {
  const isTyped = event.target.matches("input:not([type=radio], [type=checkbox]), select, textarea");
  // Esc leads back from a field to the page, where single keys work.
  const isLeft = event.key === "Escape" && !event.isComposing && !isShown();
  if (isTyped && isLeft) $("main").focus({ preventScroll: true });
  if (!$("keys").checked || isTyped || isShown() || event.ctrlKey || event.metaKey || event.altKey) return;
  if (event.key === "/") {
    event.preventDefault();
    $("find").focus();
    $("find").select();
  } else if (["ArrowLeft", "ArrowRight"].includes(event.key) && [today, anotherDay].includes(view())) {
    goOn(event.key === "ArrowRight" ? 1 : -1);
  } else if (/^[1-6]$/.test(event.key)) {
    event.preventDefault(); // the view may have a field before the key is typed
    location.hash = Object.keys(views)[event.key - 1];
  }
});
$("find").addEventListener("input", () => {
  if (view() !== guests) history.replaceState(null, "", "#guests");
  draw();
});
$("search").addEventListener("submit", event => {
  event.preventDefault();
  if (!$("find").value.trim() || openSought()) return;
  const match = view() === guests && document.querySelector("main .link");
  if (match) match.focus();
  else say([words.nobodyFound]);
});

// --- leaving --------------------------------------------------------------------------------------------------------

// A browser keeps a page that was left, and shows it again on "Back", also after "Log out". It then keeps no guests.
addEventListener("pagehide", () => {
  document.body.hidden = true;
});
addEventListener("pageshow", ({ persisted }) => persisted && location.reload());

// --- by itself ------------------------------------------------------------------------------------------------------

// By itself the page asks anew while it is looked at and nothing is being done, and once at a time.
const isIdle = () => !document.hidden && !isDoing() && !isRefreshing();
document.addEventListener("visibilitychange", () => isIdle() && refresh());
setInterval(() => isIdle() && refresh(), 60_000);
setInterval(() => document.body.classList.contains("alone") && isIdle() && refresh(), 3_000);
$("hotel").textContent = location.hostname;
drawAround();
draw();
refresh();
