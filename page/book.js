// The view Book: the form for a booking, and how many rooms of each type are free on each of fourteen nights.

import { commands } from "./commands.js";
import { date, isWeekend, longDay, nightsOf, plus, shortDay, weekday } from "./days.js";
import { hotel, isEmpty, isFault, list } from "./desk.js";
import { $, acts, button, el, field, form, guestName, head } from "./dom.js";
import { checkInButton, done, run } from "./windows.js";
import { number, words } from "./words.js";

const NIGHTS = 14; // of the picture
const LONGEST = 90; // nights of a booking
// What is typed, and the first day of the picture. It outlives the view.
const booking = { guest: "", arrive: "", nights: "1", kind: "", from: "" };
const atLeastToday = day => day && day >= hotel.today ? day : hotel.today;
const guestField = () => document.querySelector("#booking [name=guest]");

export function book() {
  booking.arrive = atLeastToday(booking.arrive);
  booking.from = atLeastToday(booking.from);
  if (!hotel.kinds.some(row => row.kind === booking.kind)) booking.kind = hotel.kinds[0]?.kind ?? "";
  const input = (name, props) =>
    el("input", { name, value: booking[name], required: true, "data-key": name, ...props });
  const kinds = hotel.kinds.map(({ kind }) => el("label", {},
    input("kind", { type: "radio", value: kind, checked: kind === booking.kind, "data-key": `kind ${kind}` }),
    el("strong", {}, kind), el("small", { id: `free-${kind}` })));
  const shift = days => () => {
    booking.from = atLeastToday(plus(booking.from, days));
    fillBooking();
  };
  return [head(words.book), el("div", { class: "beside" },
    form({ class: "card", id: "booking", oninput: changed }, reserve,
      field(words.guest, input("guest", { autocomplete: "off", spellcheck: "false", "aria-describedby": "length",
        placeholder: " " })), // an empty field isn't outlined as wrong (desk.css)
      el("p", { id: "length", class: "hint" }),
      el("div", { class: "row" },
        field(words.arrival, input("arrive", { type: "date", min: hotel.today, max: "2099-12-30" })),
        field(words.nightsField, input("nights", { type: "number", min: 1, max: LONGEST }))),
      el("p", { id: "until", "aria-live": "polite" }),
      el("fieldset", { class: "choice" }, el("legend", {}, words.roomType), kinds),
      acts(el("button", { class: "main", "data-key": "book" }, words.book))),
    el("section", { class: "card" }, el("div", { class: "head" }, el("h2", {}, words.freeRooms),
      acts(button(words.earlier, shift(-NIGHTS), "earlier"), button(words.later, shift(NIGHTS), "later"))),
    el("div", { id: "grid", class: "scroll" })))];
}

// Brings the view to what the lists say now, while somebody types in it. A day before the business day can't be booked:
// the desk may have moved on since it was typed.
export function renewBooking() {
  const arrive = document.querySelector("#booking [name=arrive]");
  arrive.min = hotel.today;
  if (booking.arrive && booking.arrive < hotel.today) booking.arrive = arrive.value = hotel.today;
  booking.from = atLeastToday(booking.from);
  fillBooking();
}

// Leads to the form, for this day and kind.
export function bookFrom(day, kind) {
  Object.assign(booking, { arrive: day, from: day, kind });
  location.hash = "book";
}

const NAME = 60; // bytes of a guest's name, as UTF-8
const bytesOf = text => new TextEncoder().encode(text).length;

// How many letters of a name must go, from its end, so that the desk takes it.
const tooMany = (name, letters = [...name]) =>
  letters.length - letters.filter((_, at) => bytesOf(letters.slice(0, at + 1).join("")) <= NAME).length;

function measureName() {
  const more = tooMany(booking.guest.trim());
  const told = more ? words.nameTooLong(more) : "";
  guestField().setCustomValidity(told);
  $("length").textContent = told;
}

function changed({ target }) {
  booking[target.name] = target.value;
  const ahead = nightsOf(booking.from, booking.arrive);
  if (target.name === "arrive" && target.value && !(ahead >= 0 && ahead < NIGHTS)) {
    booking.from = atLeastToday(target.value);
  }
  if (target.name === "guest") measureName();
  else fillBooking();
}

// Puts a name into the field, if that is shown, or for when it is shown again.
function putName(guest) {
  booking.guest = guest;
  if (!guestField()) return;
  guestField().value = guest;
  measureName();
}

// Books. The field is free for the next name at once, so that a second Enter books nothing twice; the name comes back
// if nothing was booked, unless the next one is being typed.
function reserve({ kind, arrive, nights, guest: typed }) {
  const guest = typed.trim(), depart = plus(arrive, Number(nights));
  putName("");
  run(commands.reserve(kind, arrive, nights, guest), answer => {
    const party = answer.slice("party ".length);
    done(...words.booked(party, guestName(guest), kind, shortDay(arrive), shortDay(depart)),
      arrive === hotel.today ? checkInButton({ party, guest, kind, arrive, depart }) : "");
    guestField()?.focus();
  }, () => booking.guest || putName(typed));
}

let nightly; // the rows of each night of the picture, asked once while the lists stay the same
let asked = 0;

export function forgetNights() {
  nightly = undefined;
}

// Asks again for the nights if they couldn't be asked.
export const completeBooking = () => nightly ?? fillBooking();

function nightsFrom(from) {
  const days = Array.from({ length: NIGHTS }, (_, at) => plus(from, at)).filter(day => day < "2099-12-31");
  return { from, days, rows: Promise.all(days.map(day => list(`/availability/${day}/1`))) };
}

// The typed nights, or none while they can't be booked: then no room is said to be free, and none to be taken.
const typedNights = () => booking.arrive >= hotel.today && booking.nights >= 1 && booking.nights <= LONGEST
  ? Number(booking.nights) : 0;

// The typed stay in words, or what is wrong with it.
const stayInWords = () => typedNights()
  ? words.fromTo(longDay(booking.arrive), longDay(plus(booking.arrive, typedNights())))
  : booking.nights > LONGEST ? words.tooLong(LONGEST)
  : booking.arrive && booking.arrive < hotel.today ? words.dayIsOver : "";

// How many rooms of a kind are empty now, for a stay from today, if fewer than are free: of the others the guests are
// still to check out.
function emptyOf(kind, free) {
  const empty = hotel.rooms.filter(row => row.kind === kind && isEmpty(row)).length;
  return booking.arrive === hotel.today && empty < free ? words.emptyCount(empty) : "";
}

// Fills in how many rooms are free: of the typed nights, and of each kind on the nights of the picture.
export async function fillBooking() {
  const mine = asked += 1, nights = typedNights();
  measureName();
  $("until").textContent = stayInWords();
  if (nightly?.from !== booking.from) nightly = nightsFrom(booking.from);
  const { days, rows } = nightly;
  try {
    const [stay, each] = await Promise.all([nights ? list(`/availability/${booking.arrive}/${nights}`) : [], rows]);
    if (mine !== asked || !$("grid")) return;
    for (const { kind } of hotel.kinds) {
      const free = stay.find(row => row.kind === kind)?.free;
      const shown = $(`free-${kind}`);
      if (!shown) continue;
      shown.textContent = free === undefined ? "" : free === "0" ? words.full
        : words.freeCount(free) + emptyOf(kind, free);
    }
    showGrid(days, each);
  } catch (fault) {
    if (!isFault(fault)) throw fault;
    forgetNights();
  }
}

// Takes a night and a kind from the picture.
function takeNight(day, kind) {
  Object.assign(booking, { arrive: day, kind });
  document.querySelector("#booking [name=arrive]").value = day;
  for (const radio of document.querySelectorAll("#booking [name=kind]")) radio.checked = radio.value === kind;
  fillBooking();
  guestField().focus();
}

// How full the picture colours a night: 0 where nothing is free, 4 where most is.
const shareOf = row => row.free === "0" ? 0 : Math.ceil(4 * row.free / row.rooms);

// A row for each kind, a column for each night; the typed stay is marked. A click takes a night and a kind.
function showGrid(days, each) {
  const last = plus(booking.arrive || hotel.today, typedNights() - 1);
  const numbered = (day, at) => at && !day.endsWith("-01") ? Number(day.slice(8)) : date(day);
  const heads = days.map((day, at) =>
    el("th", { scope: "col", class: isWeekend(day) ? "end" : null }, weekday(day), el("br"), numbered(day, at)));
  const cell = (kind, day, at) => {
    const row = each[at].find(one => one.kind === kind) ?? { free: "0", rooms: "0" };
    const isMine = kind === booking.kind && day >= booking.arrive && day <= last;
    const told = words.freeOf(kind, shortDay(day), row.free, row.rooms);
    return el("td", { class: `f${shareOf(row)}${isMine ? " mine" : ""}` }, button(number(row.free),
      () => takeNight(day, kind), null, { tabindex: -1, title: told, "aria-label": told }));
  };
  $("grid").replaceChildren(el("table", { class: "grid" },
    el("caption", { class: "away" }, words.freeByNight),
    el("thead", {}, el("tr", {}, el("td"), heads)),
    el("tbody", {}, hotel.kinds.map(({ kind }) => el("tr", {}, el("th", { scope: "row" }, kind),
      days.map((day, at) => cell(kind, day, at)))))));
}
