// The view of another day than today: who arrives, who leaves, and what is free that night. The lists know nothing of
// days that are over.

import { bookFrom } from "./book.js";
import { actions, GUEST, NUMBER, TYPE, UNTIL } from "./columns.js";
import { isDay, longDay, nightsOf, plus, shortDay } from "./days.js";
import { byName, hotel, isFault, list } from "./desk.js";
import { $, acts, button, card, el, none, pair, printer, table, tag, titled } from "./dom.js";
import { number, words } from "./words.js";

const LAST = "2099-12-31";
// The day that the address names, if it is to come.
export const dayShown = () => {
  const day = location.hash.slice(1);
  return isDay(day) && day > hotel.today && day <= LAST ? day : undefined;
};

function goTo(day) {
  location.hash = day > hotel.today ? day : "today";
}

// Goes so many days on from the day that is shown.
export function goOn(days) {
  const day = plus(dayShown() ?? hotel.today, days);
  if (day <= LAST) goTo(day);
}

// A field for a day. One that is picked is shown at once, one that is typed with Enter: a browser says that the field
// has changed at each digit.
function dayField(day) {
  let isTyped = false;
  const go = () => field.value && field.validity.valid && goTo(field.value);
  const field = el("input", { type: "date", min: hotel.today, max: LAST, value: day, "aria-label": words.anotherDay,
    "data-key": "another day", onchange: () => isTyped || go(), onkeydown: ({ key }) => {
      isTyped = true;
      if (key === "Enter") go();
    } });
  return field;
}

// The ways from this day to others.
export function otherDays(day) {
  const to = (days, text) => el("a", { class: "button", href: `#${plus(day, days)}` }, text);
  return el("nav", { class: "days", "aria-label": words.days },
    day > hotel.today ? el("a", { class: "button", href: "#today" }, words.today) : null,
    day > plus(hotel.today, 1) ? to(-1, `‹ ${shortDay(plus(day, -1))}`) : null,
    day < LAST ? to(1, `${shortDay(plus(day, 1))} ›`) : null, dayField(day));
}

export function anotherDay() {
  const day = dayShown();
  const coming = byName(hotel.bookings.filter(row => row.arrive === day));
  const leaving = [...hotel.house, ...hotel.bookings].filter(row => row.depart === day);
  const room = [words.room, row => row.room ?? tag(words.notHereYet)];
  const sum = words.sumOfDay(nightsOf(hotel.today, day), coming.length, leaving.length).join(" · ");
  return [el("div", { class: "head" }, titled(longDay(day), sum), acts(printer(words.print))), otherDays(day), pair(
    card(words.arrivals, coming.length ? table(words.arrivals, [GUEST, NUMBER, TYPE, UNTIL], coming)
      : none(words.noneArrive)),
    card(words.departures, leaving.length ? table(words.departures, [room, GUEST, TYPE], leaving)
      : none(words.noneLeave))),
  card(words.freeRooms, el("div", { id: "night" }, none(words.asksLists)))];
}

let asked = 0;

// Fills in how many rooms of each type are free that night.
export async function fillDay() {
  const mine = asked += 1, day = dayShown();
  try {
    const kinds = await list(`/availability/${day}/1`);
    if (mine !== asked || !$("night")) return;
    const toBook = ({ kind, free }) => free === "0" ? "" : button(words.book, () => bookFrom(day, kind), `book ${kind}`,
      { "aria-label": `${words.book}: ${kind}` });
    $("night").replaceChildren(table(words.freeRooms, [TYPE, [words.free, row => number(row.free)],
      [words.rooms, row => number(row.rooms)], actions(toBook)], kinds));
  } catch (fault) {
    if (!isFault(fault)) throw fault;
  }
}

// Asks again if it couldn't be asked.
export const completeDay = () => document.querySelector("#night table") ?? fillDay();
