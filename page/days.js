// Days of the calendar, as the desk writes them: 2031-05-01. None depends on the clock, the time zone or the language
// of this computer, except `clockDay`. They are written in the page's language.

import { words } from "./words.js";

const dateOf = day => new Date(`${day}T00:00Z`);

export function plus(day, days) {
  const date = dateOf(day);
  date.setUTCDate(date.getUTCDate() + days);
  return date.toISOString().slice(0, 10);
}

// Whether this is a day of the calendar: 2031-02-31 isn't.
export const isDay = text =>
  /^\d{4}-\d\d-\d\d$/.test(text) && !Number.isNaN(dateOf(text).getTime()) && plus(text, 0) === text;

export const nightsOf = (arrive, depart) => Math.round((dateOf(depart) - dateOf(arrive)) / 86_400_000);
export const isWeekend = day => [0, 6].includes(dateOf(day).getUTCDay());

const writer = options => {
  const format = new Intl.DateTimeFormat(words.locale, { timeZone: "UTC", ...options });
  return day => format.format(dateOf(day));
};
export const longDay = writer({ weekday: "long", day: "numeric", month: "long", year: "numeric" });
const short = writer({ weekday: "short", day: "numeric", month: "short" });
let year = ""; // the business day's

export function knowYear(today = "") {
  year = today.slice(0, 4);
}

// A day in short words, with its year if it isn't the business day's.
export const shortDay = day => day.startsWith(year) ? short(day) : `${short(day)} ${day.slice(0, 4)}`;

// A moment of a lock's note, as the lock's own clock has it.
const clock = new Intl.DateTimeFormat(words.locale, { timeZone: "UTC", dateStyle: "medium", timeStyle: "medium" });
export const moment = at => clock.format(new Date(`${at}Z`));

export const weekday = writer({ weekday: "short" });
export const date = writer({ day: "numeric", month: "short" });

// Today by this computer's calendar, where its clock and time zone are.
export function clockDay() {
  const now = new Date();
  return [now.getFullYear(), now.getMonth() + 1, now.getDate()].map(part => String(part).padStart(2, "0")).join("-");
}
