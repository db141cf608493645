// Columns of the views' tables: each a header and what is shown of a row.

import { shortDay } from "./days.js";
import { button, el, guestName } from "./dom.js";
import { showGuest } from "./windows.js";
import { words } from "./words.js";

export const link = row => button(guestName(row.guest), () => showGuest(row), `g${row.party}`, { class: "link" });
const dayOf = day => el("span", { class: "day" }, shortDay(day));
export const ROOM = [words.room, row => row.room], NUMBER = [words.number, row => row.party];
export const TYPE = [words.type, row => row.kind], GUEST = [words.guest, link];
export const ARRIVAL = [words.arrival, row => dayOf(row.arrive)], UNTIL = [words.until, row => dayOf(row.depart)];
// What can be done with a row.
export const actions = shown => [el("span", { class: "away" }, words.actions), shown];
