// The desk as the page asks it: requests, its lists, and what they say.

import { knowYear } from "./days.js";
import { words } from "./words.js";

// The desk gave no answer, or one that doesn't say whether a command was done.
export class NoAnswer extends Error {}
// Nothing was done: the text that the desk answered, or what is so and what to do in the page's own words.
export class Refused extends Error {
  constructor(text, ...todo) {
    super(text);
    this.words = todo.length ? [text, ...todo] : undefined;
  }
}

export const isFault = fault => fault instanceof NoAnswer || fault instanceof Refused;

// The desk answers one request after the other. So only a few lists are asked at once.
let places = 4;
const queue = [];

async function inTurn(asking) {
  if (places > 0) places -= 1;
  else await new Promise(turn => queue.push(turn));
  try {
    return await asking();
  } finally {
    if (queue.length) queue.shift()();
    else places += 1;
  }
}

export async function ask(method, path, body) {
  let answer, text;
  try {
    // An import may take as long as the server waits for the desk. A command is given up before its mark is forgotten.
    const signal = AbortSignal.timeout(method === "POST" && path !== "/audit" ? 60_000 : 310_000);
    const mark = method === "POST" ? `?once=${crypto.randomUUID()}` : ""; // see nginx.conf
    answer = await fetch(`${location.origin}/desk${path}${mark}`, { method, body, cache: "no-store", signal });
    text = await answer.text();
  } catch {
    throw new NoAnswer(words.unreachable);
  }
  document.dispatchEvent(new CustomEvent("login", { detail: answer.headers.get("Desk-Login") }));
  if (answer.status === 200) return text;
  if (answer.status === 429 && method === "POST") throw new NoAnswer(words.answerLost); // sent twice, perhaps
  if (answer.status >= 500 && answer.status !== 501) {
    throw new NoAnswer(/^(refused|stopped)/.test(text) ? text : words.silent);
  }
  if (answer.headers.get("Content-Type")?.startsWith("text/plain")) throw new Refused(text);
  // what the server in front of the desk refuses by itself
  throw new Refused(...words.server[answer.status] ?? words.serverAnswered(answer.status));
}

// The rows of a list, each an object with the fields of the header. A field in quotes can contain commas and quotes.
function rows(csv) {
  const [names, ...values] = csv.split("\n").filter(line => line !== "").map(line =>
    [...line.matchAll(/(?:^|,)(?:"((?:[^"]|"")*)"|([^,]*))/g)]
      .map(([, quoted, plain]) => quoted?.replaceAll('""', '"') ?? plain));
  return values.map(fields => Object.fromEntries(names.map((name, at) => [name, fields[at]])));
}

export const list = path => inTurn(async () => rows(await ask("GET", path)));
export const cardRow = async number => (await list(`/cards/${number}`))[0];
export const chainOf = room => list(`/rooms/${room}/chain`);

// Sends an audit file. The same file can be sent again: so a lost answer needs no look.
export const sendFile = async text => (await ask("POST", "/audit", text)).trim();

// --- the lists that the views show ----------------------------------------------------------------------------------

export const hotel = { rooms: [], inside: [], bookings: [], house: [], behind: [], kinds: [] };

async function lists() {
  const [day, rooms, inside, bookings, house, behind] = await Promise.all(
    ["/business-day", "/room-status", "/inside", "/bookings", "/in-house", "/left-behind"].map(list));
  const today = day[0]?.day;
  const kinds = today ? await list(`/availability/${today}/1`) : [];
  return { isKnown: true, today, rooms, inside, bookings, house, behind, kinds };
}

// Whether no command came between these lists, as far as they show.
const isOne = ({ rooms, house, bookings }) => {
  const living = rooms.filter(row => row.party).map(row => `${row.room} ${row.party}`).join();
  return living === house.map(row => `${row.room} ${row.party}`).join()
    && !bookings.some(({ party }) => house.some(row => row.party === party));
};

async function snapshot() {
  const first = await lists();
  return isOne(first) ? first : lists();
}

let begun = 0, shown = 0; // the number of the latest snapshot that was asked for, and of the one that is shown
let running = 0;
export const isRefreshing = () => running > 0;

// Takes this snapshot, unless a later one is there. Whether the lists differ from those that were there.
function take(number, lists) {
  if (number < shown) return false;
  shown = number;
  const before = JSON.stringify(hotel);
  Object.assign(hotel, lists);
  knowYear(hotel.today);
  return JSON.stringify(hotel) !== before;
}

// Asks for the lists anew, and tells the views whether they differ, and the fault if there was one. Whether the lists
// are there.
export async function refresh() {
  const mine = begun += 1;
  running += 1;
  let fault, isChanged = false;
  try {
    isChanged = take(mine, await snapshot());
  } catch (caught) {
    if (!isFault(caught)) throw caught;
    fault = caught;
  } finally {
    running -= 1;
  }
  document.dispatchEvent(new CustomEvent("refreshed", { detail: { fault, isChanged } }));
  return !fault;
}

export const pause = milliseconds => new Promise(then => setTimeout(then, milliseconds));

// What comes of this, if it comes soon: a clerk doesn't wait for lists while the desk is busy, with an import perhaps.
export const ifSoon = coming => Promise.race([coming, pause(1500)]);

// --- what the lists say ---------------------------------------------------------------------------------------------

export const rowOf = room => hotel.rooms.find(row => row.room === room);
export const guestOf = party => hotel.house.find(row => row.party === party);
export const cardsIn = room => hotel.inside.filter(row => row.room === room);
export const isOver = booking => booking.depart <= hotel.today;
export const isDue = booking => booking.arrive <= hotel.today && !isOver(booking);
export const byName = rows => rows.toSorted((a, b) => a.guest.localeCompare(b.guest, words.locale));
export const arrivals = () => byName(hotel.bookings.filter(isDue));
export const departures = () => hotel.house.filter(isOver);

// A room's state: its class, its word on the tile, and what it means.
export function stateOf(row) {
  const state = row.party ? row.secured === "yes" ? "taken" : "waiting" : isEmpty(row) ? "free" : "leaving";
  return [state, ...words.states[state]];
}

// Whether nobody is in a room now, as far as the lists tell. A room can be free for a night although its last guest is
// still to check out.
export const isEmpty = row => !row.party && !cardsIn(row.room).length;
export const freeTonight = () => hotel.kinds.reduce((sum, { free }) => sum + Number(free), 0);

// Whether the newest card doesn't open the lock; or, in a room without a guest, the next one won't.
export const isStuck = row => Number(row.awaited) >= (row.party ? 2 : 1);

// The free rooms of a kind, those first in which nothing is in the way.
export const freeRooms = kind => hotel.rooms.filter(row => row.kind === kind && !row.party)
  .sort((a, b) => isStuck(a) - isStuck(b) || cardsIn(a.room).length - cardsIn(b.room).length || a.room - b.room);
