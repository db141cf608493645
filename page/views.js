// The views Today, Rooms, Guests and Locks, from the lists.

import { actions, ARRIVAL, GUEST, link, NUMBER, ROOM, TYPE, UNTIL } from "./columns.js";
import { commands } from "./commands.js";
import { otherDays } from "./day.js";
import { clockDay, longDay, plus, shortDay } from "./days.js";
import { arrivals, departures, freeTonight, guestOf, hotel, isEmpty, isFault, isOver, isStuck, NoAnswer, Refused,
  refresh, sendFile, stateOf } from "./desk.js";
import { askOnce } from "./dialog.js";
import { $, acts, button, card, code, el, field, form, guestName, head, hint, none, p, pair, printer, rowButton, so,
  table, tableOfFirst, tag, titled } from "./dom.js";
import { bookingActs, cancel, checkInButton, checkOut, done, guestActs, refit, run, showGuest, showRoom, showWhose,
  wordsOf } from "./windows.js";
import { explained, number, words } from "./words.js";

// --- today ----------------------------------------------------------------------------------------------------------

export function today() {
  const coming = arrivals(), leaving = departures(), over = hotel.bookings.filter(isOver);
  const sum = words.sumOfToday(coming.length, leaving.length, hotel.house.length, freeTonight(),
    hotel.rooms.filter(isEmpty).length).join(" · ");
  const late = row => row.arrive < hotel.today ? tag(words.late(shortDay(row.arrive))) : null;
  const since = row => row.depart < hotel.today ? tag(words.since(shortDay(row.depart))) : null;
  const leave = actions(row => rowButton(words.checkOut, checkOut, row));
  const drop = actions(row => rowButton(words.cancel, cancel, row));
  const hasEntered = row => row.secured === "yes" ? words.yes : el("span", { class: "dim" }, words.notYet);
  return [el("div", { class: "head" }, titled(longDay(hotel.today), sum),
    acts(printer(words.print), button(words.nextDay, nextDay, "next day"))),
  otherDays(hotel.today),
  pair(card(words.arrivals, coming.length
    ? table(words.arrivals, [[words.guest, row => [link(row), late(row)]], NUMBER, TYPE, UNTIL, actions(checkInButton)],
      coming)
    : none(words.allArrived),
  over.length ? [el("h3", {}, words.neverCame), table(words.overBookings, [GUEST, UNTIL, drop], over)] : null),
  card(words.departuresDue, leaving.length
    ? table(words.departuresDue, [ROOM, [words.guest, row => [link(row), since(row)]], leave], leaving)
    : none(words.noneDue))),
  card(words.inHouse, hotel.house.length
    ? table(words.inHouse, [ROOM, GUEST, TYPE, UNTIL, [words.entered, hasEntered]], hotel.house)
    : none(words.nobodyInHouse))];
}

// The day that the window names is the day that its command is about, even if another clerk moves it on meanwhile.
function nextDay() {
  const day = hotel.today, next = plus(day, 1), arriving = arrivals().length, leaving = departures().length;
  askOnce(words.beginNextDay, [so(longDay(next)), p(words.isThenOver(longDay(day))),
    next > clockDay() ? so(words.calendarStill(longDay(clockDay()))) : null,
    arriving || leaving ? p(words.leftToday(arriving, leaving)) : null], words.beginDay(shortDay(next)),
  () => run(commands.nextDay(day), answer => done(words.itIs(longDay(answer.slice(4))),
    answer === `day ${next}` ? "" : ` ${words.othersMovedDayToo}`)));
}

// --- rooms and guests -----------------------------------------------------------------------------------------------

export function rooms() {
  const floors = Map.groupBy(hotel.rooms, row => Math.floor(row.room / 100));
  const counts = Map.groupBy(hotel.rooms, row => stateOf(row)[0]);
  const legend = Object.entries(words.legend).map(([state, word]) =>
    el("span", {}, el("i", { class: `dot ${state}` }), `${number(counts.get(state)?.length ?? 0)} ${word}`));
  const waiting = hotel.rooms.filter(isStuck).length;
  const size = hotel.rooms.length > 100 ? "many" : null;
  return [head(words.rooms, el("p", { class: "legend" }, legend, el("span", {}, el("b", { class: "mark" }, "!"),
    words.locksWait(waiting))), printer(words.print)),
  hotel.rooms.length ? [...floors].map(([floor, row]) =>
    el("section", { class: "floor", "aria-label": words.floor(floor) }, el("h2", {}, floor),
      el("ul", { class: size }, row.map(tile))))
    : none(words.noRooms)];
}

function tile(row) {
  const [state, word] = stateOf(row);
  const guest = guestOf(row.party);
  const mark = el("b", { class: "mark", title: words.waitsForCard }, "!",
    el("span", { class: "away" }, ` ${words.lockWaits}`));
  return el("li", {}, button([el("strong", {}, row.room), el("small", {}, row.kind),
    el("span", { class: "who" }, guest ? guestName(guest.guest) : word),
    guest ? el("span", { class: "away" }, word) : null,
    isStuck(row) ? mark : null], () => showRoom(row.room), `room ${row.room}`, { class: `tile ${state}` }));
}

const sought = () => $("find").value.trim().toLowerCase();

// Letters that aren't one with a mark, as a clerk types them who doesn't have them.
const LETTERS = { ß: "ss", æ: "ae", œ: "oe", ø: "o", ł: "l", đ: "d", ð: "d", þ: "th", ı: "i" };
// A text in small letters without marks.
const plain = text => text.normalize("NFD").replace(/\p{M}/gu, "").toLowerCase()
  .replace(/[ßæœøłđðþı]/g, letter => LETTERS[letter]);
const wordsIn = text => text.split(/[^\p{L}\p{N}]+/u).filter(Boolean);
// The words of a name, also with what is before and after an apostrophe or a hyphen as one: "o neil oneil".
const named = guest => `${wordsIn(plain(guest)).join(" ")} ${plain(guest).replace(/[^\p{L}\p{N}\s]+/gu, "")}`;

// Whether a row is of the room or booking with this number, or its guest's name has each of the words, in any order.
function isSought(row) {
  const parts = wordsIn(plain(sought()));
  if ([row.room, row.party].includes(sought())) return true;
  return parts.length ? parts.every(part => named(row.guest).includes(part)) : row.guest.includes(sought());
}

export function guests() {
  const house = hotel.house.filter(isSought), booked = hotel.bookings.filter(isSought);
  const inHouse = [ROOM, GUEST, TYPE, UNTIL, actions(row => acts(guestActs(row)))];
  const coming = [NUMBER, GUEST, TYPE, ARRIVAL, UNTIL, actions(row => acts(bookingActs(row)))];
  if (cardSought()) return [head(words.cardNo(cardSought())), none(words.pressEnter)];
  return [head(sought() ? words.guestsSought($("find").value.trim()) : words.guests, printer(words.print)),
    card(words.inHouse, house.length ? tableOfFirst(words.inHouse, inHouse, house, words.findNameOrRoom)
      : none(words.nobody)),
    card(words.bookings, booked.length ? tableOfFirst(words.bookings, coming, booked, words.findName)
      : none(words.nobody))];
}

// The number in a search such as "card 7".
const cardSought = () => words.cardSought.exec(sought())?.[1];

// Opens what the search means: the card or the room with exactly this number, else the only guest that matches. Of
// several guests the clerk chooses: false then.
export function openSought() {
  if (cardSought()) {
    showWhose(cardSought());
    return true;
  }
  const room = hotel.rooms.find(row => row.room === sought());
  const found = room ? [guestOf(room.party)] : sought() ? [...hotel.house, ...hotel.bookings].filter(isSought) : [];
  if (room && !found[0]) showRoom(room.room);
  else if (found.length === 1) showGuest(found[0]);
  return Boolean(room) || found.length === 1;
}

// --- locks ----------------------------------------------------------------------------------------------------------

let imported = []; // what the last import answered

export function locks() {
  const free = hotel.rooms.filter(row => !row.party);
  const room = [words.room, row => button(row.room, () => showRoom(row.room), `room ${row.room}`, { class: "link" })];
  const columns = [room, [words.lockHas, row => code(row.held)], [words.setItTo, row => code(row.current)],
    [words.codesUnmet, row => row.awaited]];
  const files = el("input", { type: "file", accept: ".csv,text/csv", multiple: true, "data-key": "files",
    onchange: event => importAll([...event.target.files]) });
  const choice = el("select", { name: "room", "data-key": "refit" }, free.map(row => el("option", {}, row.room)));
  return [head(words.locks, printer(words.print)),
    card(words.locksToSet, hotel.behind.length ? [p(words.howToSet), table(words.locksToSet, columns, hotel.behind)]
      : none(words.allOpen)),
    pair(card(words.importing, p(words.importWhat), field(words.auditFiles, files)),
      card(words.replaceALock, p(words.replaceWhere), free.length
        ? form({ class: "row" }, values => refit(values.room), field(words.room, choice),
          el("button", { "data-key": "refit do" }, words.replaceWhich)) : none(words.allHaveGuests))),
    el("div", { id: "imported", "aria-live": "polite" }, imported)];
}

// Shows this of the import where the clerk sees it: the list of locks to set can be long.
function showImported(...shown) {
  $("imported")?.replaceChildren(...shown);
  $("imported")?.scrollIntoView({ block: "nearest" });
}

// Sends the files one after the other, and shows what was answered.
async function importAll(files) {
  imported = [];
  for (const file of files) {
    showImported(...imported, hint(words.isImported(file.name)));
    imported.push(card(file.name, await importOne(file)));
  }
  await refresh();
  showImported(...imported);
}

// The text of a file. Its folder may be gone.
async function textOf(file) {
  try {
    return await file.text();
  } catch {
    throw new Refused(...words.unreadable);
  }
}

async function importOne(file) {
  try {
    const text = await textOf(file);
    return shownImport(await sendFile(text), text.split(/\r\n|\n|\r/).filter(line => line !== "").slice(1));
  } catch (fault) {
    if (!isFault(fault)) throw fault;
    const [is, todo] = fault instanceof NoAnswer ? words.importLost : wordsOf(fault);
    return p(el("strong", {}, is), ` ${todo}`);
  }
}

// What became of the lines: first those that weren't taken, explained.
function shownImport(text, lines) {
  const answers = text.split("\n").filter(line => line !== "").map(line => {
    const [, number, answer] = /^(\d+) (.*)$/.exec(line);
    return { number, answer, line: lines[number - 1] ?? "" };
  });
  const bad = answers.filter(({ answer }) => answer !== "taken" && answer !== "seen");
  const count = word => answers.filter(({ answer }) => answer === word).length;
  const why = ({ answer }) => {
    const [is, todo] = explained(answer);
    return [el("strong", {}, is), ` ${todo}`];
  };
  return el("div", {}, p(words.importSum(count("taken"), count("seen"), bad.length)),
    bad.length ? tableOfFirst(words.linesNotTaken, [[words.line, row => row.number],
      [words.whatItSays, row => el("code", {}, row.line)], [words.why, why]], bad) : null,
    el("details", {}, el("summary", {}, words.eachLine), el("ol", { class: "lines" }, answers.map(row =>
      el("li", { value: row.number }, words.lineAnswers[row.answer] ?? explained(row.answer)[0])))));
}
