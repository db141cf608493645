// The commands, and whether one was done whose answer is lost (docs/HTTP.md, "Was it done?").
//
// A command has a path and a form, and says what it does (`what`). `look` asks the lists for what it changes: before
// the command, and after a lost answer. From both `verdict` says whether it was done: true, false, or undefined if
// another clerk's commands leave it open; in words what is so now; and whether that is another clerk's doing. `card` is
// the party whose card it issues.

import { ask, chainOf, guestOf, hotel, ifSoon, list, NoAnswer, pause, Refused, rowOf } from "./desk.js";
import { longDay, plus } from "./days.js";
import { guestName } from "./dom.js";
import { words } from "./words.js";

// --- looks ----------------------------------------------------------------------------------------------------------

const day = async () => (await list("/business-day"))[0]?.day ?? "";
const isBooked = async party => (await list("/bookings")).some(row => row.party === party);
const roomOf = async party => (await list("/in-house")).find(row => row.party === party)?.room ?? "";
const codesOf = async room => room ? (await chainOf(room)).length : 0;

// Where a guest is, how many codes that room has, and how many the room has that the command names.
const guestNow = (party, named) => async () => {
  const room = await roomOf(party);
  return { room, isBooked: await isBooked(party), codes: await codesOf(room), named: await codesOf(named) };
};

// The stays of this guest, kind and departure that are booked or in house.
const alike = ({ guest, kind, arrive, depart }) => async () =>
  [...await list("/bookings"), ...await list("/in-house")].filter(row => row.guest === guest && row.kind === kind
    && row.depart === depart && (row.arrive ?? arrive) === arrive).map(row => row.party);

const roomNow = room => async () =>
  ({ codes: await chainOf(room), party: (await list("/room-status")).find(row => row.room === room)?.party });

// --- verdicts -------------------------------------------------------------------------------------------------------

// A verdict in which another clerk's command is named: it says itself what to do.
const byOthers = told => [false, told, true];

const place = ({ room, isBooked }) =>
  room ? words.inHouseAt(room) : isBooked ? words.isBooked : words.isNeither;
const otherwise = now => words.othersChanged(place(now));
const isUnmoved = (before, after) => after.room && after.room === before.room && after.codes === before.codes;

// Of a check-in, or a move: the guest is in the room, and a code of it is new. A guest who is booked, or is where the
// guest was, wasn't brought in.
const isBrought = room => (before, after) => {
  if (after.isBooked || isUnmoved(before, after)) return [false, place(after)];
  if (after.room === room) return [true, `${place(after)} ${words.writeSpare}`];
  return after.named === before.named ? byOthers(otherwise(after)) : [undefined, otherwise(after)];
};

// Of a lost card: the guest's room has one more code. If the guest was moved, another room's codes show nothing.
function isReissued(before, after) {
  if (!before.room || isUnmoved(before, after)) return [false, place(after)];
  if (after.room === before.room) return [true, `${words.roomHasNewCode} ${words.writeSpare}`];
  return [undefined, after.room ? words.othersMoved(place(after)) : words.othersCheckedOut(place(after))];
}

// Of a spare card: the guest has one more card, with the codes of the last one.
function isSpare(before, after) {
  const fresh = after.slice(before.length);
  const last = before[before.length - 1];
  const same = fresh.find(card => card.old === last.old && card.new === last.new);
  if (same) return [true, words.spareIs(same.card, same.old, same.new)];
  return fresh.length ? byOthers(words.othersGaveCard) : [false, words.noNewCard];
}

// Of a new lock: its code is held at once, and no code of an earlier card is. A guest's new code isn't held at once.
function isRefitted(before, after) {
  const [fresh, ...others] = after.codes.slice(before.codes.length);
  const isGuests = after.party && !others.length;
  if (!fresh) return [false, words.noNewCode];
  if (fresh.state === "awaited" || isGuests) return byOthers(words.othersCheckedIn);
  if (fresh.state === "passed") return [undefined, words.othersChangedRoom];
  return [true, words.setLostLock(fresh.code)];
}

const isAdded = what => (before, now) => before ? [false, words.wasThere(what)]
  : now ? [true, words.isThere(what)] : [false, words.isntThere(what)];

// --- commands -------------------------------------------------------------------------------------------------------

export const commands = {
  begin: first => ({
    path: "/begin", form: { day: first }, what: words.toBegin(longDay(first)), look: day,
    verdict: (_, now) => now === first ? [true, words.hasBegun]
      : now ? [undefined, words.othersBegan(longDay(now))] : [false, words.hasntBegun],
  }),
  addKind: kind => ({
    path: "/kinds", form: { kind }, what: words.toAddType(kind),
    look: async () => (await list(`/availability/${hotel.today}/1`)).find(row => row.kind === kind),
    verdict: isAdded(words.theType),
  }),
  addRoom: (room, kind) => ({
    path: "/rooms", form: { room, kind }, what: words.toAddRoom(room),
    before: rowOf(room), // no look for each of many rooms
    look: async () => (await list("/room-status")).find(row => row.room === room),
    verdict: (before, now) => now && now.kind !== kind ? byOthers(words.othersAddedRoom(room, now.kind))
      : isAdded(words.roomNo(room))(before, now),
  }),
  reserve: (kind, arrive, nights, guest) => ({
    path: "/reservations", form: { kind, arrive, nights, guest }, what: words.toBook(kind, guestName(guest)),
    look: alike({ guest, kind, arrive, depart: plus(arrive, Number(nights)) }),
    verdict: (before, after) => {
      const fresh = after.filter(party => !before.includes(party));
      return fresh.length > 1 ? [true, words.areBookings(...fresh)]
        : fresh.length ? [true, words.isBooking(fresh[0])] : [false, words.noBooking];
    },
  }),
  cancel: ({ party, guest }) => ({
    path: `/reservations/${party}/cancel`, what: words.toCancel(guestName(guest)), look: guestNow(party),
    verdict: (_, now) => now.room ? byOthers(otherwise(now)) : now.isBooked ? [false, place(now)]
      : [true, words.bookingIsGone],
  }),
  checkIn: ({ party, guest }, room) => ({
    path: `/reservations/${party}/check-in`, form: { room }, what: words.toCheckIn(guestName(guest), room),
    look: guestNow(party, room), verdict: isBrought(room), card: party,
  }),
  spare: ({ party, guest }) => ({
    path: `/reservations/${party}/spare`, what: words.toSpare(guestName(guest)),
    look: () => list(`/parties/${party}/cards`), verdict: isSpare,
  }),
  reissue: ({ party, guest }) => ({
    path: `/reservations/${party}/reissue`, what: words.toReplaceCard(guestName(guest)), look: guestNow(party),
    verdict: isReissued, card: party,
  }),
  transfer: ({ party, guest }, room) => ({
    path: `/reservations/${party}/transfer`, form: { room }, what: words.toMove(guestName(guest), room),
    look: guestNow(party, room), verdict: isBrought(room), card: party,
  }),
  checkOut: ({ party, guest }) => ({
    path: `/reservations/${party}/check-out`, what: words.toCheckOut(guestName(guest)), look: guestNow(party),
    verdict: (before, now) => !now.room ? [true, words.notInHouse]
      : now.room === before.room ? [false, place(now)] : byOthers(otherwise(now)),
  }),
  refit: room => ({
    path: `/rooms/${room}/refit`, what: words.toReplaceLock(room), look: roomNow(room), verdict: isRefitted,
  }),
  nextDay: today => ({
    path: "/next-day", what: words.toBeginAfter(longDay(today)), look: day,
    only: today, // another clerk may have begun it
    verdict: (_, now) => [now !== today, words.businessDay(longDay(now))
      + (now > plus(today, 1) ? ` ${words.othersMovedDay}` : "")],
  }),
};

// --- carrying out ---------------------------------------------------------------------------------------------------

const AGAIN = 2000; // milliseconds between two looks

// A command whose answer is lost.
export class Lost extends Error {
  constructor(command, before, cause) {
    super(cause.message);
    Object.assign(this, { command, before });
  }

  // Asks the lists until they answer.
  async look() {
    for (;; await pause(1000)) {
      try {
        return this.command.verdict(this.before, await this.command.look());
      } catch (fault) {
        if (!(fault instanceof NoAnswer)) throw fault;
      }
    }
  }

  // The verdict. A network that comes back can bring the command to the desk after the list: so a command counts as
  // not done only if it still isn't some seconds later.
  async found() {
    const first = await this.look();
    if (first[0] !== false) return first;
    await pause(AGAIN);
    return this.look();
  }
}

// Carries a command out, once. It is never repeated here.
export async function act(command) {
  const before = "before" in command ? command.before : await command.look();
  if (command.only !== undefined && before !== command.only) {
    throw new Refused(...words.dayIsMoved);
  }
  try {
    return (await ask("POST", command.path, new URLSearchParams(command.form))).trim();
  } catch (fault) {
    throw fault instanceof NoAnswer ? new Lost(command, before, fault) : fault;
  }
}

// The number and the codes of a card in an answer.
export function cardOf(answer) {
  const [, number, party, old, fresh] = /^card (\d+) party (\d+) old (\w+) new (\w+)$/.exec(answer);
  return { number, party, old, fresh };
}

// The room of a card: where its party is in house, if that room has the card's code. Nothing, if that isn't known.
export async function roomOfCard({ party, fresh }) {
  const room = guestOf(party)?.room;
  if (!room) return undefined;
  const codes = await ifSoon(chainOf(room).catch(() => []));
  return codes?.some(row => row.code === fresh) ? room : undefined;
}
