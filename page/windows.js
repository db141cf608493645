// The windows in which something is done: for a guest, a card, a room, a lock; and what came of it.

import { act, cardOf, commands, Lost, roomOfCard } from "./commands.js";
import { longDay, moment, nightsOf, shortDay } from "./days.js";
import { cardRow, cardsIn, chainOf, freeRooms, guestOf, hotel, ifSoon, isDue, isEmpty, isFault, isStuck, list, refresh,
  Refused, rowOf, stateOf } from "./desk.js";
import { askOnce, isShown, show, showWhenReady, shut, whileHeld } from "./dialog.js";
import { acts, button, code, copier, el, first, form, guestName, hint, none, p, pair, printer, rowButton, say, so,
  tableOfFirst, table } from "./dom.js";
import { mistakes } from "./mistakes.js";
import { explained, stateWord, words } from "./words.js";

// --- doing ----------------------------------------------------------------------------------------------------------

let doing; // in words, what is being done
let isAnswered; // whether the desk has answered it, and only the lists are still asked
let begin; // begins what comes next, if something waits for the lists
export const isDoing = () => doing !== undefined;

// What is being done, once more: an element can be in one place alone.
const again = what => what.map(part => part.cloneNode?.(true) ?? part);
const asked = (command, tell = words.asked) => el("p", { class: "what" }, tell(again(command.what)));

// Does this, unless something else is being done, or waits for it. Whether it was begun.
export async function exclusively(what, does) {
  if (doing && (begin || !isAnswered)) {
    say(words.stillAsked(again(doing)));
    return false;
  }
  if (doing) {
    await new Promise(then => {
      begin = then;
    });
  }
  doing = what;
  isAnswered = false;
  begin = undefined;
  document.body.classList.add("busy");
  try {
    await does();
  } finally {
    doing = undefined;
    document.body.classList.remove("busy");
    begin?.();
  }
  return true;
}

// Carries out a command, and shows what came of it: `onanswer` gets the answer, and whether the lists are of after it.
// `onundone` is called if nothing was done.
export async function run(command, onanswer, onundone = () => undefined) {
  const isBegun = await exclusively(command.what, async () => {
    try {
      const answer = await whileHeld(asked(command), () => act(command));
      isAnswered = true;
      await onanswer(answer, Boolean(await ifSoon(refresh())));
    } catch (fault) {
      if (fault instanceof Lost) await showLost(fault, onundone);
      else await showFault(fault, command, onundone);
    }
  });
  if (!isBegun) onundone();
}

// What is so, and what to do.
export const wordsOf = fault =>
  fault instanceof Refused ? fault.words ?? explained(fault.message, longDay) : words.unsent;

async function showFault(fault, command, onundone) {
  if (!isFault(fault)) throw fault;
  onundone();
  const [is, todo] = wordsOf(fault);
  await ifSoon(refresh());
  show(words.wasntDone, asked(command), so(is), p(todo), acts(first(words.close, shut)));
}

const TITLES = new Map([[true, words.wasDone], [false, words.wasntDone], [undefined, words.maybeDone]]);
const THEN = new Map([[true, words.listsSay], [false, words.canRepeat]]);

// A lost answer: the command may have been done. The lists say whether it was; the clerk decides what comes next.
async function showLost(lost, onundone) {
  const wait = so(words.listsAreAsked);
  show(words.maybeDone, asked(lost.command, words.askedInVain), wait, acts(button(words.close, shut)));
  const [isDone, told, isOthers] = await lost.found();
  if (isDone === false) onundone();
  await ifSoon(refresh());
  if (!isShown() || !wait.isConnected) { // the clerk has closed it, or opened another one
    say(words.result(TITLES.get(isDone), again(lost.command.what), told), { mustClose: true });
    return;
  }
  const cause = /refused (29|30)/.test(lost.message) ? explained(lost.message).join(" ") : "";
  const guest = isDone !== false && guestOf(lost.command.card);
  show(TITLES.get(isDone), asked(lost.command, words.askedInVain), cause ? p(cause) : null, so(told),
    THEN.has(isDone) && !isOthers ? p(THEN.get(isDone)) : null,
    guest ? acts(first(words.spareCard, () => spare(guest)), button(words.close, shut))
      : acts(first(words.close, shut)));
}

// Closes the window, and says what was done.
export const done = (...told) => {
  if (isShown()) shut();
  say(told);
};

// --- cards ----------------------------------------------------------------------------------------------------------

// What is to be written or set, each with its name, in big letters, and ready to be copied.
const slipRow = ([term, id, text, shown = text]) =>
  [el("dt", {}, term), el("dd", { id }, shown), el("dd", {}, copier(text, term))];
const slip = (rows, ...top) => el("div", { class: "slip" }, top, el("dl", {}, rows.map(slipRow)));
const codeRow = (term, id, text) => [term, id, text, code(text)];

// A new card: its number and codes, to be written, copied or printed. `room` is the one that its codes are of, if that
// is known; `note` says what to do with it, after these warnings, and `ifStuck` what to do if the lock waits.
function showCard(answer, { guest, depart }, { room, isFresh, note = words.write,
  ifStuck = `${note} ${words.earlierFirst}`, warnings = [] }) {
  const card = cardOf(answer);
  const isWaiting = room && isFresh && isStuck(rowOf(room));
  const stuck = !room ? words.roomUnknown : !isFresh ? words.lockUnknown : isWaiting ? words.lockIsStuck : "";
  show(room ? words.cardForRoom(card.number, room) : words.cardNo(card.number),
    slip([[words.card, "card-number", card.number], codeRow(words.oldCode, "card-old", card.old),
      codeRow(words.newCode, "card-new", card.fresh)], p(words.guestUntil(guestName(guest), shortDay(depart)))),
    [...warnings, stuck].filter(Boolean).map(warning => so(warning)), p(isWaiting ? ifStuck : note),
    acts(first(words.done, shut), printer(words.printSlip),
      button(words.spareCard, () => spare({ party: card.party, guest, depart }))));
}

// Shows a card for the room in which the guest is now. Another clerk may have moved the guest since the guest's row was
// drawn.
const cardOfGuest = (guest, notes) => async (answer, isFresh) => {
  const room = isFresh ? await roomOfCard(cardOf(answer)) : undefined;
  const isMoved = room && guest.room && room !== guest.room;
  const warnings = isMoved ? [words.othersMovedGuest(guest.room, room)] : [];
  showCard(answer, guest, { room, isFresh, warnings, ...notes });
};

const spare = guest => run(commands.spare(guest), cardOfGuest(guest));

const lostCard = guest => askOnce(words.replaceLost, p(words.lostAsked(guest.room, guestName(guest.guest))),
  words.writeNew,
  () => run(commands.reissue(guest), cardOfGuest(guest, { note: words.enterAtOnce, ifStuck: words.setAtOnce })));

// --- a guest --------------------------------------------------------------------------------------------------------

const inTheWay = row =>
  [isStuck(row) && words.lockWaits, !isEmpty(row) && words.stillInside].filter(Boolean).join(", ");

// The rooms to choose from, as large radio buttons. The first one is chosen, unless somebody may still be in it.
const roomChoice = rooms => el("fieldset", { class: "choice" }, el("legend", {}, words.room), rooms.map((row, at) =>
  el("label", {}, el("input", { type: "radio", name: "room", value: row.room, required: true, autofocus: at === 0,
    checked: at === 0 && isEmpty(row) }), el("strong", {}, row.room),
    inTheWay(row) ? el("small", {}, inTheWay(row)) : null)));

const NAMED = 5; // rooms whose guests who are still inside are named

// The free rooms of the guest's type, by lists that are asked anew, and who is still inside.
async function roomsFor(guest) {
  const isFresh = await refresh();
  const rooms = freeRooms(guest.kind).filter(row => row.room !== guest.room);
  const left = rooms.filter(row => cardsIn(row.room).length).slice(0, NAMED);
  const names = await Promise.all(left.map(row => showInside(row.room).catch(() => [])));
  const inside = left.flatMap((row, at) => names[at].length ? [` ${row.room}: `, ...names[at]] : []);
  return { isFresh, rooms, inside };
}

// Asks for one of these.
const chooseRoom = (title, guest, lead, doing, onroom) => showWhenReady(roomsFor(guest), found => {
  const { isFresh, rooms, inside } = found;
  if (!isFresh || !rooms.length) {
    const [is, todo] = isFresh ? words.noneFree(guest.kind) : words.unsent;
    show(title, p(lead), so(is), p(todo), acts(first(words.close, shut)));
    return;
  }
  show(title, form({}, values => onroom(values.room), p(lead), roomChoice(rooms),
    rooms.some(isEmpty) ? null : so(words.maybeInside),
    rooms.every(isEmpty) ? null : hint(words.insideMeans, inside), rooms.some(isStuck) ? hint(words.waitsMeans) : null,
    acts(el("button", { class: "main" }, doing), button(words.dont, shut))));
});

const nights = row => nightsOf(row.arrive, row.depart);

const checkIn = booking => chooseRoom(words.checkInWhom(guestName(booking.guest)), booking,
  words.stayUntil(booking.kind, nights(booking), shortDay(booking.depart)), words.checkIn,
  room => run(commands.checkIn(booking, room), (answer, isFresh) => showCard(answer, booking, { room, isFresh })));

const move = guest => chooseRoom(words.moveWhom(guestName(guest.guest)), guest, words.moveFrom(guest.room, guest.kind),
  words.move, room => run(commands.transfer(guest, room),
    (answer, isFresh) => showCard(answer, guest, { room, isFresh, note: words.writeAndCollect(room) })));

export const checkOut = guest => askOnce(words.checkOutWhom(guestName(guest.guest)),
  p(words.outAsked(guest.room, shortDay(guest.depart))), words.checkOut,
  () => run(commands.checkOut(guest), () => done(...words.isOut(guestName(guest.guest)))));

export const cancel = booking => askOnce(words.cancelWhose(guestName(booking.guest)),
  p(words.cancelAsked(booking.party, booking.kind, nights(booking), shortDay(booking.arrive))), words.cancelBooking,
  () => run(commands.cancel(booking), () => done(...words.isCancelled(guestName(booking.guest)))));

const GUEST_ACTS = [[words.checkOut, checkOut], [words.spareCard, spare], [words.lostCard, lostCard],
  [words.move, move]];

export const guestActs = guest => GUEST_ACTS.map(([text, onRow]) => rowButton(text, onRow, guest));
export const checkInButton = (booking, props) =>
  rowButton(words.checkIn, checkIn, booking, { class: "main", ...props });

export const bookingActs = (booking, props) => [isDue(booking) ? checkInButton(booking, props) : null,
  rowButton(words.cancel, cancel, booking)];

// What the desk can't do, and what is done in its place.
const otherwise = rows => el("details", {}, el("summary", {}, words.somethingElse),
  el("dl", { class: "otherwise" }, rows.map(([term, todo]) => [el("dt", {}, term), el("dd", {}, todo)])));

// The guest's window. The keyboard is on what does no harm: "Check in" asks for a room first.
export function showGuest(guest) {
  const where = guest.room ? words.guestAt(guest.room, guest.kind, shortDay(guest.depart))
    : words.bookingOf(guest.party, guest.kind, shortDay(guest.arrive), shortDay(guest.depart));
  const isAwaited = !guest.room && isDue(guest);
  show(guestName(guest.guest), p(where),
    acts(guest.room ? guestActs(guest) : bookingActs(guest, { autofocus: true }),
      button(words.close, shut, null, { autofocus: !isAwaited })),
    otherwise(guest.room ? words.otherwiseInHouse : words.otherwiseBooked), mistakes(guest.room ? "house" : "booked"));
}

// --- whose card -----------------------------------------------------------------------------------------------------

const OWNED = [[words.card, row => row.card], [words.oldCode, row => code(row.old)],
  [words.newCode, row => code(row.new)]];

async function cardLists(number) {
  try {
    const card = await cardRow(number);
    return { card, cards: card ? await list(`/parties/${card.party}/cards`) : [] };
  } catch (fault) {
    if (!isFault(fault)) throw fault;
    return { why: wordsOf(fault) };
  }
}

// Whose card has this number, and the guest's other cards.
export const showWhose = number => showWhenReady(cardLists(number), ({ card, cards, why }) => {
  if (!card) {
    const [is, todo] = why ?? words.noSuchCard;
    show(words.cardNo(number), so(is), p(todo), acts(first(words.close, shut)));
    return;
  }
  const guest = guestOf(card.party), room = hotel.inside.find(row => row.card === card.card)?.room;
  const isNewest = cards.at(-1).new === card.new;
  show(words.whoseCard(card.card, guestName(card.guest)),
    p(guest ? words.roomUntil(guest.room, shortDay(guest.depart)) : words.hasCheckedOut),
    room ? p(words.cardInside(room)) : null,
    guest ? p(isNewest ? words.isNewest : words.isOlder) : null,
    acts(guest ? button(words.toGuest, () => showGuest(guest)) : null, first(words.close, shut)),
    el("h3", {}, words.cardsOfGuest), tableOfFirst(words.cardsNewestFirst, OWNED, cards.toReversed()));
});

// Those whose cards are inside a room, each as a button that shows whose card it is.
const showInside = room => Promise.all(cardsIn(room).map(async ({ card, party }) => {
  const guest = guestOf(party)?.guest ?? (await cardRow(card)).guest;
  return button(words.guestWithCard(guestName(guest), card), () => showWhose(card), null, { class: "link" });
}));

// --- a room and its lock --------------------------------------------------------------------------------------------

const CODES = [[words.number, row => row.place], [words.code, row => code(row.code)],
  [words.inTheLock, row => stateWord(row.state)]];
const NOTES = [[words.when, row => moment(row.at)], [words.what, row => words.happened[row.kind]],
  [words.card, row => row.card || "–"], [words.lock, row => row.fit], [words.count, row => row.count]];

async function roomLists(room) {
  try {
    return await Promise.all([chainOf(room), list(`/rooms/${room}/audit`), showInside(room)]);
  } catch (fault) {
    if (!isFault(fault)) throw fault;
    return [undefined, wordsOf(fault)];
  }
}

export const showRoom = room => showWhenReady(roomLists(room), ([chain, notes, inside]) => {
  if (!chain) {
    show(words.roomNo(room), so(notes[0]), p(notes[1]), acts(first(words.close, shut)));
    return;
  }
  const row = rowOf(room), [state, word, meaning] = stateOf(row), guest = guestOf(row.party);
  show(words.roomNo(room),
    p(`${row.kind} · `, el("span", { class: `state ${state}` }, word), meaning ? `. ${meaning}` : ""),
    isStuck(row) ? so(words.setLockTo(code(chain.at(-1).code))) : null,
    guest ? p(words.guestUntil(guestName(guest.guest), shortDay(guest.depart))) : null,
    inside.length ? p(words.inside, inside.flatMap((one, at) => at ? [", ", one] : [one])) : null,
    acts(guest ? guestActs(guest) : row.party ? null : button(words.replaceTheLock, () => refit(room)),
      button(words.close, shut, null, { autofocus: true })),
    mistakes(...guest ? ["house", "room"] : ["free"]),
    pair(el("section", {}, el("h3", {}, words.codes), table(words.codes, CODES, chain)),
      el("section", {}, el("h3", {}, words.reported), notes.length
        ? tableOfFirst(words.notes, NOTES, notes.toReversed()) : none(words.nothingImported)))
  ).classList.add("wide");
});

export const refit = room => askOnce(words.replaceLockOf(room), [p(words.makeSure),
  el("ul", {}, words.beforeReplacing.map(text => el("li", {}, text))), p(words.cantBeUndone)],
words.replaceTheLock, () => run(commands.refit(room), answer => {
  const [, fit, fresh] = /^lock (\d+) code (\w+)$/.exec(answer);
  show(words.newLockOf(room),
    slip([[words.room, null, room], [words.lockNumber, null, fit], codeRow(words.code, "lock-code", fresh)]),
    p(words.setNewLock(fit)), acts(first(words.done, shut), printer(words.printSlip)));
}));
