// The view Set-up: the first business day, the room types, and the rooms. None of it can be changed or removed later,
// so each is asked once more.

import { act, commands, Lost } from "./commands.js";
import { longDay } from "./days.js";
import { chainOf, hotel, ifSoon, isFault, pause, refresh, rowOf } from "./desk.js";
import { askOnce, show, shut, whileHeld } from "./dialog.js";
import { acts, card, code, copier, el, field, first, form, head, none, p, pair, printer, so, table } from "./dom.js";
import { done, exclusively, run, wordsOf } from "./windows.js";
import { number, words } from "./words.js";

const typed = { kind: "", rooms: "", of: "" }; // it outlives the view

export function setup() {
  if (!hotel.today) return [head(words.setup), beginning()];
  const input = (name, props) => el("input", { name, value: typed[name], required: true, autocomplete: "off",
    "data-key": name, ...props });
  const kind = input("kind", { maxlength: 8, pattern: "[A-Za-z0-9]{1,8}" });
  const rooms = input("rooms", { placeholder: "101-110", pattern: "\\d{1,4}( ?- ?\\d{1,4})?" });
  const of = el("select", { name: "of", "data-key": "of" }, hotel.kinds.map(row =>
    el("option", { selected: row.kind === typed.of }, row.kind)));
  const keep = ({ target }) => {
    typed[target.name] = target.value;
  };
  return [head(words.setup), pair(
    card(words.roomTypes, hotel.kinds.length
      ? table(words.roomTypes, [[words.type, row => row.kind], [words.rooms, row => number(row.rooms)]], hotel.kinds)
      : none(words.noneYet),
    form({ class: "row", oninput: keep }, values => askKind(values.kind.toUpperCase()),
      field(words.newType, kind, words.typeForm), el("button", { "data-key": "add kind" }, words.addType))),
    card(words.rooms, p(words.roomsThereAre(hotel.rooms.length)), hotel.kinds.length
      ? form({ class: "row", oninput: keep }, askRooms, field(words.rooms, rooms, words.roomsForm),
        field(words.type, of), el("button", { "data-key": "add rooms" }, words.add))
      : none(words.typeFirst)))];
}

function beginning() {
  const day = el("input", { type: "date", name: "day", required: true, min: "2000-01-01", max: "2099-12-31",
    "data-key": "day" });
  return card(words.begin, p(words.firstDay), form({ class: "row" }, values => askBegin(values.day),
    field(words.day, day), el("button", { class: "main", "data-key": "begin" }, words.begin)));
}

const askBegin = day => askOnce(words.begin, [so(longDay(day)), p(words.beginsWith)], words.beginWithDay,
  () => run(commands.begin(day), () => done(words.itIs(longDay(day)))));

const askKind = kind => askOnce(words.addTypeNamed(kind), p(words.cantBeChanged), words.addTheType,
  () => run(commands.addKind(kind), () => {
    typed.kind = "";
    document.querySelector("main [name=kind]").value = "";
    done(words.typeAdded(kind));
  }));

// The numbers from the first to the last of what is typed.
function numbersOf(text) {
  const [from, to = from] = text.split("-").map(Number);
  return Array.from({ length: Math.max(0, to - from + 1) }, (_, at) => String(from + at));
}

function askRooms({ rooms, of: kind }) {
  const all = numbersOf(rooms), numbers = all.filter(room => !rowOf(room)), there = all.length - numbers.length;
  if (!numbers.length || all[0] === "0") {
    show(words.noRoomsToAdd, so(there ? words.roomsThereAlready : words.roomNumbers), acts(first(words.close, shut)));
    return;
  }
  askOnce(words.addRooms, [so(words.roomsOfType(numbers.length, kind, numbers[0], numbers.at(-1))),
    there ? p(words.leftOut(there)) : null, p(words.hotelThenHas(hotel.rooms.length + numbers.length))],
  words.addSoMany(numbers.length), () => addRooms(numbers, kind));
}

const PACE = 20; // milliseconds between two rooms: the server takes a hundred requests a second

// Adds a room. Its code; or why it wasn't added, in words.
async function addRoom(room, kind) {
  try {
    return { code: (await act(commands.addRoom(room, kind))).split(" ").at(-1) };
  } catch (fault) {
    if (!(fault instanceof Lost)) {
      if (!isFault(fault)) throw fault;
      return { why: wordsOf(fault) };
    }
    const [isDone, told] = await fault.found();
    return isDone ? { code: (await chainOf(room))[0].code } : { why: [words.gaveNoAnswer, told] };
  }
}

// Adds rooms one after the other, up to the first one that isn't added, and shows the codes to set their locks to.
const addRooms = (numbers, kind) => exclusively(words.toAddRooms, async () => {
  const added = [];
  const why = await whileHeld(p(words.adding(el("span", { id: "adding" }))), async () => {
    for (const room of numbers) {
      const { code, why } = await addRoom(room, kind);
      if (why) return why;
      added.push([room, code]);
      const shown = document.getElementById("adding");
      if (shown) shown.textContent = words.countOf(added.length, numbers.length);
      await pause(PACE);
    }
    return undefined;
  });
  if (!why) typed.rooms = "";
  await ifSoon(refresh());
  showAdded(added, why && { room: numbers[added.length], why });
});

function showAdded(added, stopped) {
  const reason = stopped ? [so(words.roomNotAdded(stopped.room, stopped.why[0])), p(stopped.why[1])] : [];
  if (!added.length) {
    show(words.noRoomAdded, ...reason, acts(first(words.close, shut)));
    return;
  }
  const all = added.map(row => row.join(" ")).join("\n");
  show(words.setTheseLocks, ...reason, p(words.setEach),
    acts(first(words.done, shut), printer(words.printCodes), copier(all, words.allCodes)),
    el("div", { class: "slip" }, table(words.codesOfRooms,
      [[words.room, row => row[0]], [words.code, row => code(row[1])]], added)));
}
