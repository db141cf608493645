// The page's words, in the language that was chosen at its foot, or else the first that the browser asks for; and what
// the desk's refusals mean to a clerk.

export const LANGUAGES = { en: "English", de: "Deutsch", fr: "Français", es: "Español" };

const asked = [localStorage.getItem("language"), ...navigator.languages.map(name => name.split("-")[0])];
const language = asked.find(name => Object.hasOwn(LANGUAGES, name)) ?? "en";
export const { words } = await import(`./words-${language}.js`);
export const { format: number } = new Intl.NumberFormat(words.locale);

// Whether a code of a room is the one that its lock holds.
export const stateWord = state => words.codeStates[state] ?? state;

// What is so and what to do, for a body that the desk answered instead of what was asked; `day` writes a day.
export function explained(text, day = String) {
  const [, number, , more = ""] = /refused (\d+) (\w+) ?(.*)/.exec(text) ?? [];
  const found = words.refusals[number] ?? words.plain[text.trim()];
  if (found) return found.map(told => told.replace("{}", /^\d{4}-/.test(more) ? day(more) : more));
  const [, cause] = /unread (\w+)/.exec(text) ?? [];
  if (cause) return [words.unread[cause] ?? words.unreadLine, words.readAgain];
  return words.deskAnswered(text.trim().slice(0, 200));
}
