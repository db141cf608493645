"""The page's languages: each has the same words, no word is outside of their modules, views and windows hold in a
narrow window in each, and which one is chosen."""
import re
import time

from clerk_doings import search
from clerk_screens import FEW, WINDOWS, looked_at, opened
from clerks import PAGE, Clerk, hotel

LANGUAGES = ["en", "de", "fr", "es"]
# Guests with long names: one to come, one in house.
LONG = """reserve DBL 2031-12-30 9 Zo\u00eb M\u00fcller-L\u00fcdenscheidt von und zu Oberwinter
reserve DBL 2031-05-01 2 Wolfgang Amadeus Donaudampfschifffahrtsgesellschaft
check-in 6 103
"""
# The widths of a phone and of a tablet, and whether they are touched.
SIZES = [(360, False), (768, True)]
# The first of May in each.
FIRST = {"en": "Thursday, 1 May 2031", "de": "Donnerstag, 1. Mai 2031", "fr": "jeudi 1 mai 2031",
         "es": "jueves, 1 de mayo de 2031"}
# A number, and the moment of this note, in each.
NUMBERS = {"en": "15,560", "de": "15.560", "fr": "15\u202f560", "es": "15.560"}
MOMENTS = {"en": "1 May 2031, 15:00:00", "de": "01.05.2031, 15:00:00", "fr": "1 mai 2031, 15:00:00",
           "es": "1 may 2031, 15:00:00"}
# How the sheet calls setting a lock, and the button of a window that Enter presses.
BY_HAND = {"en": "by hand", "de": "von hand", "fr": "à la main", "es": "a mano"}
COLOURED = {"en": "coloured button", "de": "farbigen Knopf", "fr": "bouton de couleur", "es": "botón de color"}
NOTE = "room,fit,count,kind,card,old,new,at\n101,1,1,in,1,{},{},2031-05-01T15:00:00\n"
# The words of a language: each by its path, with the number of arguments of a function, and else the text.
WORDS = """
const all = {}, done = arguments[1];
function collect(path, told) {
    if (typeof told === 'function') all[path] = told.length;
    else if (typeof told === 'string' || told instanceof RegExp) all[path] = String(told);
    else for (const [name, one] of Object.entries(told)) collect(path ? `${path}.${name}` : name, one);
}
import(`/words-${arguments[0]}.js`).then(({words}) => { collect('', words); done(all); });"""
# The texts of a language by their paths: a function with the same for each gap.
TEXTS = """
const all = {}, done = arguments[1];
function filled(told) {
    const gaps = gap => told(...Array(told.length).fill(gap));
    try { return gaps('7'); } catch { return gaps(text => text); }
}
function collect(path, told) {
    if (typeof told === 'function') told = filled(told);
    if (Array.isArray(told)) all[path] = told.flat(9).join(' ');
    else if (typeof told === 'object' && !(told instanceof RegExp)) {
        for (const [name, one] of Object.entries(told)) collect(path ? `${path}.${name}` : name, one);
    } else all[path] = String(told);
}
import(`/words-${arguments[0]}.js`).then(({words}) => { collect('', words); done(all); });"""
# A module in a language's place: English, with each text in brackets.
MARKED = """
import { words as plain } from "./words-en.js";
function marked(told) {
  if (typeof told === "string") return `⟦${told}⟧`;
  if (typeof told === "function") return (...given) => marked(told(...given));
  if (told instanceof Node || told instanceof RegExp) return told;
  if (Array.isArray(told)) return told.map(marked);
  return Object.fromEntries(Object.entries(told).map(([name, one]) => [name, marked(one)]));
}
export const words = { ...marked(plain), language: "es", locale: plain.locale };
"""
# The texts of the page, also of what isn't shown now, without those in brackets.
UNMARKED = """
const bare = text => {
    for (let last; last !== text;) { last = text; text = text.replace(/⟦[^⟦⟧]*⟧/g, ' '); }
    return text;
};
const skipped = '.guest, .code, code, #hotel, #login, #language, noscript, kbd';
const texts = [document.title];
for (const one of document.body.querySelectorAll('*')) {
    if (one.closest(skipped)) continue;
    for (const node of one.childNodes) if (node.nodeType === 3) texts.push(node.data);
    for (const name of ['aria-label', 'title', 'placeholder', 'alt']) texts.push(one.getAttribute(name) ?? '');
}
return texts.map(bare)"""
# What is no word of the page: names of guests, types, the hotel and days.
DATA = set("""Ann Lee Bo Cy Dora Eve DBL SGL TRP desk hotel example csv wrong
    Mon Tue Wed Thu Fri Sat Sun Monday Tuesday Wednesday Thursday Friday Saturday Sunday May June""".split())


def texts_of(clerk, language):
    return clerk.browser.execute_async_script(TEXTS, language)


class Speaker(Clerk):
    """A clerk at the page in a language. What is to be pressed is named in English."""

    def __init__(self, site, language):
        super().__init__(site)
        self.english = self.words("en")
        self.speak(language)

    def words(self, language):
        return self.browser.execute_async_script(WORDS, language)

    def speak(self, language):
        """Chooses the language at the page's foot."""
        self.own = self.words(language)
        self.js("""
            const choice = document.getElementById('language');
            choice.value = arguments[0];
            window.isOld = true;
            choice.dispatchEvent(new Event('change'))""", language)
        self.until(lambda: self.js("return window.isOld === undefined && document.documentElement.lang") == language)
        self.ready()
        self.until(lambda: self.js("return document.querySelector('header nav [aria-current]') !== null"))

    def press(self, text, near=None, top="//body"):
        paths = [path for path, told in self.english.items() if told == text]
        super().press(self.own[paths[0]] if paths else text, near, top)


def columns(told):
    """The names of columns in a text, such as `(count)`."""
    return re.findall(r"\(([a-z]+)\)", told) if isinstance(told, str) else []


def the_same_words(desk):
    """Each language has each word, with as many arguments, and in words of its own; and the page uses each."""
    used = "".join(file.read_text() for file in PAGE.glob("*") if file.suffix in (".js", ".html") and not
                   file.name.startswith("words-"))
    names = set(re.findall(r"(?:[^/]\bwords\.|data-word=\")(\w+)", used))
    with hotel(desk, FEW) as (_, site), Clerk(site) as clerk:
        english = clerk.browser.execute_async_script(WORDS, "en")
        yield "used", names, {path.split(".")[0] for path in english}
        for language in LANGUAGES[1:]:
            own = clerk.browser.execute_async_script(WORDS, language)
            yield (language, "missing"), set(), set(english) ^ set(own)
            yield (language, "arguments"), [], [path for path in english if isinstance(english[path], int)
                                                and english[path] != own.get(path)]
            # Some words are the same in two languages.
            alike = [path for path in english if isinstance(english[path], str) and english[path] == own.get(path)
                     and len(english[path].split()) > 1]
            yield (language, "alike"), [], alike
            # A technician finds the column of an audit file by its name.
            yield (language, "columns"), {path: columns(told) for path, told in english.items()}, {
                path: columns(told) for path, told in own.items()}
            yield (language, "gaps"), [], [path for path in english if isinstance(english[path], str)
                                           and ("{}" in english[path]) != ("{}" in str(own.get(path)))]


def words_left(clerk):
    """The words of the page that no module has."""
    return sorted({word for text in clerk.js(UNMARKED) for word in re.findall(r"[^\W\d_]{2,}", text)} - DATA)


def no_word_outside(desk):
    """With a language whose texts are all in brackets no view, window or message has a word that isn't."""
    with hotel(desk, FEW) as (between, site):
        (site.folder / "usr/share/hotel-desk/page/words-es.js").write_text(MARKED)
        with Speaker(site, "es") as clerk:
            for view in "Today", "Book", "Rooms", "Guests", "Locks", "Set-up":
                clerk.go(view)
                time.sleep(0.3)
                yield view, [], words_left(clerk)
            for view, presses, title in WINDOWS:
                opened(clerk, view, presses)
                clerk.until(lambda: clerk.js("return document.getElementById('dialog').open"))
                time.sleep(0.3)
                yield (view, title), [], words_left(clerk)
                clerk.type(clerk.keys.ESCAPE)
                clerk.closed()
            for given, typed in messages(clerk, between, site):
                yield given, [], [word for word in words_left(clerk) if word not in typed]


def messages(clerk, between, site):
    """What comes of commands, searches, imports, and lost answers: a name of each while it is shown, and what was typed
    into the search."""
    clerk.js("location.hash = '2031-05-02'")
    clerk.until(lambda: clerk.text("#night table"))
    yield "another day", ""
    for sought in "card 1", "card 77", "nobody":
        search(clerk, sought, clerk.keys.ENTER)
        time.sleep(0.5)
        yield sought, sought
        clerk.type(clerk.keys.ESCAPE)
    for lose in None, "silent answer", "silent request", "store":
        between.lose = lose
        clerk.go("Book")
        clerk.fill(kind="DBL", arrive="2031-05-09", nights="1", guest="Eve")
        clerk.js("document.querySelector('[data-key=book]').click()")
        clerk.until(lambda: "Eve" in clerk.text("#said") if lose is None
                    else "Please" not in clerk.text("dialog p + .so"))
        time.sleep(4 if lose else 0.5)
        yield f"book, {lose}", ""
        clerk.type(clerk.keys.ESCAPE)
    (site.folder / "wrong.csv").write_text("room,fit,count,kind,card,old,new,at\n101,1,1,in\n999,1,1,recode,,a0,a1,"
                                           "2031-05-01T15:00:00\n")
    clerk.go("Locks")
    clerk.until(lambda: clerk.find("[type=file]").send_keys(f"{site.folder}/wrong.csv") or True)
    clerk.until(lambda: clerk.text("#imported table"))
    yield "an import", ""
    clerk.go("Set-up")
    clerk.fill(rooms="301-302", of="DBL")
    clerk.press("Add")
    clerk.js("document.querySelector('dialog .main').click()")
    clerk.until(lambda: clerk.text("dialog .slip"))
    yield "added rooms", ""
    clerk.type(clerk.keys.ESCAPE)
    between.end()
    clerk.seen()
    clerk.until(lambda: clerk.text("#alone"))
    yield "no answer", ""
    between.begin()


def narrow_messages(language):
    """The test that in a window of 360 pixels nothing is cut off of what comes of commands, in this language."""
    def test(desk):
        with hotel(desk, FEW + LONG.encode()) as (between, site), Speaker(site, language) as clerk:
            clerk.command("Emulation.setDeviceMetricsOverride", width=360, height=1000, mobile=False,
                          deviceScaleFactor=1)
            for given, _ in messages(clerk, between, site):
                yield from looked_at(clerk, given)
                clerk.shot(f"360-{language}-{given}".replace(" ", "-"))

    test.__name__ = f"messages_{language}"
    return test


def narrow_windows(language, width, is_touched):
    """The test that in a window of this width nothing is cut off in this language, also of what windows fold."""
    def test(desk):
        with hotel(desk, FEW + LONG.encode()) as (_, site), Speaker(site, language) as clerk:
            clerk.command("Emulation.setDeviceMetricsOverride", width=width, height=1000, mobile=is_touched,
                          deviceScaleFactor=1)
            clerk.command("Emulation.setTouchEmulationEnabled", enabled=is_touched)
            clerk.go("Today")
            yield "the day", FIRST[language], clerk.until(lambda: clerk.raw("h1"))
            yield "the view", clerk.own["today"], clerk.text("header nav [aria-current]")
            for view in "Today", "Book", "Rooms", "Guests", "Locks", "Set-up":
                clerk.go(view)
                time.sleep(0.3)
                yield from looked_at(clerk, view)
                clerk.shot(f"{width}-{language}-{view.lower()}")
            for view, presses, title in WINDOWS:
                opened(clerk, view, presses)
                clerk.until(lambda: clerk.js("return document.getElementById('dialog').open"))
                clerk.js("for (const one of document.querySelectorAll('dialog details')) one.open = true")
                time.sleep(0.2)
                yield from looked_at(clerk, title)
                clerk.shot(f"{width}-{language}-{view}-{title.strip()}".replace(" ", "-").lower())
                clerk.type(clerk.keys.ESCAPE)
                clerk.closed()
            yield "the console", [], clerk.faults()

    test.__name__ = f"windows_{language}_{width}"
    return test


def written(desk):
    """Numbers, days, moments and what is printed are in the page's language, and so is the name of a saved print."""
    with hotel(desk, FEW) as (_, site), Speaker(site, "en") as clerk:
        codes = [line.split(",")[1] for line in site.ask("GET /desk/rooms/101/chain")[2].decode().splitlines()[1:]]
        site.ask("POST /desk/audit", NOTE.format(*codes).encode())
        for language in LANGUAGES:
            clerk.speak(language)
            clerk.go("Today")
            own = clerk.own
            yield (language, "a number"), NUMBERS[language], re.search(r"15\D?560", clerk.browser.execute_async_script(
                "import('/words.js').then(({words}) => arguments[0](words.moreRows(15560)))"))[0]
            yield (language, "the name of a print"), True, clerk.browser.title.startswith(FIRST[language])
            paper = clerk.paper().lower()
            yield (language, "on paper"), [], [text for text in (
                FIRST[language], own["arrivals"], own["departuresDue"], own["inHouse"], own["until"], own["entered"])
                if text.lower() not in paper]
            clerk.go("Rooms")
            clerk.js("document.querySelector(`[data-key='room 101']`).click()")
            yield (language, "a moment"), True, clerk.shows(MOMENTS[language])
            clerk.type(clerk.keys.ESCAPE)
        yield "the console", [], clerk.faults()


def chosen_languages(desk):
    """The page is in the first language of the browser's that it has, else in English; a choice at its foot stays."""
    with hotel(desk, FEW) as (_, site), Clerk(site) as clerk:
        yield "by default", "en", clerk.js("return document.documentElement.lang")
        for languages, shown in (["fr-CH", "de"], "fr"), (["it-IT", "es-MX", "en"], "es"), (["ja"], "en"):
            clerk.command("Emulation.setUserAgentOverride", userAgent="test", acceptLanguage=",".join(languages))
            clerk.reload()
            yield languages, shown, clerk.until(lambda: clerk.js("return document.documentElement.lang"))
        clerk.js("""
            document.getElementById('language').value = 'de';
            document.getElementById('language').dispatchEvent(new Event('change'))""")
        yield "chosen", True, clerk.shows("Donnerstag, 1. Mai 2031", "h1")
        clerk.reload()
        yield "it stays", True, clerk.shows("Donnerstag, 1. Mai 2031", "h1")
        yield "the console", [], clerk.faults()


SPOKEN = [*(narrow_windows(language, *size) for language in LANGUAGES for size in SIZES),
          *map(narrow_messages, LANGUAGES), no_word_outside,
          the_same_words, written, chosen_languages]
