"""The reception's sheet: docs/CLERK.md, and a page of HTML in each language, which the clerk's page opens and prints.
The windows of guests and rooms show its rows of mistakes."""
import html
import re

from clerk_languages import BY_HAND, LANGUAGES, Speaker, texts_of
from clerk_screens import FEW, looked_at
from clerks import PAGE, TOP, Clerk, hotel
from reception import LOST_TRACK

GUIDE = TOP / "docs" / "CLERK.md"
# The rows of mistakes, as the cells of the HTML have them: what happened, and what to do.
MISTAKES = r'(?m)^<tr data-at="([\w ]+)"><td>(.*)</td><td>(.*)</td></tr>$'
# The windows that show rows: the words in `data-at`, and what is pressed to open each.
SHOWN = [({"house"}, "Ann Lee"), ({"booked"}, "Bo"), ({"house", "room"}, "room 101"), ({"free"}, "room 102")]


def inline(text):
    """Links to sections, words of the page, what is typed, and what matters most."""
    text = html.escape(text.replace("\\_", "_"), quote=False)
    for mark, made in ((r"\[([^\]]+)\]\(#([\w-]+)\)", r'<a href="#\2">\1</a>'), (r"\[([^\]]+)\]\([\w.]+\)", r"\1"),
                       (r"\*\*(.+?)\*\*", r"<b>\1</b>"), (r"\*(.+?)\*", r"<i>\1</i>"), ("`(.+?)`", r"<kbd>\1</kbd>")):
        text = re.sub(mark, made, text)
    return text


def block(lines, heading):
    """A part of a Markdown text that has no empty line, as lines of HTML, below this heading."""
    if lines[0].startswith("|"):
        rows = [[inline(cell.strip()) for cell in line.strip("|").split("|")] for line in lines]
        yield f'<table aria-labelledby="{heading}">'
        yield "<tr>" + "".join(f'<th scope="col">{cell}</th>' for cell in rows[0]) + "</tr>"
        yield from ("<tr>" + "".join(f"<td>{cell}</td>" for cell in row) + "</tr>" for row in rows[2:])
        yield "</table>"
    elif lines[0].startswith("1. "):
        yield "<ol>"
        yield from (f"<li>{inline(step)}</li>" for step in re.split(r" ?\b\d\. ", " ".join(map(str.strip, lines)))[1:])
        yield "</ol>"
    elif lines[0].startswith("#"):
        mark, _, name = lines[0].partition(" ")
        yield f'<h{len(mark)} id="{heading}">{name}</h{len(mark)}>'
    else:
        yield f"<p>{inline(' '.join(lines))}</p>"


def as_html(text):
    """The lines of HTML for this Markdown."""
    made, heading = [], ""
    for part in text.strip().split("\n\n"):
        if part.startswith("#"):
            heading = re.sub("[^a-z]+", "-", part.lower()).strip("-")
        made += block(part.split("\n"), heading)
    return made


def body(text):
    """The lines between the head of a sheet and its end, without what says which window shows a row."""
    inner = text.partition("<body>\n")[2].partition("\n</body>")[0]
    return re.sub(r' data-at="[\w ]+"', "", inner).split("\n")


def sheet_of(language):
    """The HTML of a sheet, each element of its body in a line."""
    return re.sub(r"\n +", " ", (PAGE / f"sheet-{language}.html").read_text())


def elements(text):
    """Those of a sheet, without their texts and the words of the page; with the places of rows and of links."""
    return re.sub("</?i>", "", re.sub(r">[^<]*", ">", text.partition("<body>")[2]))


def sheets(desk):
    """The sheet is the text of docs/CLERK.md, and has the same rows and steps in each language. The words that it takes
    from the page are the page's, in their order."""
    yield "docs/CLERK.md", as_html(GUIDE.read_text()), body(sheet_of("en"))
    with hotel(desk, FEW) as (_, site), Speaker(site, "en") as clerk:
        wanted = [names_of(word, clerk.english) for word in re.findall("<i>(.+?)</i>", sheet_of("en"))]
        for language in LANGUAGES:
            text, own = sheet_of(language), clerk.words(language)
            yield (language, "elements"), elements(sheet_of("en")), elements(text)
            shown = re.findall("<i>(.+?)</i>", text)
            yield (language, "words"), [], [(word, names) for word, names in zip(shown, wanted, strict=True)
                                            if names and not names & names_of(word, own)]
            yield (language, "the language"), True, f'<html lang="{language}">' in text


def leads_as_the_sheet(desk):
    """If the desk has lost track of a lock, the words of the refusal lead to a new number, as the sheet does. The
    room's window says what the sheet takes from it. A lock is read, or earlier cards are tried, before it is set."""
    with hotel(desk, FEW) as (_, site), Clerk(site) as clerk:
        for language in LANGUAGES:
            own = texts_of(clerk, language)
            for number in sorted(LOST_TRACK):
                yield (language, number), True, own["replaceALock"] in own[f"refusals.{number}"]
            for name, first, then in (("setLockTo", "import", own["setItTo"].lower()),
                                      ("howToSet", "import", BY_HAND[language]),
                                      ("earlierFirst", own["card"].lower(), BY_HAND[language])):
                told = own[name].lower()
                yield (language, name), True, -1 < told.find(first) < told.find(then)


def names_of(word, words):
    """The names of the page's words that are this text, as far as their last stop."""
    return {name for name, told in words.items() if isinstance(told, str) and told.strip("….").lower() == word.lower()}


def plain(text):
    """A text of the sheet without its elements."""
    return html.unescape(re.sub("<[^>]+>", "", text))


def sheet_in(language):
    """The test of the sheet in this language: one press at the page's foot opens it, it has two pages on paper, nothing
    is cut off in a narrow window, and the windows have its rows."""
    def test(desk):
        rows = re.findall(MISTAKES, sheet_of(language))
        with hotel(desk, FEW) as (_, site), Speaker(site, language) as clerk:
            for places, what in SHOWN:
                wanted = [(plain(happened), plain(todo)) for at, happened, todo in rows if places & set(at.split())]
                yield (what, "some"), True, len(wanted) > 1
                yield what, wanted, rows_in_window(clerk, what)
            page = clerk.browser.current_window_handle
            clerk.find("footer #sheet").click()
            clerk.until(lambda: len(clerk.browser.window_handles) == 2)
            clerk.browser.switch_to.window(next(one for one in clerk.browser.window_handles if one != page))
            yield "the sheet", clerk.own["sheet"], clerk.until(lambda: clerk.text("h1"))
            yield "on paper", 2, clerk.paper().count("\f")
            clerk.shot(f"sheet-{language}")
            clerk.command("Emulation.setDeviceMetricsOverride", width=360, height=740, mobile=False,
                          deviceScaleFactor=1)
            yield from looked_at(clerk, "narrow")
            yield "the console", [], clerk.faults()

    test.__name__ = f"sheet_in_{language}"
    return test


def rows_in_window(clerk, what):
    """The rows of mistakes that the window of a guest or a room shows, once it is asked."""
    clerk.go("Rooms" if what.startswith("room") else "Today")
    clerk.until(lambda: clerk.js("""
        const found = [...document.querySelectorAll('main button')].find(one =>
            one.dataset.key === arguments[0] || one.textContent === arguments[0]);
        found?.click();
        return Boolean(found)""", what))
    clerk.until(lambda: clerk.js("""
        const asked = [...document.querySelectorAll('dialog[open] summary')]
            .find(one => one.innerText === arguments[0]);
        asked?.click();
        return Boolean(asked)""", clerk.own["aMistake"]))
    rows = clerk.until(lambda: clerk.js("""
        const terms = document.querySelectorAll('dialog details[open] dt');
        return [...terms].map(one => [one, one.nextElementSibling].map(each =>
            each.textContent.replace(/\\s+/g, ' ')))"""))
    clerk.shot(f"mistake-{what}".replace(" ", "-").lower())
    clerk.type(clerk.keys.ESCAPE)
    clerk.closed()
    return [tuple(row) for row in rows or []]


SHEETS = [sheets, leads_as_the_sheet, *map(sheet_in, LANGUAGES)]
