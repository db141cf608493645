"""The words of hotels that the page and the reception's sheet use: in each language the same word for the same thing in
all texts. To add a language, add a column."""
import re

from clerk_languages import LANGUAGES, texts_of
from clerk_screens import FEW
from clerk_sheet import plain, sheet_of
from clerks import Clerk, hotel

# A word in each language, as a part of a pattern, and at last those that must not stand in its place. Where a text of
# the page has the English word, the text in another language has that language's word.
TABLE = [line.split(" / ") for line in """\
rooms?\\b(?!, card) / zimmer / chambre / habitaci / \\bräume?\\b|\\bpièce|\\bcuarto
room types? / zimmerkategorie / types? de chambre / tipos? de habitaci / zimmertyp|zimmerart|catégorie|categoría
guests? / gast|gäste / client / huésped / \\bkund|\\bhôtes?\\b|cliente|pasajero
booking|bookings / buchung / réservation / reserva / reservierung
arrivals? / anreise / arrivée / llegada / ankunft
departures? / abreise / départ / salida / abflug
nights? / nacht|nächte / nuit / noche / übernachtung|nuitée|pernocta
stays? \\b(?!shut) / aufenthalt / séjour / estancia / verweil|estadía
check(ed|s)? ([\\w ]+ )?in\\b / eingecheckt|einchecken / check-in / check-in / einbuchen|registre la entrada
check(ed|s)? ([\\w ]+ )?out\\b / ausgecheckt|auschecken|auszuchecken / check-out / check-out / ausbuchen|registre la sal
cancel(led)?\\b / storni / annul / anul / absagen|canceler|cancelar
(moved?|moving)( \\w+){0,2} (the guest|guest|7) / umziehen / dépla / c[aá]mbi / verlegen|déménag|traslad
cards? / karte / carte / tarjeta / schlüssel|\\bclés?\\b|llave
spare cards? / zusatzkarte / autre carte / otra tarjeta / ersatzkarte|carte de rechange|duplicado
lost cards? / verlorenen? karte|karte verloren / carte perdue / tarjeta perdida / verlegte|égarée|extraviada
locks?\\b(?! it away) / schl[oö]ss / serrure / cerradura / türschließ|verrou|cerrojo
codes? / code / code / código / kennzahl|clave
business days? / geschäftstage? / jour d'exploitation|exploitation / días? hotelero / buchungstag|journée hôtelière
in house / im haus / présent / alojad / anwesend|hébergé|hospedad
free\\b / frei / libre / libre / verfügbar|disponible
empty / leer / vide / vac[ií] / unbelegt|inoccupé
full\\b(?! or failing) / ausgebucht / complet / completo / voll besetzt|rempli|llena de
still inside / noch drin / encore dedans / aún dentro / noch innen|à l'intérieur|todavía
entered / eingetreten / entré / entr(ad|ar) / betreten|pénétré|ingresado
reader / lesegerät / lecteur / lector / leser\\b|scanner|escáner
import(s|ed|ing)?\\b / import / import / import / einlesen|charger le|cargue el
replace(d|s)?\\b / ersetz / remplac / sustitu / austausch|échanger la|reemplaz
files? / datei / fichier / archivo / akten|dossier|fichero
desk (has|hasn't|doesn't|answer|found|takes|knows|gave) / system / système / sistema / software|logiciel|programa
print\\b / druck / imprim / impr(im|es) / plotten|édite|estampar""".split("\n")]


def texts_in(clerk, language):
    """What the page and the sheet say in this language: each text by its place."""
    lines = sheet_of(language).partition("<body>")[2].split("\n")
    cells = [cell for line in lines for cell in re.split("</td><td>|</th><th[^>]*>", line)]
    return texts_of(clerk, language) | {f"sheet {at}": plain(cell) for at, cell in enumerate(cells)}


def has(pattern, text):
    return re.search(pattern, text.lower()) is not None


def hotel_words(desk):
    """Thirty words that hotels use: each text that has one in English has it in each language, and none has another."""
    yield "words", 30, len(TABLE)
    with hotel(desk, FEW) as (_, site), Clerk(site) as clerk:
        texts = {language: texts_in(clerk, language) for language in LANGUAGES}
    for english, *others, avoided in TABLE:
        places = [place for place, text in texts["en"].items() if has(rf"\b({english})\b", text)]
        yield (english, "used"), True, len(places) > 1
        for language, word in zip(LANGUAGES[1:], others, strict=True):
            yield (english, language), [], [(place, texts[language].get(place)) for place in places
                                            if not has(word, texts[language].get(place, ""))]
        for language in LANGUAGES[1:]:
            yield (avoided, language), [], [text for text in texts[language].values() if has(avoided, text)]
