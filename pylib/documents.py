"""Documents that are made, and those that are named."""
import collections
import os
import random
import xml.parsers.expat

WORDS = "a store keeps its goods in rows and each row has a number that is read aloud by whoever comes to look for it".split()
LEVELS = ["info", "info", "info", "warning", "error"]
# A document's title, its path, and the word for what it holds where it is made.
Document = collections.namedtuple("Document", "title path kind")


def write_records(out, count):
    out.write("<records>")
    for at in range(count):
        more = "<tag/>" if at % 3 == 0 else ""
        out.write(f'<record id="{at}"><name>n{at}</name><value>{at * 7 % 1000}</value>{more}</record>')
    out.write("</records>")


def write_names(out, count):
    choose = random.Random(7)
    out.write("<r>" + "".join(f"<a{choose.randrange(50)}/>" for _ in range(count)) + "</r>")


def write_log(out, megabytes, seed=1):
    chance, number = random.Random(seed), 0
    out.write('<?xml version="1.0" encoding="UTF-8"?>\n<log xmlns="urn:example:log">\n')
    while out.tell() < megabytes * 1_000_000:
        number += 1
        level = chance.choice(LEVELS)
        time = f"2024-03-{number % 28 + 1:02}T{number % 24:02}:{number % 60:02}:{number * 7 % 60:02}Z"
        message = f"request {number} took {chance.randrange(2000)} ms &amp; answered {chance.choice([200, 200, 200, 404, 500])}"
        out.write(f'  <entry time="{time}" level="{level}" host="h{number % 16}">')
        out.write(f"<from>192.168.{number % 256}.{chance.randrange(256)}</from><message>{message}</message></entry>\n")
    out.write("</log>\n")


def sentence(chance):
    text = " ".join(chance.choices(WORDS, k=chance.randrange(20, 60)))
    return chance.choice([text, text, text + " &lt;3 &#233;t\u00e9", f"<![CDATA[{text} & <more>]]>"])


def write_catalogue(out, megabytes):
    chance, number = random.Random(1), 0
    out.write('<?xml version="1.0"?>\n<?xml-stylesheet type="text/css" href="c.css"?>\n<!DOCTYPE catalogue SYSTEM "c.dtd">\n<catalogue>\n')
    while out.tell() < megabytes * 1_000_000:
        number += 1
        out.write(f'  <item id="i{number}" price=\'{chance.randrange(100000) / 100}\'>\n    <title>{sentence(chance)[:30].split("&")[0].split("<")[0]}</title>\n')
        for _ in range(chance.randrange(1, 5)):
            out.write(f'    <part xml:lang="en" weight="{chance.randrange(500)}"><name>{chance.choice(WORDS)}</name><empty/></part>\n')
        out.write(f"    <text>{sentence(chance)} <em>{chance.choice(WORDS)}</em> {sentence(chance)}</text>\n    <!-- {number} -->\n  </item>\n")
    out.write("</catalogue>\n")


WRITERS = {"records": write_records, "names": write_names, "log": write_log, "catalogue": write_catalogue}


# What is to be made: the title, the kind, and how many or how many megabytes.


def records(count, title="{} records"):
    return title.format(count), "records", count


def names(count, title="{} elements of 50 names"):
    return title.format(count), "names", count


def log_and_catalogue(megabytes, title="{}, {} MB"):
    return [(title.format(kind, megabytes), kind, megabytes) for kind in ("log", "catalogue")]


def made(folder, wanted):
    """Makes documents, each in the place of the one before."""
    path = os.path.join(folder, "made")
    for title, kind, size in wanted:
        with open(path, "w", newline="") as out:
            WRITERS[kind](out, size)
        yield Document(title, path, kind)


def documents_of(folder, paths, wanted):
    """The documents at these paths; where there are none, such as are made."""
    return (Document(os.path.basename(path), path, None) for path in paths) if paths else made(folder, wanted)


def walk(path, start=None, text=None, end=None):
    """Calls these for the elements and texts of a document, as expat does."""
    parser = xml.parsers.expat.ParserCreate()
    parser.buffer_text = True
    parser.StartElementHandler, parser.CharacterDataHandler, parser.EndElementHandler = start, text, end
    with open(path, "rb") as given:
        parser.ParseFile(given)
