"""The edge: files of bills to documents of a request, and documents of an answer to files.

Nothing here is verified. The program `cdx` is proved over JSON values and XML events; this reads the bytes of a file, and
writes them. So it may neither add nor change anything in silence: a file whose bytes can't be taken exactly is refused
with one sentence (`Refused`), and each XML text that is written is read again and compared with the events (`write_xml`).

A JSON document goes to the program as the text that stands in the file, less the white space between its tokens, so no
number and no text is ever written anew.

An XML document becomes the events of docs/REQUESTS.md. What is no event is left out: the declaration, comments,
processing instructions, and white space between elements. Character data that nothing but comments and processing
instructions interrupt is one text, as in the XML information set: one CDATA section alone is a `cdata` event, anything
else a `text` event. White space alone is a text where it is the whole content of an element that holds a text
(`holds_text`), and otherwise stands between elements.
"""
import json
import re
from xml.parsers import expat
from xml.sax.saxutils import escape, quoteattr

# What `serde_json` reads of a request is at most 127 deep, and a document stands two deep in it.
DEEPEST = 125
NAMESPACE = "http://cyclonedx.org/schema/bom/"
SPACE = " \t\r\n"
VERSIONS = ("1.3", "1.4", "1.5")


class Refused(Exception):
    """Why a file or a document is refused, as one sentence."""


# JSON


class Literal(str):
    """A number as it stands in the file: one with a fraction or an exponent, or one too long for a whole number."""


def finite(text):
    if float(text) in (float("inf"), float("-inf")):
        raise Refused(f"the number {short(text)} is too large to be read")
    return Literal(text)


def whole(text):
    return int(text) if len(text) < 300 else finite(text)


def no_constant(name):
    raise Refused(f"{name} is no JSON: numbers of JSON have digits")


def short(text, longest=40):
    return text if len(text) <= longest else text[: longest - 3] + "..."


KINDS = {dict: "an object", list: "an array", str: "a text", bool: "a boolean", int: "a number", Literal: "a number", type(None): "null"}


def kind(value):
    return KINDS[type(value)]


def pointer(steps):
    """The JSON pointer of a path, as in the program's answers."""
    return "".join("/" + str(step).replace("~", "~0").replace("/", "~1") for step in steps)


def walk(value):
    """Each part of a value with its path, the parts of an object or array after it."""
    left = [((), value)]
    while left:
        path, part = left.pop()
        yield path, part
        if isinstance(part, dict):
            left += [((*path, name), item) for name, item in reversed(part.items())]
        elif isinstance(part, list):
            left += [((*path, at), part[at]) for at in range(len(part) - 1, -1, -1)]


def parts_at(value, paths):
    """The parts of a value at these printed paths, by their paths."""
    found = ((pointer(path), part) for path, part in walk(value))
    return {path: part for path, part in found if path in paths}


def decoded(data):
    """The text of bytes in UTF-8, without a byte order mark."""
    if data.startswith((b"\xff\xfe", b"\xfe\xff")) or data[:2] in (b"<\0", b"\0<", b"{\0", b"\0{"):
        raise Refused("it is in UTF-16, and only UTF-8 is read: save it as UTF-8")
    try:
        return data.decode("utf-8-sig")
    except UnicodeDecodeError as error:
        line = data.count(b"\n", 0, error.start) + 1
        raise Refused(f"it is not in UTF-8 (byte {error.object[error.start]:#04x} in line {line}): save it as UTF-8") from None


def read_json(text):
    """The value of a text, for checks alone: what is given to the program is the text itself."""
    repeated = []

    def members(pairs):
        value = dict(pairs)
        if len(value) < len(pairs):
            names = [name for name, _ in pairs]
            repeated.append((value, next(name for name in names if names.count(name) > 1)))
        return value

    try:
        value = json.loads(text, object_pairs_hook=members, parse_float=finite, parse_int=whole, parse_constant=no_constant)
    except json.JSONDecodeError as error:
        raise Refused(f"it is no JSON: {error.msg} (line {error.lineno}, column {error.colno})") from None
    except RecursionError:
        raise Refused(f"it nests more than {DEEPEST} arrays and objects, more than the program reads") from None
    escapes = re.search(r"\\u[dD][89a-fA-F]", text) is not None
    for path, part in walk(value):
        if len(path) >= DEEPEST and isinstance(part, (dict, list)):
            raise Refused(f"it nests more than {DEEPEST} arrays and objects, more than the program reads")
        for it, name in repeated:
            if part is it:
                raise Refused(f'the member "{short(name)}" stands more than once in the object at "{pointer(path)}"')
        texts = part if isinstance(part, dict) else [part]
        if escapes and any(isinstance(it, str) and re.search("[\ud800-\udfff]", it) for it in texts):
            raise Refused(f'half of a surrogate pair stands alone in a text at "{pointer(path)}", which is no character')
    return value


TOKENS = re.compile(r'("(?:[^"\\]|\\.)*")|[ \t\r\n]+', re.S)


def compact(text):
    """The JSON text without the white space between its tokens."""
    return TOKENS.sub(lambda found: found[1] or "", text)


# XML, read

# The elements whose content is a text, by their local names; in two places the name alone doesn't tell.
TEXTS = set(
    """aggregate algorithm author classification comment copyright cpe description email endpoint expression group hash id
    message mime-type modified name notes phone property publisher purl scope text timestamp trustZone uid url value vendor
    version authenticated x-trust-boundary""".split()
)
RECORDS = {("commit", "author"), ("authors", "author"), ("evidence", "copyright")}


def holds_text(around, name):
    return name in TEXTS and (around, name) not in RECORDS


SEPARATOR = "\n"


def named(key, full):
    """A name's members: expat gives `uri`, local name and prefix, or the local name alone."""
    parts = full.split(SEPARATOR)
    if len(parts) == 1:
        return {key: parts[0]}
    member = {key: parts[1], "uri": parts[0]}
    if len(parts) == 3:
        member["prefix"] = parts[2]
    return member


class Reader:
    """Collects the events of a parser, and the line in which each begins."""

    def __init__(self):
        self.parser = expat.ParserCreate("UTF-8", namespace_separator=SEPARATOR)
        self.parser.namespace_prefixes = True
        self.parser.ordered_attributes = True
        self.parser.buffer_text = True
        self.parser.XmlDeclHandler = self.declaration
        self.parser.StartDoctypeDeclHandler = self.doctype
        self.parser.StartNamespaceDeclHandler = self.namespace
        self.parser.StartElementHandler = self.start
        self.parser.EndElementHandler = self.end
        self.parser.CharacterDataHandler = self.characters
        self.parser.StartCdataSectionHandler = self.start_cdata
        self.parser.EndCdataSectionHandler = self.end_cdata
        self.events, self.lines = [{"document": "start"}], [1]
        # The open elements' local names, and the default namespace inside each.
        self.open, self.defaults, self.declared = [None], [None], None
        # The character data since the last tag: its pieces, how many of these are CDATA sections, the first one's line.
        self.pieces, self.sections, self.line, self.in_section = [], 0, 0, False

    def declaration(self, version, encoding, _standalone):
        if version != "1.0":
            raise Refused(f"it is XML {version}, and only XML 1.0 is read")
        if encoding is not None and encoding.upper() != "UTF-8":
            raise Refused(f"its declaration names the encoding {short(encoding)}, and only UTF-8 is read: save it as UTF-8")

    def doctype(self, *_):
        raise Refused(
            f"it holds a document type declaration (line {self.parser.CurrentLineNumber}), which is refused: "
            "no entity is ever expanded, so take it out"
        )

    def namespace(self, prefix, uri):
        if prefix is None:
            self.declared = uri or ""

    def add(self, event, line):
        self.events.append(event)
        self.lines.append(line)

    def flush(self, closes):
        """Ends the character data before a tag."""
        if not self.pieces:
            return
        text = "".join(self.pieces)
        # Right before an end that follows its start, white space is the element's whole content.
        content = closes and "element" in self.events[-1] and holds_text(self.open[-2], self.open[-1])
        if self.sections or text.strip(SPACE) or content:
            # Each CDATA section has an empty piece before and after it.
            alone = self.sections == 1 and self.pieces[0] is OPENS and self.pieces[-1] is CLOSES
            self.add({"cdata" if alone else "text": text}, self.line)
        self.pieces, self.sections = [], 0

    def start(self, full, attributes):
        self.flush(False)
        event = named("element", full)
        default = self.defaults[-1] if self.declared is None else self.declared
        self.declared = None
        self.defaults.append(default)
        self.open.append(event["element"])
        if default is not None:
            event["default"] = default
        if attributes:
            pairs = zip(attributes[::2], attributes[1::2])
            event["attributes"] = [dict(named("name", name), value=value) for name, value in pairs]
        self.add(event, self.parser.CurrentLineNumber)

    def end(self, full):
        self.flush(True)
        self.defaults.pop()
        self.open.pop()
        self.add(named("end", full), self.parser.CurrentLineNumber)

    def piece(self, text):
        if not self.pieces:
            # The parser hands out character data late, when it stands further on.
            self.line = self.lines[-1]
        self.pieces.append(text)

    def characters(self, text):
        self.piece(text)

    def start_cdata(self):
        self.piece(OPENS)
        self.sections += 1

    def end_cdata(self):
        self.piece(CLOSES)


class Mark(str):
    """An empty piece of character data that tells where a CDATA section begins or ends."""


OPENS, CLOSES = Mark(), Mark()


def read_xml(data):
    """The events of an XML document's bytes, and the line in which each begins."""
    decoded(data)
    reader = Reader()
    try:
        reader.parser.Parse(data, True)
    except expat.ExpatError as error:
        said = expat.ErrorString(error.code)
        raise Refused(f"it is no well-formed XML: {said} (line {error.lineno}, column {error.offset + 1})") from None
    reader.add({"document": "end"}, reader.parser.CurrentLineNumber)
    return reader.events, reader.lines


# XML, written

# What no document of XML 1.0 can hold, written in any way.
NO_CHARACTER = re.compile("[^\t\n\r\x20-\ud7ff\ue000-\ufffd\U00010000-\U0010ffff]")


def spelled(text):
    """A text as character data: read again, it is the same text."""
    # An empty CDATA section is a text, and no content at all is none.
    return escape(text, {"\r": "&#13;"}) if text else "<![CDATA[]]>"


def section(text):
    """A text as CDATA. Its end can't stand in a section, nor can a carriage return, which a reader takes as a line's end."""
    return "<![CDATA[" + text.replace("]]>", "]]]]><![CDATA[>").replace("\r", "]]>&#13;<![CDATA[") + "]]>"


def tag(event):
    words = [event["element"]]
    if "default" in event:
        words.append(f"xmlns={quoteattr(event['default'])}")
    words += [f"{it['name']}={quoteattr(it['value'])}" for it in event.get("attributes", [])]
    return " ".join(words)


def pieces_of(events):
    """The document's text in pieces: a line for each element, save those around a text."""
    yield '<?xml version="1.0" encoding="UTF-8"?>'
    depth, before = 0, None
    for at, event in enumerate(events):
        if "element" in event:
            empty = "end" in events[at + 1]
            yield "\n" + "  " * depth + f"<{tag(event)}{'/' if empty else ''}>"
            depth += 1
        elif "end" in event:
            depth -= 1
            if "end" in before:
                yield "\n" + "  " * depth
            if "element" not in before:
                yield f"</{event['end']}>"
        elif "text" in event:
            yield spelled(event["text"])
        elif "cdata" in event:
            yield section(event["cdata"])
        before = event
    yield "\n"


def plain(event):
    """An event as far as its document's text can tell it: a reader adds namespaces, and a section may be cut into two."""
    if "element" in event:
        attributes = [(it["name"], it["value"]) for it in event.get("attributes", [])]
        return ("start", event["element"], attributes)
    if "end" in event:
        return ("end", event["end"])
    if "document" in event:
        return ("document", event["document"])
    return ("text", event["text"] if "text" in event else event["cdata"])


def write_xml(events):
    """The text of a document that the program wrote, whose names have neither prefix nor namespace."""
    place = []
    for event in events:
        if "element" in event:
            place.append(event["element"])
        elif "end" in event:
            place.pop()
        texts = [event.get("text", ""), event.get("cdata", ""), *(it["value"] for it in event.get("attributes", []))]
        for found in filter(None, map(NO_CHARACTER.search, texts)):
            raise Refused(f"the bill holds the character U+{ord(found[0]):04X} in <{place[-1]}>, which no XML document can hold")
    text = "".join(pieces_of(events))
    again, _ = read_xml(text.encode())
    if list(map(plain, again)) != list(map(plain, events)):
        raise Refused("the XML text, read again, isn't the document: this is a fault of the edge, please report it")
    return text


def write_json(value):
    return json.dumps(value, indent=2, ensure_ascii=False) + "\n"


# Files and requests


def form_of(path):
    """`json` or `xml`, by how the file's name ends."""
    end = path.lower().rpartition(".")[2]
    if end not in ("json", "xml"):
        raise Refused("its name ends in neither .json nor .xml, so its form is unknown")
    return end


class Document:
    """A file of a bill: its form, the text of its document in a request, and what can be told of it."""

    def __init__(self, path):
        self.path, self.form = path, form_of(path)
        with open(path, "rb") as file:
            data = file.read()
        if self.form == "xml":
            self.events, self.lines = read_xml(data)
            self.text = json.dumps(self.events, separators=(",", ":"), ensure_ascii=False)
        else:
            text = decoded(data)
            self.value = read_json(text)
            self.text = compact(text)

    def label(self):
        """The version that the file says it is in, if it says one that is known."""
        if self.form == "json":
            said = self.value.get("specVersion") if isinstance(self.value, dict) else None
        else:
            space = self.events[1].get("default") or ""
            said = space[len(NAMESPACE) :] if space.startswith(NAMESPACE) else None
        return said if said in VERSIONS else None

    def member(self):
        return f'{{"{self.form}":{self.text}}}'


def version_of(word):
    if word not in VERSIONS:
        raise Refused(f"`{word}` is no version: they are {', '.join(VERSIONS)}")
    return word


def hop_of(word):
    form, colon, version = word.partition(":")
    if form not in ("json", "xml"):
        raise Refused(f"`{word}` is no hop: a hop is a form and a version, as json:1.4 or xml:1.5")
    if not colon or not version:
        raise Refused(f"the hop `{word}` has no version: say {form}:1.5, for example")
    return form, version_of(version)


def bill_request(version, document):
    return f'{{"from":"{version}","doc":{document.member()}}}'


def road_request(version, document, hops):
    list_of = ",".join(f'{{"form":"{form}","version":"{it}"}}' for form, it in hops)
    return f'{{"from":"{version}","doc":{document.member()},"hops":[{list_of}]}}'
