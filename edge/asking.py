"""What the scripts share that ask a verified program about a bill in a file. Nothing here is verified.

A script ends with one of the statuses of docs/REQUESTS.md. `Stop` carries it, with a sentence for standard error.
"""
import json
import os
import subprocess
import sys
import unicodedata

from documents import Document, Refused

TOOL = os.path.join(os.path.dirname(os.path.dirname(os.path.abspath(__file__))), "cdx_tool")
REFUSED, NO_REQUEST, NOT_READ, NOT_WRITTEN, NO_MEMORY, TOO_LONG = 1, 2, 3, 4, 5, 6


class Stop(Exception):
    def __init__(self, status, why):
        self.status, self.why = status, why


def ended(name, work):
    """The status with which a script ends that does this work."""
    try:
        work()
    except Stop as stop:
        if stop.why:
            print(f"{name}: {stop.why}", file=sys.stderr)
        return stop.status
    except MemoryError:
        print(f"{name}: memory ran out", file=sys.stderr)
        return NO_MEMORY
    except KeyboardInterrupt:
        return 130
    return 0


# What is asked


def meant(make, word):
    """What a word of the script means, by `version_of` or `hop_of`."""
    try:
        return make(word)
    except Refused as why:
        raise Stop(NO_REQUEST, str(why)) from None


def read(path, version):
    """The document of a file that is in the version."""
    try:
        document = Document(path)
    except Refused as why:
        raise Stop(NO_REQUEST, f"{path}: {why}") from None
    except OSError as error:
        raise Stop(NOT_READ, f"{path} can't be read: {error.strerror or error}") from None
    label = document.label()
    if label not in (None, version):
        raise Stop(NO_REQUEST, f"{path} says that it is in version {label}, and not {version}: read it as {label}")
    return document


# The program


def built(command):
    """The path of a command's program, proved and built before where there is none yet."""
    ran = subprocess.run([TOOL, "build", command], stdout=subprocess.PIPE, stdin=subprocess.DEVNULL)
    if ran.returncode:
        # What failed was told already.
        raise Stop(REFUSED, "")
    return ran.stdout.decode().rstrip("\n")


def ask(program, words, request):
    """The answer to a request and the status, which is 0 or that of a refusal."""
    ran = subprocess.run([program, *words], input=request.encode(), stdout=subprocess.PIPE)
    if ran.returncode == NO_MEMORY:
        raise Stop(NO_MEMORY, "memory ran out")
    if ran.returncode == TOO_LONG:
        raise Stop(TOO_LONG, "the request made of the file has more than 67,108,864 bytes, the most that the program takes")
    if ran.returncode not in (0, REFUSED):
        status = ran.returncode if ran.returncode > 0 else 128 - ran.returncode
        raise Stop(status, f"the program ended with status {status}: {ran.stdout[:200].decode(errors='replace').strip()}")
    return json.loads(ran.stdout), ran.returncode


def refusal(document, said):
    """Why the bill is refused, and where, in the words of the answer."""
    if "path" in said:
        where = f'"{said["path"]}"' if said["path"] else "the whole document"
    elif "place" in said:
        where = f"line {document.lines[min(said['place'], len(document.lines) - 1)]}"
    else:
        return f"{said['cause']}: a hop is 1.3, where each component has a version, and a component has none"
    more = "".join(f", {name} {value!r}" for name, value in said.items() if name not in ("cause", "path", "place"))
    return f"{where}: {said['cause']}{more}"


def answer(document, words, request, member):
    """The member of the answer to a request about a document."""
    said, status = ask(built(words[0]), words, request)
    if status:
        raise Stop(status, f"{document.path}: {refusal(document, said['refused'])}")
    return said[member]


# What is written


def write_out(pieces):
    try:
        with open(1, "wb", closefd=False) as out:
            for piece in pieces:
                out.write(piece.encode())
    except OSError as error:
        raise Stop(NOT_WRITTEN, f"standard output can't be written: {error.strerror}") from None


def spelled(text):
    """A text as one line, whatever a terminal would do at its characters."""
    return "".join(it if it.isprintable() else it.encode("unicode_escape").decode() for it in text)


def width(text):
    return sum(0 if unicodedata.combining(it) else 2 if unicodedata.east_asian_width(it) in "WF" else 1 for it in text)


def table(columns, records):
    """The lines of a table of texts, for people."""
    rows = [columns] + [tuple(map(spelled, record)) for record in records]
    widths = [max(map(width, column)) for column in zip(*rows)]
    for row in rows:
        yield "  ".join(it + " " * (wide - width(it)) for it, wide in zip(row, widths)).rstrip() + "\n"
