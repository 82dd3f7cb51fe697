"""The programs that stand, their commands, and runs of each with the answer that is known, for the scripts beside this.

The commands are those of the table in `cdx_tool` whose crates stand in crates.txt. The runs are the stored run of each
crate's folder, and for each command requests of the kind that the table says it reads: a bill with one tool as JSON and
as XML, one with an empty supplier over three hops, and chains of 33 components in JSON and in XML, which are too deep.
Nothing here is verified.
"""
import json
import os
import re
import subprocess
import sys

ROOT = os.path.dirname(os.path.dirname(os.path.abspath(__file__)))
SPACE = "http://cyclonedx.org/schema/bom/1.5"
SERIAL = "urn:uuid:3e671687-395b-41f5-a30f-a58921a69b79"
NOT_JSON = b'{"request":"not JSON"}\n'


class Run:
    """Words and input of a program; whether it answers line by line; and its status and answer, where these are known."""

    def __init__(self, name, words, data, by_line, answer=None):
        self.name, self.words, self.data, self.by_line, self.answer = name, words, data, by_line, answer


def compact(value):
    """The text of a value, with the members of objects in the order of their bytes."""
    return json.dumps(value, separators=(",", ":"), sort_keys=True, ensure_ascii=False).encode()


# Documents


def bill(**members):
    return {"bomFormat": "CycloneDX", "specVersion": "1.5", "version": 1, **members}


def element(name, *nodes, **attributes):
    start = {"element": name}
    if attributes:
        start["attributes"] = [{"name": key, "value": value} for key, value in attributes.items()]
    return [start, *(event for node in nodes for event in node), {"end": name}]


def text(words):
    return [{"text": words}]


def document(*nodes, **attributes):
    root = element("bom", *nodes, **attributes, version="1")
    root[0]["default"] = SPACE
    return [{"document": "start"}, *root, {"document": "end"}]


def component(*nodes):
    return element("component", *nodes, type="library")


NAME = element("name", text("a"))


def chains(levels):
    """So many components, each in the one before, in JSON and in XML."""
    inner, nodes = {"name": "a", "type": "library"}, component(NAME)
    for _ in range(levels - 1):
        inner = {"components": [inner], "name": "a", "type": "library"}
        nodes = component(NAME, element("components", nodes))
    return bill(components=[inner]), document(element("components", nodes))


def requests():
    """Each request of a road by its name, as its document, its hops, and the status and the answer that are known."""
    tool = bill(serialNumber=SERIAL, metadata={"tools": [{"name": "my_tool"}]})
    tool_events = document(element("metadata", element("tools", element("tool", element("name", text("my_tool"))))), serialNumber=SERIAL)
    yield "tool", {"json": tool}, ["xml", "json"], 0, {"documents": [{"xml": tool_events}, {"json": tool}]}
    yield "tool in XML", {"xml": tool_events}, ["json"], 0, {"documents": [{"json": tool}]}
    supplier = bill(components=[{"name": "a", "supplier": {"url": []}, "type": "library"}])
    first = document(element("components", component(element("supplier"), NAME)))
    later = document(element("components", component(NAME)))
    yield "supplier", {"json": supplier}, ["xml"] * 3, 0, {"documents": [{"xml": events} for events in (first, later, later)]}
    deep, deep_events = chains(33)
    yield "chain", {"json": deep}, [], 1, {"refused": {"cause": "too deep", "path": "/components/0" * 33}}
    yield "chain in XML", {"xml": deep_events}, [], 1, {"refused": {"cause": "too deep", "place": 163}}


# Runs


def road_runs(words):
    for name, doc, hops, status, answer in requests():
        request = {"from": "1.5", "doc": doc, "hops": [{"form": form, "version": "1.5"} for form in hops]}
        # The answers are those of roads alone.
        known = (status, compact(answer) + b"\n") if words == ["road"] else None
        yield Run(name, words, compact(request), False, known)


def bill_runs(words):
    for name, doc, *_ in requests():
        yield Run(name, words, compact({"from": "1.5", "doc": doc}), False)


def pair_runs(words):
    asked = {name: {"from": "1.5", "doc": doc} for name, doc, *_ in requests()}
    for left, right in (("tool", "tool in XML"), ("supplier", "tool"), ("chain", "tool"), ("tool", "chain in XML")):
        yield Run(f"{left} and {right}", words, compact({"left": asked[left], "right": asked[right]}), False)


def line_runs(words):
    runs = list(road_runs(["road"]))
    lines = [*(run.data for run in runs), b"x", b""]
    replies = [*(run.answer[1] for run in runs), NOT_JSON, NOT_JSON]
    yield Run("all requests and two lines that are none", words, b"\n".join(lines) + b"\n", True, (0, b"".join(replies)))


KINDS = {"road": road_runs, "bill": bill_runs, "pair": pair_runs, "lines": line_runs, "none": lambda words: [Run("no input", words, b"", False)]}


def stored(crate, by_line):
    """The run of a crate's folder."""
    folder = os.path.join(ROOT, "crates", crate)

    def held(name, otherwise=b""):
        path = os.path.join(folder, name)
        if not os.path.exists(path):
            return otherwise
        with open(path, "rb") as file:
            return file.read()

    words = held("args").decode().split()
    return Run("the stored run", words, held("stdin"), by_line, (int(held("status", b"0")), held("stdout")))


def programs():
    """The runs of each program by its crate, with the first of its commands."""
    with open(os.path.join(ROOT, "crates.txt"), encoding="utf-8") as file:
        standing = set(re.findall(r"^(\w+):", file.read(), re.M))
    with open(os.path.join(ROOT, "cdx_tool"), encoding="utf-8") as file:
        table = re.findall(r"^(\w+)\|(\w+)\|(all|rest)\|\d+\|(\w+)\|[^|]*\|((?:[^|\\]|\\.)*)\|", file.read(), re.M)
    found = {}
    for command, crate, passed, reads, example in table:
        if crate not in standing:
            continue
        if crate not in found:
            found[crate] = command, [stored(crate, reads == "lines")]
        shown = re.search(r"\./cdx_tool ([^<|\\]*)", example)[1].split()
        for words in [[command]] + ([shown] if len(shown) > 1 else []):
            found[crate][1].extend(KINDS[reads](words if passed == "all" else words[1:]))
    return found


def asked(words):
    """Each program that is asked for as CRATE or CRATE=PROGRAM, or all of them: its crate, its path and its runs."""
    standing = programs()
    for word in words or standing:
        crate, _, path = word.partition("=")
        if crate not in standing:
            sys.exit(f"{crate}: no program is called so; these are: {' '.join(standing)}")
        command, runs = standing[crate]
        if not path:
            built = subprocess.run([os.path.join(ROOT, "cdx_tool"), "build", command], stdin=subprocess.DEVNULL, stdout=subprocess.PIPE)
            if built.returncode:
                # What failed was told already.
                sys.exit(1)
            path = built.stdout.decode().rstrip("\n")
        yield crate, path, runs
