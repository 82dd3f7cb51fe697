"""Bills of about a size, requests of them, and what a run of a program takes, for the scripts beside this. Nothing here is verified."""
import hashlib
import json
import os
import shutil
import subprocess
import sys
import tempfile

ROOT = os.path.dirname(os.path.dirname(os.path.abspath(__file__)))
MEGABYTE = 1_000_000
# A request may have no more bytes.
MOST = 67_108_864
RUNS = 3


def build(name):
    """The program of a crate, built where there is none."""
    if not shutil.which("rt"):
        sys.exit("bench needs rt, which isn't there: it is the command of the Rattle kit")
    folder = os.path.join(ROOT, "crates", name)
    program = os.path.join(folder, "out", name)
    with open(os.path.join(folder, "stdin")) as given:
        words = open(os.path.join(folder, "args")).read().split() if os.path.exists(os.path.join(folder, "args")) else []
        subprocess.run(["rt", "run", "--", *words], cwd=folder, stdin=given, stdout=subprocess.DEVNULL, stderr=subprocess.DEVNULL, check=True)
    return program


def component(i):
    digest = hashlib.sha256(str(i).encode()).hexdigest()
    return {
        "type": "library",
        "bom-ref": f"pkg:cargo/part-{i}@1.{i % 10}.0",
        "supplier": {"name": f"Maker {i % 97}", "url": ["https://example.org"]},
        "name": f"part-{i}",
        "version": f"1.{i % 10}.0",
        "description": "A part of a larger whole, told in a sentence of the usual length.",
        "scope": "required",
        "hashes": [{"alg": "SHA-256", "content": digest}],
        "licenses": [{"license": {"id": "MIT"}}, {"expression": "MIT OR Apache-2.0"}],
        "purl": f"pkg:cargo/part-{i}@1.{i % 10}.0",
        "externalReferences": [{"type": "vcs", "url": f"https://example.org/part-{i}"}],
        "properties": [{"name": "line", "value": str(i)}],
    }


def bill(size):
    """A bill of about so many bytes."""
    one = len(json.dumps(component(1000), separators=(",", ":"))) + 1
    one += len(json.dumps(dependency(1000), separators=(",", ":"))) + 1
    count = max(1, size // one)
    return {
        "bomFormat": "CycloneDX",
        "specVersion": "1.5",
        "version": 1,
        "components": [component(i) for i in range(count)],
        "dependencies": [dependency(i) for i in range(count)],
    }


def dependency(i):
    reference = lambda k: f"pkg:cargo/part-{k}@1.{k % 10}.0"
    return {"ref": reference(i), "dependsOn": [reference(k) for k in {i // 2, i // 3} if k != i]}


def request(doc, *forms, version="1.5"):
    """A request to carry a document along a hop of each form."""
    hops = [{"form": form, "version": version} for form in forms]
    text = json.dumps({"from": "1.5", "doc": doc, "hops": hops}, separators=(",", ":"))
    return text.encode()


# A child's peak is at least what its parent held when it was forked, so a small process stands between.
MEASURED = """
import os, subprocess, sys, time
began = time.perf_counter()
child = subprocess.Popen(sys.argv[1:])
_, status, used = os.wait4(child.pid, 0)
seconds = time.perf_counter() - began
print(seconds, used.ru_maxrss / 1024, os.waitstatus_to_exitcode(status), file=sys.stderr)
"""


def once(command, given, taken=subprocess.DEVNULL):
    """Seconds and peak megabytes of one run over the open file `given`."""
    given.seek(0)
    done = subprocess.run([sys.executable, "-c", MEASURED, *command], stdin=given, stdout=taken, stderr=subprocess.PIPE, check=True)
    seconds, megabytes, status = done.stderr.split()
    if status != b"0":
        sys.exit(f"{command[0]} ended with {status.decode()}")
    return float(seconds), float(megabytes)


def run(program, words, data):
    """The best of some runs: seconds and peak megabytes; and what it wrote."""
    runs, written = [], b""
    for _ in range(RUNS):
        with tempfile.TemporaryFile() as given, tempfile.TemporaryFile() as taken:
            given.write(data)
            runs.append(once([program, *words], given, taken))
            taken.seek(0)
            written = taken.read()
    return min(seconds for seconds, _ in runs), max(peak for _, peak in runs), written


# How many parts of a document of `cdx_feed` make a million events, and in which ways it is read.
FED = {
    "hashes": (333_333, ["reader", "machine"]),
    "dependencies": (500_000, ["reader", "machine"]),
    "text": (500_000, ["reader", "machine"]),
    "components": (125_000, ["reader", "machine"]),
    "bill": (125_000, ["reader", "machine", "pieces"]),
}


def fed(program, name, events):
    """For each way of reading a document of about so many events: seconds and peak megabytes, less what making it takes."""
    parts, ways = FED[name]
    count = str(parts * events // 1_000_000)
    alone, held, _ = run(program, [name, "make", count], b"")
    for way in ways:
        seconds, peak, _ = run(program, [name, way, count], b"")
        yield way, max(seconds - alone, 1e-6), peak - held
