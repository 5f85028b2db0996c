"""Holds pictures to the rows that they are of: pictures.py BARRIER FOLDER

They must be well-formed, have one title for every turn, a mark in the colour of its answer, and a rule right behind every turn that closed a round.
"""
import csv
import subprocess
import sys
import xml.etree.ElementTree as tree

SVG = "{http://www.w3.org/2000/svg}"

# the pictures that tests/host/cases leaves, and the schedule or the file of each
DRAWN = {
    "three": "schedule 3 round-robin 45 --kind ring",
    "twelve": "schedule 12 random 1 400 --kind increment",
    "sixty-four": "schedule 64 round-robin 2400 --kind tree --shape binary",
    "empty": "tests/host/texts/no-turns",
    "again": "examples/forty",
}


def text_of(barrier, source):
    if not source.startswith("schedule "):
        return open(source, "rb").read()
    return subprocess.run([barrier, *source.split()], check=True, capture_output=True).stdout


def rows_of(barrier, source):
    told = subprocess.run([barrier, "trace", "-", "--csv"], input=text_of(barrier, source), check=True, capture_output=True)
    return list(csv.DictReader(told.stdout.decode().splitlines()))


def marks_of(root):
    """The marks by their turns; a tail that goes on in a later band has a title and no mark."""
    marks = {}
    for group in root.iter(SVG + "g"):
        turn = int(group.find(SVG + "title").text.split()[1].rstrip(","))
        own = [rect for rect in group.findall(SVG + "rect") if rect.get("class") in ("m", "w")]
        assert len(own) <= 1 and (not own or turn not in marks), turn
        if own:
            marks[turn] = own[0]
    return marks


def rules_of(root):
    """Where the rules stand, but for that of the key: their places from the left and their upper ends."""
    paths = [path.get("d")[1:].split("V")[0].split() for path in root.iter(SVG + "path")]
    return sorted((int(y), int(x)) for x, y in paths[1:])


def check(barrier, path, source):
    root = tree.parse(path).getroot()
    rows, marks = rows_of(barrier, source), marks_of(root)
    titles = {title.text for title in root.iter(SVG + "title")}
    assert len(titles) == len(marks) == len(rows), "a title and a mark for every turn"
    for turn, row in enumerate(rows):
        assert (marks[turn].get("class") == "m") == (row["answer"] == "moved"), turn
    closed = [marks[turn] for turn, row in enumerate(rows) if row["closed"] == "1"]
    rules = rules_of(root)
    assert len(rules) == len(closed), "a rule for every round"
    for mark, (_, x) in zip(closed, rules):
        width = int(mark.get("width"))
        assert int(mark.get("x")) + width <= x <= int(mark.get("x")) + width + 1, x


for name, source in DRAWN.items():
    check(sys.argv[1], f"{sys.argv[2]}/{name}.svg", source)
