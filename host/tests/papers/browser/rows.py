"""rows.py DOM JSON NUMBER: whether a page shows a step as JSON tells it.

DOM is the page as the browser has it, JSON all steps of the same paper. Compared are the call with what it told, every row of every section behind the
call, and which rows are marked as added, changed or gone since the call before. Rows that stand for several are taken apart first.
"""

import json
import re
import sys
from html.parser import HTMLParser

SECTIONS = ["board", "frames", "kernel", "user", "marked", "tables"]
KEYS = {"tables": 2}

# How much is shown of what differs.
MOST = 2000

# Elements without an end.
VOID = ("meta", "input", "br")


class Page(HTMLParser):
    """The sections' rows, each with its class and cells, and the texts of elements with names."""

    def __init__(self):
        super().__init__()
        self.rows = {name: [] for name in SECTIONS}
        self.texts = {}
        self.lists = {"walk": []}
        self.pictured = []
        self.open = []
        self.section = None

    def handle_starttag(self, tag, attributes):
        attributes = dict(attributes)
        if tag in VOID:
            return
        self.open.append((tag, attributes.get("id")))
        if tag == "section":
            self.section = attributes.get("id")
        if tag == "tr" and "data-count" in attributes and self.section in self.rows:
            row = {"mark": attributes["class"], "count": int(attributes["data-count"]), "cells": []}
            self.rows[self.section].append(row)
        if tag == "td" and self.section in self.rows:
            self.rows[self.section][-1]["cells"].append("")
        if tag == "li" and self.inside("walk"):
            self.lists["walk"].append("")
        if tag == "text" and self.inside("picture"):
            self.pictured.append("")

    def handle_endtag(self, tag):
        if tag in VOID:
            return
        while self.open and self.open.pop()[0] != tag:
            pass
        if tag == "section":
            self.section = None

    def inside(self, name):
        return any(identifier == name for _, identifier in self.open)

    def handle_data(self, data):
        tags = [tag for tag, _ in self.open]
        if "td" in tags and self.section in self.rows and "del" not in tags:
            self.rows[self.section][-1]["cells"][-1] += data
        if "li" in tags and self.inside("walk"):
            self.lists["walk"][-1] += data
        if "text" in tags and self.inside("picture"):
            self.pictured[-1] += data
        identifier = self.open[-1][1] if self.open else None
        if identifier:
            self.texts[identifier] = self.texts.get(identifier, "") + data


def taken_apart(row):
    """The rows that a row stands for, without its mark's cell."""

    def cell(text, at):
        def number(match):
            first, last = (int(part, 0) for part in match.groups())
            value = first + (last - first) // (row["count"] - 1) * at
            return hex(value) if match.group(1).startswith("0x") else str(value)

        return text if row["count"] == 1 else re.sub(r"(0x[0-9a-f]+|\d+) to (0x[0-9a-f]+|\d+)", number, text)

    return [[cell(text, at).strip() for text in row["cells"][1:]] for at in range(row["count"])]


def holds(frame):
    """What a frame holds, in the page's words."""
    said = []
    for use in frame["holds"][:3]:
        if use["kind"] == "root":
            said.append("root")
        elif use["kind"] == "table":
            said.append(f"table of level {use['level']}, path {' '.join(map(str, use['path']))}")
        else:
            flags = use["flags"]
            rights = ["writable" if "WRITABLE" in flags else "read-only"]
            rights += [flag.lower() for flag in ("USER", "HUGE") if flag in flags]
            what = "page of" if use["kind"] == "page" else "part of the large page"
            said.append(f"{what} {use['addr']}, {' '.join(rights)}")
    text = "; ".join(said)
    more = len(frame["holds"]) - 3
    text += f"; and {more} more" if more > 0 else ""
    if not frame["marked"]:
        text = "free, but " + text if text else "free"
    text = text or "marked, but unreached"
    words = frame["words_not_0"]
    if words and not any(use["kind"] in ("root", "table") for use in frame["holds"]):
        text += f", {words} word{'s' if words > 1 else ''} not 0"
    return text


def leads_to(entry, frames):
    """What an entry leads to, in the page's words."""
    to = entry["leads_to"]
    if to is None:
        return "nothing: not present"
    if to["kind"] == "large_page":
        return f"large page {to['addr']}, frames from {to['frame']} on"
    text = f"page {to['addr']}" if to["kind"] == "page" else f"table {to['frame']}"
    frame = frames.get(to["frame"])
    if frame is None:
        text += ", not on this board"
    elif not frame["marked"]:
        text += ", whose frame is free"
    if to["kind"] == "page" and "USER" in entry["flags"]:
        if not to["user_reads"]:
            text += "; user code may not use it"
        elif "WRITABLE" in entry["flags"] and not to["user_writes"]:
            text += "; user code may only read it"
    return text


def rows_of(board):
    """The rows of a board as JSON tells it, by section."""
    frames = {frame["frame"]: frame for frame in board["frames"]}
    free = board["total_frames"] - board["allocated_frames"]
    first, last = board["frames"][0]["frame"], board["frames"][-1]["frame"]
    return {
        "board": [
            ["levels", str(board["levels"])],
            ["frames", f"{board['total_frames']}, {first} to {last}"],
            ["counter", f"{board['allocated_frames']} marked, {free} free"],
            ["root", board["root"]],
            ["next_addr", board["next_addr"]],
        ],
        "frames": [[frame["frame"], holds(frame)] for frame in board["frames"]],
        "kernel": [
            [region["start"], region["size"], "used" if region["used"] else "free"]
            for region in board["kernel_regions"]
        ],
        "user": [
            [region["start"], region["size"], region["prot_words"], region["flags_words"]]
            for region in board["user_regions"]
        ],
        "marked": [[page] for page in board["marked_pages"]],
        "tables": [
            [
                str(table["level"]),
                f"{table['frame']}[{entry['index']}]",
                entry["word"],
                " ".join(entry["flags"]) or "-",
                leads_to(entry, frames),
            ]
            for table in board["tables"]
            for entry in table["entries"]
        ],
    }


def marks(before, now, keys):
    """The keys of the rows that are added, changed and gone."""
    before = {tuple(row[:keys]): row for row in before}
    now = {tuple(row[:keys]): row for row in now}
    return {
        "added": sorted(key for key in now if key not in before),
        "changed": sorted(key for key in now if key in before and now[key] != before[key]),
        "gone": sorted(key for key in before if key not in now),
    }


def differences(page, steps, number):
    """What the page shows otherwise than JSON tells it."""
    step = steps[number]
    for name in ("text", "line", "words"):
        yield name, page.texts.get(name, "").strip(), step[name] or ""
    walk = [
        f"level {row['level']}: table frame {row['table']}, entry {row['index']} = {row['word']}: {row['verdict']}"
        for row in step["walk"] or []
    ]
    yield "walk", page.lists["walk"], walk
    now = rows_of(step["board"])
    before = rows_of(steps[number - 1]["board"]) if number else now
    for name in SECTIONS:
        rows = [(row["mark"], cells) for row in page.rows[name] for cells in taken_apart(row)]
        yield name, [cells for mark, cells in rows if mark != "gone"], now[name]
        keys = KEYS.get(name, 1)
        for mark, wanted in marks(before[name], now[name], keys).items():
            yield f"{name}, {mark}", sorted(tuple(cells[:keys]) for of, cells in rows if of == mark), wanted
    for table in step["board"]["tables"]:
        name = ("root " if table["level"] == step["board"]["levels"] else "table ") + table["frame"]
        there = [text for text in page.pictured if text.split(" (")[0] == name]
        yield f"the picture's {name}", bool(there), True


def main():
    page = Page()
    with open(sys.argv[1], encoding="utf-8") as dom:
        page.feed(dom.read())
    with open(sys.argv[2], encoding="utf-8") as told:
        steps = json.load(told)
    wrong = [(name, shown, told) for name, shown, told in differences(page, steps, int(sys.argv[3])) if shown != told]
    for name, shown, told in wrong:
        print(f"{name}: the page shows {str(shown)[:MOST]}\n{name}: JSON tells    {str(told)[:MOST]}")
    return 1 if wrong else 0


sys.exit(main())
