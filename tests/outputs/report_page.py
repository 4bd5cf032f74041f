#!/usr/bin/env python3
"""Whether a page that `tep report` made is what it should be: report_page.py PAGE SUMMARY DECISIONS

The page is HTML whose elements are closed, it has no script and names nothing elsewhere, each picture has a title, and its numbers
are those of the text that `tep run --summary --tables --talkers` printed (SUMMARY) and of the decision lines. What is wrong is
told, and the status is 1."""
import html
import re
import sys
from collections import Counter
from html.parser import HTMLParser

VOID = {"meta", "br", "hr"}
ELSEWHERE = {"src", "srcset", "data", "action", "poster", "xlink:href"}
FORBIDDEN = {"script", "link", "img", "iframe", "object", "embed", "base", "form", "audio", "video", "image", "use"}
ASIDE = {"svg", "details"}
TALK_HEADS = ["Segment", "Source", "From", "Destination", "To", "Frames", "Octets", "First frame, ns", "Last frame, ns"]
ENTRY_HEADS = ["Segment", "Address", "Place", "Kept", "Moment, ns", "Age, s"]


def complain(text):
    sys.exit(f"report_page.py: {text}")


class Page(HTMLParser):
    """The tables of a page, by the section and the heading that they stand below: each a list of rows of the texts of cells."""

    def __init__(self):
        super().__init__(convert_charrefs=True)
        self.open, self.tables = [], {}
        self.section = self.heading = None
        self.rows = self.cell = None
        self.pictures = self.titles = 0

    def handle_starttag(self, tag, attributes):
        if tag in FORBIDDEN:
            complain(f"an element {tag} stands on the page")
        for name, value in attributes:
            if name in ELSEWHERE or name.startswith("on"):
                complain(f"{tag} has {name}={value!r}")
            if name == "href" and not value.startswith("#"):
                complain(f"a link leads to {value!r}")
        named = dict(attributes)
        if tag == "svg":
            self.pictures += 1
            if named.get("role") != "img":
                complain("a picture has no role")
        if tag == "title" and "svg" in self.open and self.open[-1] == "svg":
            self.titles += 1
        if tag == "h2":
            self.section, self.heading = named.get("id"), None
        if tag == "table" and not ASIDE & set(self.open):
            self.rows = self.tables.setdefault((self.section, self.heading), [])
        if tag == "tr" and self.rows is not None:
            self.rows.append([])
        if tag in ("td", "th") and self.rows is not None:
            self.cell = ""
        if tag == "h3":
            self.heading = ""
        if tag not in VOID:
            self.open.append(tag)

    def handle_startendtag(self, tag, attributes):
        self.handle_starttag(tag, attributes)
        if tag not in VOID:
            self.open.pop()

    def handle_endtag(self, tag):
        if not self.open or self.open.pop() != tag:
            complain(f"{tag} is closed where it isn't open")
        if ASIDE & set(self.open):
            return
        if tag in ("td", "th") and self.rows is not None:
            self.rows[-1].append(" ".join(self.cell.split()))
            self.cell = None
        if tag == "table":
            self.rows = None

    def handle_data(self, data):
        if self.open and self.open[-1] == "style":
            if "url(" in data or "@import" in data:
                complain("the style names something elsewhere")
            return
        if ASIDE & set(self.open):
            return
        if self.open and self.open[-1] == "h3":
            self.heading += data
        if self.cell is not None:
            self.cell += data

    def rows_of(self, section, heading=None, heads=1):
        """The rows of a table below so many heads."""
        return self.tables.get((section, heading), [[]] * heads)[heads:]


def same(what, told, wanted):
    """Complains where these aren't the same."""
    if told != wanted:
        complain(f"{what}: the page has {told}\n  and the text {wanted}")


def summary_of(path):
    """What a summary tells, line by line in words."""
    return [line.split() for line in open(path, encoding="utf-8") if not line.startswith("  ")]


def cells_of_talk(words):
    """The cells of the line of a talk: talk 10 SOURCE p1 > DESTINATION p2 12 5120 first 1 last 9"""
    return words[1:4] + words[5:9] + [words[10], words[12]]


def cells_of_entry(words):
    """The cells of an entry's line: segment 10 ADDRESS p1 fixed, or segment 10 ADDRESS p1 seen 1 age 3.000000000"""
    return words[1:5] + ([words[5], words[7]] if words[4] == "seen" else ["", ""])


def in_short(text, top, decisions):
    """What stands in front: the three reasons that were met most, and which captures are cut."""
    rows = re.findall(r"<li><strong>(\d+) (\w+): (\d+)</strong><br>(.*)</li>\n", text)
    told = [(number, name, int(count), html.unescape(sentence)) for number, name, count, sentence in rows]
    same("reasons in short", told, top)
    same("nothing was dropped", "<p>Nothing was dropped.</p>" in text, not top)
    told = re.findall(r"<p>The capture of <code>(\w+)</code> is cut: it ends within a record, behind (\d+) whole ones.</p>", text)
    same("cut captures", sorted(told), sorted((w[1], w[2]) for w in decisions if w[0] == "cut"))
    events = [w for w in decisions if w[0] != "cut"]
    came = sum(1 for w in events if w[2] != "c")
    drops = sum(1 for w in events if w[5] == "drop")
    share = drops * 1000 // came if came else 0
    same("share", f"<dd>{drops}<small>{share // 10}.{share % 10} % of {came} that came</small></dd>" in text, True)


def sentences():
    """What docs/REASONS.md says of each reason, by its number: when it holds, and what to look at."""
    told = {}
    for line in open("docs/REASONS.md", encoding="utf-8"):
        cells = [cell.strip() for cell in line.replace("`", "").split("|")]
        if len(cells) == 6 and cells[1].isdigit():
            holds, look = cells[3], cells[4]
            end = f"there is {look.replace('nothing', 'nothing to look at', 1)}" if look.startswith("nothing") else f"look at {look}"
            told[cells[1]] = f"{holds[0].upper()}{holds[1:]}; {end}."
    return told


def main():
    page_path, summary_path, decisions_path = sys.argv[1:]
    text = open(page_path, "rb").read().decode("utf-8")
    page = Page()
    page.feed(text)
    page.close()
    if page.open:
        complain(f"{page.open} aren't closed")
    if not page.pictures or page.titles < page.pictures:
        complain(f"{page.pictures} pictures have {page.titles} titles")
    lines = summary_of(summary_path)
    decisions = [line.split() for line in open(decisions_path, encoding="utf-8")]
    dropped = {(w[1], w[3], w[4]): w[5] for w in lines if w[0] == "segment" and w[2] == "dropped"}
    same("drops", {tuple(row[:3]): row[3] for row in page.rows_of("drops")}, dropped)
    reasons = sentences()
    same("40 reasons", len(reasons), 40)
    same("what reasons mean", [row[4] for row in page.rows_of("drops")], [reasons[row[1]] for row in page.rows_of("drops")])
    refused = {(w[2], w[3]): w[4] for w in lines if w[:2] == ["change", "refused"]}
    told = {tuple(row[0].split()): row[1] for row in page.rows_of("drops", "Refused changes")}
    same("refused changes", told, refused)
    came = {w[1]: w[3] for w in lines if w[0] == "place" and w[2] == "in" and w[3] != "0"}
    changes = sum(1 for w in decisions if w[2] == "c")
    if changes:
        came["changes"] = str(changes)
    same("what came", {row[0]: row[1] for row in page.rows_of("places", "What came")}, came)
    left = {row[0]: row[1:3] for row in page.rows_of("places", "What left")}
    for w in lines:
        if w[0] == "place" and w[2] == "out":
            mine = [row for name, row in left.items() if name == w[1] or (w[1] == "u" and not name.startswith("p"))]
            told = [str(sum(int(row[k]) for row in mine)) for k in (0, 1)]
            same(f"what left at {w[1]}", told, w[3:5])
    events, sent, drops = Counter(), Counter(), Counter()
    for w in decisions:
        if w[0] == "cut":
            continue
        vid = "none" if w[4] == "-" else w[4]
        events[vid] += 1
        sent[vid] += sum(1 for word in w[5:] if "=" in word)
        drops[vid] += w[5] == "drop"
    told = {row[0]: row[1:4] for row in page.rows_of("segments")}
    same("segments", told, {vid: [str(n), str(sent[vid]), str(drops[vid])] for vid, n in events.items()})
    for w in lines:
        if w[0] == "segment" and w[2] == "sent":
            same(f"sent in {w[1]}", told[w[1]][1], w[3])
    numbers = {name: number for (_, number, name) in dropped}
    met, first = Counter(), {}
    for w in decisions:
        if w[0] == "cut":
            continue
        mine = [w[6]] if w[5] == "drop" else [numbers[word.split("!")[1]] for word in w[5:] if "!" in word]
        for number in mine:
            met[number] += 1
            first.setdefault(number, w)
    order = sorted(met, key=lambda number: (-met[number], int(number)))
    names = {number: name for name, number in numbers.items()}
    rows = [[*w[:2], f"{w[2]}:{w[3]}", "none" if w[4] == "-" else w[4]] for w in (first[number] for number in order)]
    wanted = [row + [f"{number} {names[number]}"] for row, number in zip(rows, order)]
    same("first drops", [row[:1] + row[2:6] for row in page.rows_of("first")], wanted)
    same("commands", [row[6] for row in page.rows_of("first")], [f"tep run .. --why {row[2]}" for row in rows])
    told = [row[0].split() + row[1:2] for row in page.rows_of("drops", "Reasons over time")]
    same("reasons", told, [[number, names[number], str(met[number])] for number in order])
    by_segment = [(order.index(number), -int(count)) for _, number, _, count, _ in page.rows_of("drops")]
    same("drops in order", by_segment, sorted(by_segment))
    in_short(text, [(number, names[number], met[number], reasons[number]) for number in order[:3]], decisions)
    talks = [w for w in lines if w[0] == "talk" and w[1] != "others"]
    of_segment, places = {}, {}
    for w in talks:
        of_segment.setdefault(w[1], []).append(w)
        places.setdefault((w[1], w[2]), set()).add(w[3])
    largest = [w for mine in of_segment.values() for w in sorted(mine, key=lambda w: -int(w[8]))[:10]]
    moves = [w for w in talks if len(places[w[1], w[2]]) > 1]
    entries = [w for w in lines if w[0] == "segment" and w[-1] == "fixed" or len(w) > 4 and w[4] == "seen"]
    same("talks", page.rows_of("stations", "Talks"), [cells_of_talk(w) for w in largest])
    same("moves", page.rows_of("stations", "Moves"), [cells_of_talk(w) for w in moves[:1000]])
    same("entries", page.rows_of("stations", "Tables"), [cells_of_entry(w) for w in entries[:1000]])
    told = dict(re.findall(r"<h3>(Talks|Moves|Tables)</h3>\n<p>.* Lines: (\d+);", text))
    same("how many lines", told, {"Talks": str(len(talks)), "Moves": str(len(moves)), "Tables": str(len(entries))})
    for heading, heads in (("Talks", TALK_HEADS), ("Moves", TALK_HEADS), ("Tables", ENTRY_HEADS)):
        same(f"heads of {heading}", page.rows_of("stations", heading, 0)[:1], [heads])


main()
