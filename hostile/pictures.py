#!/usr/bin/env python3
"""Reads the pictures of rr draw with Python's reader of XML, and compares them with the schedule and with what rr sim --explain prints.

    hostile/pictures.py --rr RR [--count N]

Of each example and of N drawn schedules, some of them lively, with values of SVG's own letters, and of cuts by lines, node and
instance: each event of the cut has its element, in order, and the element's title begins with the line, the event and its lines of the
report; a cut by instance has just the events that send or hear a message on it, and syncs and marks. In a long picture each event that
sends or hears a request is folded, and with --requests none is. A message has an arrow where it is heard, a dashed one where it is heard
again, and else a dot. A flush has its box, from its take to its mark or to what cuts it short, and beside it the first three facts of a
kind and the count of the others; just marks that were done tell decisions. A label says what its event or the report's line of it says. A
cut that ends before it begins has status 2, and so has one without an event. Each tape has the elements of its events too. The picture has the size of what it shows, and
no two labels on one side of a line lie on each other."""
import argparse
import json
import pathlib
import random
import re
import subprocess
import xml.etree.ElementTree as tree

TREE = pathlib.Path(__file__).resolve().parent.parent
SVG = "{http://www.w3.org/2000/svg}"
HEIGHT = 8  # of a label
MANY = 300  # lines of a cut, beyond which some events are folded


def asked(rr, words, text=b""):
    """What rr prints on standard output."""
    return subprocess.run([rr, *words], input=text, capture_output=True, check=True).stdout


def drawn(rr, seed):
    """A schedule by a seed."""
    words = f"random --schedule-only --seed {seed} --steps {(30, 120, 400, 900)[seed % 4]} --nodes {1 + seed % 7}".split()
    text = asked(rr, [*words, *(f"--lively --faults {seed * 37 % 300}".split() if seed % 3 else [])]).decode()
    return text.replace(" claim a ", ' claim a <&">')


def told_by(rr, text):
    """The lines of the report that each line of the schedule tells, by its number."""
    told, waiting = {}, []
    for line in asked(rr, ["sim", "--explain"], text.encode()).decode().splitlines():
        if line.startswith("    line "):
            told[int(line.split()[1].rstrip(":"))], waiting = waiting, []
        else:
            waiting.append(line)
    return told


def explained(rr, text):
    """What came of each event of a run, and its decided commands."""
    return [json.loads(line) for line in asked(rr, ["sim", "--explain", "--json"], text.encode()).splitlines()]


def flushes(objects):
    """The node of each flush, the line of its take, and that of its mark or of what cuts it short, if any."""
    running, found = {}, []
    for it in (it for it in objects if "event" in it):
        line, (word, node, *_) = it["event"]["line"], it["event"]["text"].split()
        if word == "take" and it["kind"] == "done":
            running[node] = line
        elif word == "crash" or (word == "mark" and it["kind"] == "done") or (word in ("dev", "fail") and it["kind"] == "refuse"):
            if node in running:
                found.append((int(node), running.pop(node), line))
    return found + [(int(node), line, None) for node, line in running.items()]


CRASHES = {"crash", "crash cuts a snapshot", "crash before a mark", "crash cuts a flush", "crash cuts an opening"}
OF_FACTS = ("Enter ", "Propose ", "Adopt ", "Decide ", "decided ")


def told_words(event, line):
    """What the label beside an event says of its line of the report."""
    words = line.split()
    if words[0] == "send":
        kind = words[4]
        about = words[5:7] if kind in ("estimate", "proposal", "ack", "nack") else words[5:6] if kind in ("decision", "ask", "request") else []
        return f"{kind} {'.'.join(about)}".rstrip()
    if words[0] == "ack":
        return " ".join(words[2:])
    if words[0] == "restart":
        return f"opened: facts {words[2]}, decided {words[3]}"
    is_made = event.split()[0] in ("dev", "fail") and words[3] not in ("Down", "Failed")
    return f"{'call fails' if is_made else 'refused'}: {words[3]}"


def own_words(event):
    """What the label beside an event says of the event itself."""
    word, _, *words = event.split(" ")
    if word == "submit":
        text = " " + " ".join(words[2:])
        return f"{words[0]}.{words[1]}{text[:21] + '..' if len(text) > 21 else text}"
    if word == "suspect":
        return "suspects nobody" if words == ["-"] else f"suspects {words[0]}"
    return {"tick": "tick", "advance": "advance", "snap": "snapshot"}.get(word)


def compare_labels(lines, told, picture, seed):
    """Compares the labels of a whole picture without folded events with the events and the report, and tells how many texts there are."""
    wanted, found, hidden = {}, {}, set()
    for number, event in enumerate(lines[1:], 2):
        words = [told_words(event, line) for line in told[number]]
        own = own_words(event)
        if own and not (own == "snapshot" and words):
            words.append(own)
        wanted.setdefault(int(event.split()[1]), set()).update(words)
    for label in picture.iter(SVG + "text"):
        if "l" in (label.get("class") or "").split():
            node, text = (int(label.get("x")) - 40) // 220, label.text
            if re.search(r" \+\d+$", text) and not text.startswith(OF_FACTS):
                hidden.add(node)
                text = re.sub(r" \+\d+$", "", text)
            short = re.sub(r" x\d+$", "", text)
            text = text if text in wanted.get(node, ()) else short
            if text not in CRASHES and not text.startswith(OF_FACTS):
                found.setdefault(node, set()).add(text)
    for node, texts in wanted.items():
        assert found.get(node, set()) <= texts, (seed, node, found[node] - texts)
        assert node in hidden or found.get(node, set()) == texts, (seed, node, texts - found.get(node, set()))
    return sum(map(len, found.values()))


def compare_jobs(objects, picture, seed):
    """Compares what a whole picture shows of flushes and marks with the run, and tells how many flushes there are."""
    down, elements = int(picture.get("viewBox").split()[3]), {}
    for element in picture.iter(SVG + "g"):
        elements[int(element.find(SVG + "title").text.split()[1].rstrip(":"))] = element
    at = {line: int(it.get("y")) + 2 for line, element in elements.items() for it in element.iter(SVG + "rect")}
    at[None] = down - 30
    boxes = [it for it in picture.iter(SVG + "rect") if it.get("class") == "j"]
    wanted = sorted((150 + 220 * node - 5, at[begin], at[end] - at[begin]) for node, begin, end in flushes(objects))
    assert sorted(tuple(int(it.get(side)) for side in ("x", "y", "height")) for it in boxes) == wanted, (seed, wanted)
    marked = {it["event"]["line"] for it in objects if it["kind"] == "done" and it["event"]["text"].startswith("mark ")}
    told = {line for line, element in elements.items() if any(it.get("href") == "#k" for it in element)}
    assert told <= marked, (seed, told - marked)
    return len(wanted)


class Hearings:
    """Which message each event of a run sends or hears, by the JSON that explains it."""

    def __init__(self, rr, text):
        objects = explained(rr, text)
        self.sent = {it["number"]: it["event"]["line"] for it in objects if it["kind"] == "send"}
        self.instances = {it["number"]: it["message"].get("instance") for it in objects if it["kind"] == "send"}
        self.numbers = {line: number for number, line in self.sent.items()}
        self.first, self.again = {}, {}
        for it in objects:
            words = it.get("event", {"text": ""})["text"].split()
            if words[:1] == ["hear"]:
                self.numbers[it["event"]["line"]] = int(words[2])
                if it["kind"] == "done":
                    (self.again if int(words[2]) in self.first.values() else self.first)[it["event"]["line"]] = int(words[2])

    def compare(self, picture, shown, instance, seed):
        """Compares the shapes of a picture without folded events, which shows these lines."""
        found = {int(element.find(SVG + "title").text.split()[1].rstrip(":")): element for element in picture.iter(SVG + "g")}
        for line, element in found.items():
            arrows = ["again" in it.get("class").split() for it in element if it.get("marker-end")]
            assert arrows == ([False] if line in self.first else [True] if line in self.again else []), (seed, line, arrows)
        heard = {*self.first.values()}
        lost = [line for number, line in self.sent.items() if number not in heard and line in shown and (instance is None or self.instances[number] == instance)]
        assert sum(it.tag == SVG + "line" and "v" not in (it.get("class") or "") for it in picture) == len(lost), (seed, lost)
        if instance is not None:
            of_it = {line for line, number in self.numbers.items() if line in shown and self.instances.get(number, -1) == instance}
            assert of_it <= found.keys(), (seed, of_it - found.keys())
            others = {found[line].find(SVG + "title").text.split()[2] for line in found.keys() - of_it}
            assert others <= {"dev", "mark"}, (seed, others)
        return len(arrows_of(picture)), len(lost)


def check_facts(rr):
    """A node alone enters an instance at each of its first eight submits; a group of so many facts names three, and counts the others."""
    for count in range(1, 9):
        events = ["restart 0", *["dev 0"] * 9, *(f"submit 0 {client} 1 claim name-{client} x" for client in range(count)), "take 0", *["dev 0"] * 4, "mark 0"]
        picture = tree.fromstring(asked(rr, ["draw"], "\n".join(["nodes 1", *events, ""]).encode()))
        named = "".join(f" {instance}.1" for instance in range(min(count, 3)))
        wanted = f"Enter{named}" + (f" +{count - 3}" if count > 3 else "")
        found = [label.text for label in picture.iter(SVG + "text") if (label.text or "").startswith("Enter ")]
        assert found == [wanted], (count, found, wanted)


def arrows_of(picture):
    return [it for it in picture.iter() if it.get("marker-end")]


def cut_of(seed, count, nodes):
    """The first line, the last one, the node and the instance of a cut by a seed, of a schedule of so many lines."""
    first, last = 2, count
    if seed % 5 == 4:
        first = random.Random(seed).randint(2, max(2, count - 5))
        last = min(count, first + 60)
    return first, last, seed % nodes if seed % 7 == 6 else None, seed % 3 if seed % 11 == 10 else None


def compare(rr, text, seed):
    """Compares a picture, and tells how many elements and labels it has, and how many arrows, lost messages, flushes and texts of labels were compared."""
    lines = text.splitlines()
    first, last, node, instance = cut_of(seed, len(lines), int(lines[0].split()[1]))
    words = ["draw", "--from", str(first), "--to", str(last)]
    words += ["--node", str(node)] if node is not None else []
    words += ["--instance", str(instance)] if instance is not None else []
    words += ["--requests"] if seed % 2 else []
    told = told_by(rr, text)
    wanted = ["".join(f"{line}\n" for line in [f"line {k}: {lines[k - 1]}", *told[k]]) for k in range(first, last + 1) if node is None or int(lines[k - 1].split()[1]) == node]
    ended = subprocess.run([rr, *words], input=text.encode(), capture_output=True)
    if ended.returncode == 2:
        # (a part without an event, which is told in place of a picture)
        assert not ended.stdout and ended.stderr.startswith(b"rr: draw: ") and (instance is not None or not wanted), (seed, ended)
        return 0, 0, 0, 0, 0, 0
    assert ended.returncode == 0 and wanted, (seed, ended.stderr)
    picture = tree.fromstring(ended.stdout)
    found = [element.find(SVG + "title").text for element in picture.iter(SVG + "g")]
    check_requests(picture, last - first > MANY and seed % 2 == 0, seed)
    if instance is None:
        assert len(found) == len(wanted), (seed, len(found), len(wanted))
        assert all(title.startswith(words) for title, words in zip(found, wanted)), seed
    else:
        left = iter(wanted)
        assert all(any(title.startswith(words) for words in left) for title in found), seed
    shapes = 0, 0
    if last - first < 300:
        shown = {k for k in range(first, last + 1) if node is None or int(lines[k - 1].split()[1]) == node}
        shapes = Hearings(rr, text).compare(picture, shown, instance, seed)
    jobs = texts = 0
    if (first, last, node, instance) == (2, len(lines), None, None):
        jobs = compare_jobs(explained(rr, text), picture, seed)
        texts = compare_labels(lines, told, picture, seed) if last - first <= MANY else 0
    across, down = (int(number) for number in picture.get("viewBox").split()[2:])
    assert (int(picture.get("width")), int(picture.get("height"))) == (across * 3 // 2, down * 3 // 2), seed
    places = {}
    for label in picture.iter(SVG + "text"):
        if "l" in (label.get("class") or "").split():
            places.setdefault(label.get("x"), []).append(int(label.get("y")))
    for side in places.values():
        assert all(below - above >= HEIGHT for above, below in zip(side, side[1:])), seed
    return len(found), sum(map(len, places.values())), *shapes, jobs, texts


def compare_tape(rr, text):
    """Compares the picture of a tape with its lines, and tells how many elements it has."""
    picture = tree.fromstring(asked(rr, ["draw", "--tape"], text.encode()))
    found = [element.find(SVG + "title").text for element in picture.iter(SVG + "g")]
    lines = text.splitlines()[1:]
    assert len(found) == len(lines)
    for place, (line, title) in enumerate(zip(lines, found), 2):
        kind, *words = line.split(" ")
        event = f"send {words[1]}" if kind == "send" else f"ack {words[0]}" if kind == "ack" else line
        wanted = f"line {place}: {event}\n" + (f"{line}\n" if event != line else "")
        assert title.startswith(wanted), (wanted, title)
    boxes = sum("j" == (shape.get("class") or "") for shape in picture.iter(SVG + "rect"))
    assert boxes == sum(line.startswith("take ") for line in lines), boxes
    return len(found)


def check_requests(picture, are_folded, seed):
    """Each event that sends or hears a request is folded, or none is."""
    for element in picture.iter(SVG + "g"):
        title = element.find(SVG + "title").text
        if any(line.startswith("send ") and line.split()[4:5] == ["request"] for line in title.splitlines()) or ": request " in title:
            folded = any(shape.get("class") == "f" for shape in element)
            assert folded == are_folded, (seed, title)


def main():
    parser = argparse.ArgumentParser(description=__doc__.split("\n")[0])
    parser.add_argument("--rr", required=True)
    parser.add_argument("--count", type=int, default=40)
    given = parser.parse_args()
    texts = [path.read_text() for path in sorted(TREE.glob("examples/*.schedule"))]
    texts += [drawn(given.rr, seed) for seed in range(given.count)]
    sums = [compare(given.rr, text, seed) for seed, text in enumerate(texts)]
    elements, labels, arrows, lost, jobs, label_texts = (sum(numbers) for numbers in zip(*sums))
    check_facts(given.rr)
    ended = subprocess.run([given.rr, "draw", "--from", "3", "--to", "2"], input=texts[0].encode(), capture_output=True)
    assert (ended.returncode, ended.stdout, ended.stderr) == (2, b"", b"rr: draw: the line of --from is behind that of --to\n"), ended
    assert elements and labels and arrows and lost and jobs and label_texts
    tapes = [path.read_text() for path in sorted(TREE.glob("examples/*.tape"))]
    elements += sum(compare_tape(given.rr, text) for text in tapes)
    print(f"hostile/pictures.py: {len(texts) + len(tapes)} pictures, {elements} elements and {labels} labels, {arrows} arrows, {lost} lost messages, {jobs} flushes and {label_texts} texts of labels, all as the texts are")


main()
