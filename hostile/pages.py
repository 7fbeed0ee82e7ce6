#!/usr/bin/env python3
"""Opens pages of `rr draw --html` in a browser, and does what a reader does: clicks, searches, filters, types keys, follows an address.

    hostile/pages.py [--rr PROGRAM] [--shots FOLDER] [--parts] [--runs N] [--events N ..] [--no-browser]

Of N faulty runs (1,000) of one to seven nodes it compares which event decided each instance, as the data of their pages say, with the
nodes in Python of hostile/deciding.py. They count acknowledgements themselves, and are told only what the JSON of the run has.

By `node` it runs the script of pages without a browser (hostile/page_tables.mjs), and compares what depends on what, what is found, and
what is drawn at a height.

Then it drives Chromium without a screen by its WebDriver (Debian: chromium, chromium-driver), at 1,280 and at 390 pixels. It isn't part
of the gate, whose machine has no browser. With --shots it keeps pictures of the pages. With --parts the pages get the parts of web/ as
they are, whatever the program was built with. A page of N events (50,000 and 200,000) must hold few elements, go where its strip is
clicked, and open and answer a click in the seconds of a processor that it has."""
import argparse
import base64
import html
import json
import os
import pathlib
import random
import re
import shutil
import socket
import subprocess
import sys
import tempfile
import time
import urllib.request

import deciding

ROOT = pathlib.Path(__file__).resolve().parent.parent
WIDTHS = ((1280, 900), (390, 844))
ELEMENT = "element-6066-11e4-a52e-4f735466cecf"
DOWN, ESCAPE, ENTER = "\ue015", "\ue00c", "\ue007"


class Browser:
    """A session of a browser, driven over HTTP."""

    def __init__(self, width, height):
        with socket.socket() as free:
            free.bind(("127.0.0.1", 0))
            port = free.getsockname()[1]
        self.driver = subprocess.Popen(["chromedriver", f"--port={port}", "--log-level=OFF"], stdout=subprocess.DEVNULL, stderr=subprocess.DEVNULL)
        self.url = f"http://127.0.0.1:{port}"
        options = {"args": ["--headless=new", "--no-sandbox", "--disable-gpu", f"--window-size={width},{height}"],
                   "mobileEmulation": {"deviceMetrics": {"width": width, "height": height, "pixelRatio": 1.0, "mobile": False, "touch": False}}}
        wanted = {"capabilities": {"alwaysMatch": {"goog:chromeOptions": options, "goog:loggingPrefs": {"browser": "ALL"}}}}
        for _ in range(100):
            try:
                self.session = self.call("POST", "/session", wanted)["sessionId"]
                return
            except OSError:
                time.sleep(0.1)
        sys.exit("hostile/pages.py: no browser could be started")

    def call(self, method, path, body=None):
        data = None if body is None else json.dumps(body).encode()
        request = urllib.request.Request(self.url + path, data, {"Content-Type": "application/json"}, method=method)
        with urllib.request.urlopen(request) as answer:
            return json.load(answer)["value"]

    def ask(self, method, path, body=None):
        return self.call(method, f"/session/{self.session}{path}", body)

    def open(self, address):
        self.ask("POST", "/url", {"url": address})

    def run(self, script, *given):
        return self.ask("POST", "/execute/sync", {"script": script, "args": list(given)})

    def wait(self, script):
        return self.ask("POST", "/execute/async", {"script": script, "args": []})

    def find(self, selector):
        return self.ask("POST", "/element", {"using": "css selector", "value": selector})[ELEMENT]

    def click(self, selector):
        self.ask("POST", f"/element/{self.find(selector)}/click", {})

    def type(self, selector, text):
        self.ask("POST", f"/element/{self.find(selector)}/value", {"text": text})

    def press(self, key):
        keys = [{"type": kind, "value": key} for kind in ("keyDown", "keyUp")]
        self.ask("POST", "/actions", {"actions": [{"type": "key", "id": "keys", "actions": keys}]})

    def shot(self, path):
        path.write_bytes(base64.b64decode(self.ask("GET", "/screenshot")))

    def seconds(self):
        """The seconds of a processor that pages have had, in their first threads and in all: how busy the machine is else doesn't count."""
        children = {}
        for process in filter(str.isdigit, os.listdir("/proc")):
            try:
                children.setdefault(fields_of(process)[1], []).append(process)
            except OSError:
                pass
        waiting, ticks = [str(self.driver.pid)], [0, 0]
        while waiting:
            process = waiting.pop()
            waiting += children.get(process, [])
            if b"--type=renderer" in pathlib.Path(f"/proc/{process}/cmdline").read_bytes():
                ticks[0] += sum(map(int, fields_of(f"{process}/task/{process}")[11:13]))
                ticks[1] += sum(map(int, fields_of(process)[11:13]))
        return [it / os.sysconf("SC_CLK_TCK") for it in ticks]

    def errors(self):
        return [entry for entry in self.ask("POST", "/se/log", {"type": "browser"}) if entry["level"] == "SEVERE"]

    def close(self):
        self.ask("DELETE", "")
        self.driver.terminate()
        self.driver.wait()


def fields_of(process):
    """The fields of a process behind its name."""
    return pathlib.Path(f"/proc/{process}/stat").read_text().rsplit(")", 1)[1].split()


class Checks:
    def __init__(self):
        self.passed = self.failed = 0

    def that(self, what, holds, found=None):
        if holds:
            self.passed += 1
        else:
            self.failed += 1
            print(f"hostile/pages.py: {what}: found {found!r}")


SHAPES = "return document.querySelectorAll('#picture g[data-line]').length"
# whether there are shapes and arrows that nobody hears; whether those are marked that match, and no others
MARKED = """const shapes = [...document.querySelectorAll('#picture :is(g[data-line], g[data-of])')];
const is_hit = (shape) => matches.includes(place_of(Number(shape.dataset.line ?? shape.dataset.of)));
return shapes.length > 0 && shapes.every((it) => is_hit(it) === it.classList.contains('hit'))"""
# how far a node's name is from its line, in pixels
HEADS = """const middle = (it) => { const { left, width } = it.getBoundingClientRect(); return left + width / 2; };
const lines = [...document.querySelectorAll('#scene path.z')].map(middle);
return Math.max(...[...document.querySelectorAll('#names text')].map(middle).map((x, node) => Math.abs(x - lines[node])))"""
# clicks an event in sight, and gives its line and the milliseconds until it is shown
CLICK = """const done = arguments[arguments.length - 1];
const top = document.getElementById('picture').getBoundingClientRect().top;
const shape = [...document.querySelectorAll('#picture g[data-line]')].find((it) => it.getBoundingClientRect().top > top + 60);
const begun = performance.now();
shape.querySelector('.x').dispatchEvent(new MouseEvent('click', {bubbles: true}));
requestAnimationFrame(() => requestAnimationFrame(() => done([shape.dataset.line, Math.round(performance.now() - begun)])));"""
HERE = "return document.querySelector('#picture g.here')?.dataset.line ?? null"
# the kinds of arrows whose colour isn't that of their word in the legend
COLORS = """return ['e', 'p', 'a', 'd', 'q', 'o'].filter((kind) => [...document.querySelectorAll(`#scene line.${kind}, #scene path.${kind}`)]
.some((arrow) => getComputedStyle(arrow).stroke !== getComputedStyle(document.querySelector(`#legend .${kind}`)).color))"""
COUNT = "return document.getElementById('count').textContent"


def read(browser, check, page, objects, shots, width):
    """Does what a reader does with a page, and compares what it shows with the objects of the run."""
    events = [it for it in objects if "event" in it]
    browser.open(page.as_uri())
    check.that("events in sight have shapes", 0 < browser.run(SHAPES) <= len(events))
    check.that("the page knows how many nodes there are", browser.run("return nodes") == nodes_of(page), browser.run("return nodes"))
    check.that("all nodes' lines fit", browser.run("return document.querySelector('#names').clientWidth <= document.querySelector('#picture').clientWidth"))
    check.that("a node's name stands over its line", browser.run(HEADS) < 2, browser.run(HEADS))
    check.that("no sideways scrolling of the page", browser.run("return document.documentElement.scrollWidth <= innerWidth"))
    # a click on a hearing: its words are shown, with the sending that it stands on
    hearing = next(it for it in events if it["event"]["text"].startswith("hear ") and it["kind"] == "done")
    sent = next(it for it in events if it["kind"] == "send" and it["number"] == int(hearing["event"]["text"].split()[2]))
    line = hearing["event"]["line"]
    browser.run("show(place_of(arguments[0])); draw_window()", line)
    browser.click(f"g[data-line='{line}'] .x")
    check.that("a click chooses its event", browser.run(HERE) == str(line), browser.run(HERE))
    told = browser.run("return document.getElementById('event').innerText")
    check.that("its words are shown", hearing["event"]["text"] in told and hearing["event"]["note"] in told, told)
    check.that("what it depends on is shown", f"line {sent['event']['line']}: {sent['event']['text']}" in told, told)
    check.that("what it depends on is marked", browser.run("return document.querySelector(arguments[0]).classList.contains('past')", f"g[data-line='{sent['event']['line']}']"))
    check.that("what depends on it is marked", browser.run("return document.querySelector(arguments[0]).classList.contains('future')", f"g[data-line='{sent['event']['line']}']") is False)
    check.that("the address names it", browser.run("return location.hash") == f"#line={line}")
    shots and browser.shot(shots / f"{page.stem}-{width}-event.png")
    # keys
    browser.press(DOWN)
    after = events[[it["event"]["line"] for it in events].index(line) + 1]["event"]["line"]
    check.that("the down arrow goes on", browser.run(HERE) == str(after), browser.run(HERE))
    check.that("it has the focus and a name", browser.run("return document.activeElement.getAttribute('aria-label')").startswith(f"line {after}: "))
    before = browser.run("return document.querySelector('#sheet').getBoundingClientRect().height")
    browser.press("+")
    check.that("plus makes it larger", browser.run("return document.querySelector('#sheet').getBoundingClientRect().height") > before)
    browser.press("0")
    check.that("0 fits it", browser.run("return document.querySelector('#sheet').getBoundingClientRect().height") == before)
    # search
    browser.press("/")
    command = next(it for it in objects if it["kind"] == "command")["command"]
    browser.run("document.getElementById('field').value = 'request'; document.getElementById('field').dispatchEvent(new Event('input'))")
    browser.type("#words", f"{command['client']}.{command['request']}")
    found = browser.run(COUNT)
    submitted = [it for it in events if it["event"]["text"].startswith("submit ") and it["event"]["text"].split()[2:4] == [str(command["client"]), str(command["request"])]]
    check.that("a search finds a request", int(found.split()[0]) >= len(submitted) + 1, found)
    browser.press(ENTER)
    check.that("enter goes to a match", browser.run("return document.querySelector('#picture g.here').classList.contains('hit')"))
    browser.press(ESCAPE)
    check.that("escape shows all", browser.run(COUNT) == f"{len(events)} events", browser.run(COUNT))
    check.that("escape leaves no mark", browser.run("return document.querySelectorAll('#picture :is(.here, .past, .future, .hit)').length") == 0)
    check.that("arrows have the legend's colours then", browser.run(COLORS) == [], browser.run(COLORS))
    # filters
    for field, value, has in (("node", "0", lambda it: it["event"]["text"].split()[1] == "0"), ("kind", "dev", lambda it: it["event"]["text"].startswith("dev "))):
        browser.run("const it = document.getElementById(arguments[0]); it.value = arguments[1]; it.dispatchEvent(new Event('input'))", field, value)
        wanted = sum(map(has, events))
        check.that(f"a filter by {field}", browser.run(COUNT) == f"{wanted} of {len(events)} events", browser.run(COUNT))
        check.that(f"a filter by {field} marks", browser.run(MARKED))
        browser.press(ESCAPE)
    # the decided commands, and an address
    commands = [it for it in objects if it["kind"] == "command"]
    links = browser.run("return [...document.querySelectorAll('#decided li a')].map((it) => it.hash)")
    check.that("each decided command is listed", browser.run("return document.querySelectorAll('#decided li').length") == len(commands))
    decided = decisions_in(data_of(page))
    wanted = [f"#line={decided[it['place']]}" for it in commands if it["place"] in decided]
    check.that("each leads to the event that decided it", links == wanted, (links, wanted))
    browser.open(page.as_uri() + "?again#line=3")
    check.that("an address chooses its event", browser.run(HERE) == "3", browser.run(HERE))
    check.that("no error in the page", browser.errors() == [], browser.errors())


def made(rr, folder, name, schedule, parts, told_by=("sim", "--explain", "--json"), cut=()):
    """Makes the page of a schedule or a tape, and gives it with the objects of its run."""
    page = folder / f"{name}.html"
    page.write_bytes(subprocess.run([rr, "draw", "--html", *cut], input=schedule, capture_output=True, check=True).stdout)
    if parts:
        page.write_bytes(subprocess.run([ROOT / "web/try.py", page], capture_output=True, check=True).stdout)
    told = subprocess.run([rr, *told_by], input=schedule, capture_output=True, check=True).stdout
    return page, [json.loads(line) for line in told.splitlines()]


def random_schedule(rr, seed, nodes, steps, *more):
    words = ["--lively", "--seed", str(seed), "--nodes", str(nodes), "--steps", str(steps), "--schedule-only", *more]
    return subprocess.run([rr, "random", *words], capture_output=True, check=True).stdout


def data_of(page):
    """The objects of JSON in a page."""
    return [json.loads(line) for line in re.search(r'<script id="data" type="application/json">(.*?)</script>', page.read_text(), re.S)[1].split("\n") if line]


def nodes_of(page):
    return data_of(page)[0]["nodes"]


def decisions_in(objects):
    """The line of the event that decides an instance, by the instance, as the data of a page have it."""
    return {it["decides"]: it["event"]["line"] for it in objects if "decides" in it}


def pushed(schedule, seed):
    """A schedule with more ticks, advances and suspicions: nodes leave rounds whose acknowledgements are on their way."""
    lines, chance = schedule.decode().splitlines(), random.Random(seed)
    nodes = int(lines[0].split()[1])
    more = lambda: chance.choice(["advance {}", "advance {}", "tick {}", "suspect {} " + str(chance.randrange(nodes))]).format(chance.randrange(nodes))
    return "".join(f"{line}\n" + (f"{more()}\n" if place and chance.random() < 0.02 else "") for place, line in enumerate(lines)).encode()


def compare_runs(check, rr, folder, parts, runs):
    """Compares what the pages of faulty runs say has decided with the nodes in Python. Gives how many instances are decided."""
    decided = 0
    for seed in range(runs):
        nodes = 1 + seed % 7
        schedule = random_schedule(rr, seed, nodes, 300 + 100 * (seed % 6), "--faults", str(5 + seed % 60))
        if seed % 3 == 2:
            schedule = pushed(schedule, seed)
        page, told = made(rr, folder, "run", schedule, parts)
        events = [it for it in told if "event" in it]
        data = data_of(page)
        check.that(f"run {seed}: the number of nodes", data[0] == {"kind": "run", "nodes": nodes}, data[0])
        bare = [{name: value for name, value in it.items() if name != "decides"} for it in data[1:]]
        check.that(f"run {seed}: the data are the run's", bare == told)
        wanted, found = deciding.decisions(nodes, events), decisions_in(data)
        check.that(f"run {seed} of {nodes} nodes: what decided", found == wanted, {it: (found.get(it), wanted.get(it)) for it in {*found, *wanted} if found.get(it) != wanted.get(it)})
        check.that(f"run {seed}: an instance is decided once", len(found) == sum("decides" in it for it in data))
        decided += len(wanted)
    return decided


def compare_tape(check, rr, folder, parts):
    """The same of a tape, on which all nodes are up from the beginning."""
    for place, tape in enumerate(sorted((ROOT / "examples").glob("*.tape"))):
        page, told = made(rr, folder, f"tape {place}", tape.read_bytes(), parts, ["audit", "--explain", "--json"])
        nodes = int(tape.read_text().split()[1])
        wanted, found = deciding.decisions(nodes, [it for it in told if "event" in it], True), decisions_in(data_of(page))
        check.that(f"{tape.name}: what decided", found == wanted and len(wanted) > 0, (found, wanted))


def asked_of_node(page, choose, search, scroll):
    """What the page's script finds without a browser, over elements that only keep what they are given."""
    questions = json.dumps({"choose": choose, "search": search, "scroll": scroll}).encode()
    return json.loads(subprocess.run(["node", ROOT / "hostile/page_tables.mjs", page], input=questions, capture_output=True, check=True).stdout)


def lines_of(numbers, events):
    return [events[it]["event"]["line"] for it in sorted(numbers)]


def causes_in(events):
    """The events that each stands on directly, by their places: the one before it at its node, and the sending of what it hears."""
    causes, last, sends = [], {}, {}
    for place, it in enumerate(events):
        words = it["event"]["text"].split()
        sent = {sends[words[2]]} if words[0] == "hear" and it["kind"] == "done" and words[2] in sends else set()
        causes.append(sent | ({last[words[1]]} if words[1] in last else set()))
        last[words[1]] = place
        if it["kind"] == "send":
            sends[str(it["number"])] = place
    return causes


def reached(begin, steps):
    """All that is reached from a place."""
    found, waiting = set(), [begin]
    while waiting:
        for step in steps[waiting.pop()] - found:
            found.add(step)
            waiting.append(step)
    return found


def spoken_in(events):
    """The fields that a search looks at, of each event."""
    sends = {it["number"]: it for it in events if it["kind"] == "send"}
    for it in events:
        words = it["event"]["text"].split()
        heard = sends.get(int(words[2])) if words[0] == "hear" and it["kind"] == "done" else None
        message = it.get("message") or (heard or {}).get("message") or {}
        command = message.get("command") or (dict(zip(("client", "request", "operation", "name"), words[2:])) if words[0] == "submit" else it)
        request = f"{command['client']}.{command['request']}" if "client" in command else ""
        yield {"client": str(command.get("client", "")), "request": request, "name": command.get("name", "") if command is not it else "",
               "instance": str(message.get("instance", "")), "node": words[1], "kind": words[0]}


def searched(events, titles, search):
    """The lines of the events that a search finds."""
    field, words = search.get("field", "any"), search.get("words", "")
    for it, fields in zip(events, spoken_in(events)):
        told = (it["event"]["text"], it["event"].get("note", ""), fields["request"], fields["name"], titles.get(it["event"]["line"], ""))
        is_found = any(words in text for text in told) if field == "any" else fields[field] == words
        if (words == "" or is_found) and all(search.get(name, "") in ("", fields[name]) for name in ("node", "kind", "instance")):
            yield it["event"]["line"]


SEARCHES = ({"words": "7.1"}, {"words": "transfer"}, {"words": "node 1 hears"}, {"words": "ack 0"}, {"words": "proposal"}, {"words": '"'}, {"words": "u003c"}, {"words": "text"},
            {"words": "1.2", "field": "request"}, {"words": "a", "field": "name"}, {"words": "2", "field": "client"}, {"words": "3", "field": "instance"},
            {"node": "1"}, {"kind": "hear", "node": "0"}, {"instance": "1", "words": "0.1"}, {"words": "</script>"}, {"words": "x&y"}, {"words": '"\\x'})


def heights_in(markup):
    """How far down the shapes of a markup reach, but for words."""
    shapes = re.sub(r'<title>.*?</title>|<text [^>]*>| aria-label="[^"]*"', "", markup, flags=re.S)
    for lines, path in re.findall(r' y[12]?="([^"]*)"| d="([^"]*)"', shapes):
        yield from [float(lines)] if lines else (float(one or two) for one, two in re.findall(r"[MC ][-\d.]+ ([-\d.]+)|V([-\d.]+)", path))


ARROW = re.compile(r'x1="([^"]+)" y1="([^"]+)" x2="([^"]+)" y2="([^"]+)"|d="M([^ ]+) ([^C]+)C([^ ]+) ([^ ]+) ([^ ]+) ([^ ]+) ([^ ]+) ([^"]+)"')


def arrow_of(markup):
    """Its two ends, and whether it's a bow."""
    found = ARROW.search(markup)
    if not found:
        return None
    numbers = [float(it) for it in found.groups() if it]
    return (*numbers[:2], *numbers[-2:]), len(numbers) > 4


def x_at(arrow, y):
    """How far from the left an arrow is at a height: a bow goes out 22 units, and its height is 3t^2 - 2t^3 of the whole."""
    (x1, y1, x2, y2), is_bow = arrow
    share = (y - y1) / (y2 - y1)
    if not is_bow:
        return x1 + (x2 - x1) * share
    low, high = 0, 1
    for _ in range(50):
        middle = (low + high) / 2
        low, high = (middle, high) if 3 * middle ** 2 - 2 * middle ** 3 < share else (low, middle)
    return x1 - 66 * low * (1 - low)


def tallest(picture):
    """The shares of the picture's height at which a quarter and a half of its tallest bow and line are in the middle of what is in sight."""
    height = float(re.search(r'viewBox="0 0 \d+ (\d+)"', picture)[1])
    arrows = [arrow_of(it) for it in re.findall(r"</title>(<(?:line|path) .*)", picture) if arrow_of(it)]
    for kind in (False, True):
        ends = max((arrow[0] for arrow in arrows if arrow[1] is kind), key=lambda it: it[3] - it[1], default=None)
        if ends:
            yield from (max(0, ends[1] + (ends[3] - ends[1]) * share - 150) / height for share in (0.25, 0.5))


def compare_arrows(check, name, picture, drawn):
    """An arrow that is cut to what is drawn lies on the whole one, and goes on out of what is drawn or to its end."""
    whole = dict(re.findall(r"<g><title>line (\d+):[^<]*</title>(.*)", picture))
    for line, shapes in re.findall(r'data-line="(\d+)"[^>]*><title>[^<]*</title>(.*)', drawn["markup"]):
        arrow, uncut = arrow_of(shapes), arrow_of(whole[line])
        if arrow == uncut:
            continue
        ends = arrow[0]
        off = max(abs(x_at(uncut, y) - x) for x, y in (ends[:2], ends[2:]))
        short = (ends[1] > max(uncut[0][1], drawn["top"]), ends[3] < min(uncut[0][3], drawn["bottom"]))
        check.that(f"{name}: the arrow of line {line} lies on the whole one", off < 0.1 and short == (False, False), (arrow, uncut))


def compare_drawn(check, name, picture, drawn):
    """What is drawn of a picture at a height: each element that is there, and of nothing much more than what is in sight."""
    markup, top, bottom = drawn["markup"], drawn["top"], drawn["bottom"]
    boxes = {int(line): int(y) for line, y in re.findall(r'<g><title>line (\d+):[^<]*</title>.*?<rect class="x" x="\d+" y="(\d+)"', picture, re.S)}
    wanted = {line for line, y in boxes.items() if top <= y <= bottom}
    shapes = {int(it) for it in re.findall(r'data-line="(\d+)"', markup)}
    check.that(f"{name}: each event at a height has its shape", wanted <= shapes, wanted - shapes)
    far = [y for y in heights_in(markup) if not top - 80 <= y <= bottom + 80]
    check.that(f"{name}: nothing is drawn far out of sight", far == [], far[:5])
    owners = dict(re.findall(r'data-of="(\d+)"><line [^>]* y1="(\d+)', markup))
    check.that(f"{name}: an arrow that nobody hears belongs to its sending", all(boxes.get(int(line), -9) + 2 == int(y) for line, y in owners.items()), owners)


def compare_page(check, name, page, chance):
    """Compares what the script of a page finds with what is found here from its data and its picture."""
    data, text = data_of(page), page.read_text()
    events = [it for it in data if "event" in it]
    picture = text[text.index('<noscript id="source">'):text.index("</noscript>")]
    titles = {int(line): html.unescape(told) for told, line in re.findall(r"<title>(line (\d+): .*?)</title>", picture, re.S)}
    causes = causes_in(events)
    effects = [set() for _ in events]
    for place, those in enumerate(causes):
        for cause in those:
            effects[cause].add(place)
    most = sorted(range(len(events)), key=lambda place: -len(effects[place]))[:2]
    chosen = {*most, *chance.sample(range(len(events)), min(4, len(events)))}
    found = asked_of_node(page, lines_of(chosen, events), SEARCHES, (0, 0.3, 0.7, 1, *tallest(picture)))
    check.that(f"{name}: the events", found["lines"] == lines_of(range(len(events)), events))
    check.that(f"{name}: what decided", dict(found["decisions"]) == decisions_in(data), found["decisions"])
    for place, one in zip(sorted(chosen), found["chosen"]):
        past, future = reached(place, causes), reached(place, effects)
        check.that(f"{name}: it stands on", (one["causes"], one["past"], one["sizes"][0]) == (lines_of(causes[place], events), lines_of(past, events), len(past)))
        after = lines_of(future, events)
        check.that(f"{name}: depends on it", (one["effects"], one["future"], one["sizes"][1]) == (lines_of(effects[place], events), after, len(after)), (one["sizes"], len(after)))
    for search, those in zip(SEARCHES, found["found"]):
        wanted = list(searched(events, titles, search))
        check.that(f"{name}: a search for {search}", those == wanted, (len(those), len(wanted)))
    for drawn in found["drawn"]:
        compare_drawn(check, name, picture, drawn)
        compare_arrows(check, name, picture, drawn)


def heard_late(rr, schedule):
    """A schedule that ends with two messages of its beginning: one that a node sends to itself, and one to another."""
    told = subprocess.run([rr, "sim", "--explain", "--json"], input=schedule, capture_output=True, check=True).stdout
    sends = [it for it in map(json.loads, told.splitlines()) if it["kind"] == "send"]
    firsts = [next((it for it in sends if (it["from"] == it["to"]) is to_itself), None) for to_itself in (True, False)]
    return schedule + "".join(f"hear {it['to']} {it['number']}\n" for it in firsts if it).encode()


def compare_tables(check, rr, folder, parts, runs):
    """Compares the tables of the pages of faulty runs, whole and cut, without a browser: node runs their script."""
    for seed in range(runs):
        chance = random.Random(seed)
        nodes = 1 + seed % 7
        schedule = heard_late(rr, random_schedule(rr, seed, nodes, 300 + 250 * (seed % 6), "--faults", str(5 + seed % 60)))
        for cut in ((), ("--from", "60", "--to", "240"), ("--node", str(chance.randrange(nodes))), ("--requests",)):
            page, _ = made(rr, folder, "table", schedule, parts, cut=cut)
            compare_page(check, f"run {seed} of {nodes} nodes {' '.join(cut)}", page, chance)
    value = (ROOT / "examples/suspected_coordinator.schedule").read_bytes().replace(b"claim a x", b'claim a </script>"\\x&y')
    for cut in ((), ("--node", "1")):
        page, _ = made(rr, folder, "table", value, parts, cut=cut)
        compare_page(check, f"a script in a value {' '.join(cut)}", page, random.Random(0))
    for tape in sorted((ROOT / "examples").glob("*.tape")):
        page, _ = made(rr, folder, "table", tape.read_bytes(), parts, ["audit", "--explain", "--json"])
        compare_page(check, tape.name, page, random.Random(0))


def compare_cut(check, rr, folder):
    """A page of some lines has the data of these alone."""
    schedule = random_schedule(rr, 5, 3, 2000)
    page = folder / "cut.html"
    page.write_bytes(subprocess.run([rr, "draw", "--html", "--from", "100", "--to", "400"], input=schedule, capture_output=True, check=True).stdout)
    whole, _ = made(rr, folder, "whole", schedule, False)
    wanted = [it for it in data_of(whole) if "event" not in it or 100 <= it["event"]["line"] <= 400]
    check.that("a page of some lines has the data of these", data_of(page) == wanted)
    check.that("a page of some lines is small", page.stat().st_size < whole.stat().st_size / 3)


def open_large(browser, check, page, count):
    """A page of a large run: what it takes to open and to go where its strip is clicked."""
    begun, clock = browser.seconds()[0], time.monotonic()
    browser.open(page.as_uri())
    check.that("a large page has all events", browser.run(COUNT) == f"{count} events", browser.run(COUNT))
    opened, clock = browser.seconds()[0] - begun, time.monotonic() - clock
    check.that(f"{count} events open in {3 if count < 60000 else 10} seconds", opened < (3 if count < 60000 else 10), opened)
    check.that("it has elements for what is in sight", 0 < browser.run("return document.querySelectorAll('#picture *').length") < 5000)
    browser.click("#strip")
    middle = browser.run("const it = document.getElementById('picture'); return (it.scrollTop + it.clientHeight / 2) / it.scrollHeight")
    check.that("a click on the strip goes there", 0.45 < middle < 0.55, middle)
    return f"opened in {opened:.2f} s of a processor and {clock:.2f} by the clock"


def try_large(browser, check, page, count, shots, width):
    """A page of a large run: what it takes to open, to click, and to find. What draws its lines has threads of its own."""
    opened = open_large(browser, check, page, count)
    clicked = []
    for _ in range(3):
        time.sleep(0.7)
        begun = browser.seconds()
        line, shown = browser.wait(CLICK)
        time.sleep(0.3)
        first, all_threads = (now - then for now, then in zip(browser.seconds(), begun))
        clicked.append((round(first, 2), round(all_threads, 2), shown))
        check.that("a click far down chooses its event", browser.run(HERE) == line, browser.run(HERE))
        browser.run("document.getElementById('picture').scrollTop += 5000")
    check.that("a click takes a tenth of a second, with what asks for it", sorted(clicked)[1][0] <= 0.1, clicked)
    check.that("and no more than some tenths in all threads", max(it[1] for it in clicked) < 0.6, clicked)
    browser.press(ESCAPE)
    before = browser.run("return middle_in_sight()")
    for _ in range(12):
        browser.press("+")
    after = browser.run("return [middle_in_sight(), document.getElementById('sheet').getBoundingClientRect().height]")
    check.that("a larger picture has the same middle", abs(after[0] - before) < 5, (before, after))
    check.that("it is no taller than browsers show", after[1] <= 16.1e6 and browser.run(SHAPES) > 0, after)
    browser.press("0")
    print(f"{width} pixels: {count} events {opened}; clicks took (seconds of the first thread, of all, milliseconds by the clock) {clicked}")
    check.that("no error in a large page", browser.errors() == [], browser.errors())
    shots and browser.shot(shots / f"{page.stem}-{width}.png")


def try_other(browser, check, page, shots, width):
    """A page of a tape or of a part of a run: it opens, and its events can be chosen and found."""
    events = [it for it in data_of(page) if "event" in it]
    browser.open(page.as_uri())
    check.that(f"{page.stem} has all events", browser.run(COUNT) == f"{len(events)} events", browser.run(COUNT))
    check.that(f"{page.stem}: a node's name stands over its line", browser.run(HEADS) < 2, browser.run(HEADS))
    line = browser.wait(CLICK)[0]
    check.that(f"{page.stem}: a click chooses its event", browser.run(HERE) == line, browser.run(HERE))
    browser.press(DOWN)
    browser.run("const it = document.getElementById('kind'); it.value = 'hear'; it.dispatchEvent(new Event('input'))")
    wanted = sum(it["event"]["text"].startswith("hear ") for it in events)
    check.that(f"{page.stem}: a filter", browser.run(COUNT) == f"{wanted} of {len(events)} events" and browser.run(MARKED), browser.run(COUNT))
    browser.press(ESCAPE)
    check.that(f"{page.stem}: no error", browser.errors() == [], browser.errors())
    shots and browser.shot(shots / f"{page.stem}-{width}.png")


def other_pages(given, folder):
    """Pages of tapes, and of parts of a run of seven nodes."""
    for tape in sorted((ROOT / "examples").glob("*.tape")):
        yield made(given.rr, folder, tape.stem + "_tape", tape.read_bytes(), given.parts, ["audit", "--explain", "--json"])[0]
    schedule = random_schedule(given.rr, 5, 7, 2000)
    for name, cut in (("whole", ()), ("lines", ("--from", "500", "--to", "900")), ("node", ("--node", "2")), ("instance", ("--instance", "3"))):
        yield made(given.rr, folder, f"seven_{name}", schedule, given.parts, cut=cut)[0]


def try_browser(check, given, folder):
    """Opens the pages of the examples, of tapes, of parts, and of large runs."""
    named = [(it.stem, it.read_bytes()) for it in sorted((ROOT / "examples").glob("*.schedule"))]
    named.append(("script_in_a_value", (ROOT / "examples/one_command.schedule").read_bytes().replace(b"claim a x", b"claim a </script><b>&amp;")))
    pages = [made(given.rr, folder, name, text, given.parts) for name, text in named]
    others = list(other_pages(given, folder))
    large = [made(given.rr, folder, f"large{count}_{nodes}", random_schedule(given.rr, 7, nodes, count), given.parts) for count in given.events for nodes in (3, 7)]
    for width, height in WIDTHS:
        browser = Browser(width, height)
        for page, told in pages:
            read(browser, check, page, told, given.shots if page.stem in ("suspected_coordinator", "two_of_seven_down") else None, width)
        for page in others:
            try_other(browser, check, page, given.shots, width)
        browser.close()
        for page, told in large:
            browser = Browser(width, height)
            try_large(browser, check, page, sum("event" in it for it in told), given.shots, width)
            browser.close()


def main():
    parser = argparse.ArgumentParser(description=__doc__, formatter_class=argparse.RawDescriptionHelpFormatter)
    parser.add_argument("--rr", default="rr")
    parser.add_argument("--shots", type=pathlib.Path)
    parser.add_argument("--parts", action="store_true")
    parser.add_argument("--runs", type=int, default=1000)
    parser.add_argument("--events", type=int, nargs="*", default=[50000, 200000])
    parser.add_argument("--no-browser", action="store_true")
    given = parser.parse_args()
    check = Checks()
    with tempfile.TemporaryDirectory() as folder:
        folder = pathlib.Path(folder)
        decided = compare_runs(check, given.rr, folder, given.parts, given.runs)
        print(f"{given.runs} runs decided {decided} instances")
        compare_tape(check, given.rr, folder, given.parts)
        compare_cut(check, given.rr, folder)
        if shutil.which("node"):
            compare_tables(check, given.rr, folder, given.parts, min(42, given.runs))
        else:
            print("the tables of the pages aren't compared: there is no node here")
        if not given.no_browser:
            try_browser(check, given, folder)
    print(f"{check.passed} passed, {check.failed} failed")
    return check.failed > 0


sys.exit(main())
