"""Worked schedules, altered in a few places by what a seed draws: `rr sim` answers as the plain Rust program does.

Of each report README.md's promise is checked too. A failure names the seed: `hostile/run --seed SEED --count 1 mutants`
runs that one alone.
"""
import functools
import random

import promise
from harness import Tally, compare, schedules

SHARE = 50
MOST_EDITS = 6
NUMBERS = ("0", "1", "2", "3", "6", "7", "8", "00", "01", "64", "65", "9999", "4294967295", "4294967296", "2147483648")
NUMBERS += ("18446744073709551615", "18446744073709551616", "99999999999999999999999", "-1", "+1", "")
WORDS = ("-", "A5", "a5", "A", "00FF", "01", "012", "10", "claim", "update", "release", "transfer", "a", "b", "x", "A", "a" * 64, "a" * 65)
WORDS += ("~" * 64, "~" * 65, "a-0", "hear", "dev", "nodes", "\x7f", "\t", " ", "#")
BYTES = b"\n\r\t 0123456789-aAzZ~\x00\x80\xff"
KINDS = ("submit", "hear", "suspect", "tick", "advance", "take", "dev", "fail", "mark", "send", "ack", "snap", "crash", "restart")


@functools.cache
def worked():
    return list(schedules().values())


def tasks(options):
    first, last = options.seed, options.seed + options.count
    print(f"mutants: seeds {first} to {last - 1}", flush=True)
    return [(start, min(start + SHARE, last)) for start in range(first, last, SHARE)]


def work(rig, options, task):
    tally = Tally()
    for seed in range(*task):
        text = mutant(random.Random(seed))
        what = f"seed {seed}"
        ending = rig.run("sim", rig.write("schedule", text))
        wanted = rig.plain.sim(text)
        tally.counts["reports" if wanted.status == 0 else "faults"] += 1
        compare(tally, what, ending, wanted)
        if report := promise.read(tally, what, ending):
            promise.check(tally, what, text, report)
    return tally


def mutant(draw):
    """A worked schedule behind some edits. Half of them keep all lines lawful, unless they were faulty."""
    text = draw.choice(worked())
    edits = LAWFUL if draw.random() < 0.5 else LAWFUL + UNLAWFUL
    for _ in range(draw.randint(1, MOST_EDITS)):
        text = draw.choice(edits)(draw, text)
    return text


def in_lines(edit):
    """An edit of the list of lines behind the first."""

    @functools.wraps(edit)
    def whole(draw, text):
        lines = text.split(b"\n")
        head, body = lines[:1], lines[1:-1]
        if body:
            edit(draw, body, nodes_of(head[0]))
        return b"\n".join(head + body + lines[-1:] if len(lines) > 1 else head)

    return whole


def nodes_of(head):
    last = head[-1:]
    return int(last) if last in (b"1", b"2", b"3", b"4", b"5", b"6", b"7") else 7


def place_in(draw, lines):
    return draw.randrange(len(lines))


@in_lines
def drop_line(draw, lines, nodes):
    del lines[place_in(draw, lines)]


@in_lines
def repeat_line(draw, lines, nodes):
    lines.insert(place_in(draw, lines), draw.choice(lines))


@in_lines
def exchange_lines(draw, lines, nodes):
    a, b = place_in(draw, lines), place_in(draw, lines)
    lines[a], lines[b] = lines[b], lines[a]


@in_lines
def repeat_stretch(draw, lines, nodes):
    a = place_in(draw, lines)
    lines[a:a] = lines[a : a + draw.randint(1, 20)]


@in_lines
def cut_stretch(draw, lines, nodes):
    a = place_in(draw, lines)
    del lines[a : a + draw.randint(1, 10)]


@in_lines
def new_event(draw, lines, nodes):
    lines.insert(place_in(draw, lines), event(draw, nodes).encode())


@in_lines
def crash_and_open(draw, lines, nodes):
    node = draw.randrange(nodes)
    opening = [f"crash {node} {cut(draw)} {cut(draw)} {fill(draw)}", f"restart {node}"] + [f"dev {node}"] * draw.randint(2, 10)
    a = place_in(draw, lines)
    lines[a:a] = [line.encode() for line in opening]


@in_lines
def flush(draw, lines, nodes):
    node = draw.randrange(nodes)
    job = [draw.choice(("take", "snap")) + f" {node}"] + [f"dev {node}"] * draw.randint(1, 6)
    job += [f"mark {node}", f"send {node}", f"ack {node}"]
    a = place_in(draw, lines)
    lines[a:a] = [line.encode() for line in job]


@in_lines
def fail_call(draw, lines, nodes):
    calls = [at for at, line in enumerate(lines) if line.startswith(b"dev ")]
    if calls:
        at = draw.choice(calls)
        lines[at] = b"fail" + lines[at][3:] + b" " + fill(draw).encode()


def fill(draw):
    drawn = bytes(draw.randrange(256) for _ in range(draw.randint(1, 9)))
    return draw.choice(("-", "A5", "00", "FF", "A500", drawn.hex().upper()))


def cut(draw):
    return draw.choice((0, draw.randrange(300), 9999, 4294967295))


def event(draw, nodes):
    """A lawful event of any kind."""
    kind, node = draw.choice(KINDS), draw.randrange(nodes)
    rest = {
        "submit": lambda: f" {draw.choice((7, 8, 9))} {draw.randint(1, 9)} {operation(draw)}",
        "hear": lambda: f" {draw.randrange(30)}",
        "suspect": lambda: " " + ("".join(str(q) for q in range(nodes) if draw.random() < 0.5) or "-"),
        "fail": lambda: f" {fill(draw)}",
        "crash": lambda: f" {cut(draw)} {cut(draw)} {fill(draw)}",
    }
    return f"{kind} {node}" + rest.get(kind, str)()


def operation(draw):
    verb, name = draw.choice(("claim", "update", "release", "transfer")), draw.choice("abc")
    rest = {"claim": draw.choice(("", " x", " y")), "update": draw.choice(("", " z")), "transfer": f" {draw.choice((7, 8, 9))}"}
    return f"{verb} {name}" + rest.get(verb, "")


def other_byte(draw, text):
    at = draw.randrange(len(text) + 1)
    return text[:at] + bytes([draw.choice(BYTES) if draw.random() < 0.7 else draw.randrange(256)]) + text[at + 1 :]


def one_byte_more(draw, text):
    at = draw.randrange(len(text) + 1)
    return text[:at] + bytes([draw.choice(BYTES)]) + text[at:]


def one_byte_less(draw, text):
    at = draw.randrange(len(text) + 1)
    return text[:at] + text[at + 1 :]


def other_word(draw, text):
    words = text.replace(b"\n", b" \n ").split(b" ")
    words[draw.randrange(len(words))] = draw.choice(NUMBERS + WORDS).encode()
    return b" ".join(words).replace(b" \n ", b"\n")


def other_nodes(draw, text):
    return b"nodes " + draw.choice(NUMBERS).encode() + text[text.find(b"\n") :]


LAWFUL = [drop_line, repeat_line, exchange_lines, repeat_stretch, cut_stretch, new_event, crash_and_open, flush, fail_call]
UNLAWFUL = [other_byte, one_byte_more, one_byte_less, other_word, other_nodes]
