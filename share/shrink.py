#!/usr/bin/env python3
"""Makes a schedule smaller for which a command still ends as it does for the whole one.

    share/shrink.py [--rr RR] [--out FILE] [--tries N] SCHEDULE -- COMMAND [WORD ..]

COMMAND is run with the path of a schedule in place of each {}, or behind its words where there is no {}. It has to end with the same
status each time. The smaller schedule goes to standard output, or to FILE: without any one of its events the command ends otherwise. An
event hears a message by its number on the wire, and what is struck out changes these. So each event hears the same message as before, as
far as it is still sent; RR says what is sent. Status 0; 2 where words are wrong; 3 where N runs of COMMAND, 10,000 if left out, weren't
enough: then the smallest schedule so far is printed.

    share/shrink.py run.schedule -- sh -c '! rr sim {} | grep -q taken'
"""

from __future__ import annotations

import argparse
import json
import pathlib
import subprocess
import sys
import tempfile

Events = list[str]
Wanted = list["str | None"]


class OutOfTries(Exception):
    """As many commands ran as may."""


class Shrinker:
    """Runs the command over schedules, and knows the smallest one for which it ends as it did at first."""

    def __init__(self, rr: str, command: list[str], head: str, events: Events, tries: int) -> None:
        self._rr, self._command, self._head, self._left = rr, command, head, tries
        self._room = tempfile.TemporaryDirectory()
        self._path = str(pathlib.Path(self._room.name, "smaller.schedule"))
        self._tried: set[tuple[str, ...]] = set()
        self.events = events
        self._wanted = self._status(events)

    def close(self) -> None:
        self._room.cleanup()

    def _write(self, events: Events) -> None:
        pathlib.Path(self._path).write_text("".join(f"{line}\n" for line in (self._head, *events)))

    def _status(self, events: Events) -> int:
        """How the command ends for these events."""
        if self._left == 0:
            raise OutOfTries
        self._left -= 1
        self._write(events)
        words = [word.replace("{}", self._path) for word in self._command]
        if words == self._command:
            words.append(self._path)
        return subprocess.run(words, stdin=subprocess.DEVNULL, stdout=subprocess.DEVNULL, stderr=subprocess.DEVNULL).returncode

    def _wire(self, events: Events) -> list[str]:
        """The messages that these events send, in their order."""
        self._write(events)
        said = subprocess.run([self._rr, "sim", "--json", self._path], stdin=subprocess.DEVNULL, capture_output=True, text=True).stdout
        told = [json.loads(line) for line in said.splitlines() if line.startswith('{"kind":"send"')]
        return [json.dumps([it["from"], it["to"], it["message"]]) for it in told]

    def _renumbered(self, events: Events, heard: Wanted) -> Events:
        """The events, with each one that hears a message hearing the same one, by its number now. One that nobody sends isn't heard."""
        for _ in range(4):
            places: dict[str, int] = {}
            for number, message in enumerate(self._wire(events)):
                places.setdefault(message, number)
            made = []
            for event, message in zip(events, heard):
                words = event.split(" ")
                if message is not None:
                    words[-1] = str(places.get(message, words[-1]))
                made.append(" ".join(words))
            if made == events:
                break
            events = made
        return events

    def _takes(self, events: Events) -> bool:
        """Whether the command still ends so for these events, which are the smallest ones then."""
        if len(events) >= len(self.events) or tuple(events) in self._tried:
            return False
        self._tried.add(tuple(events))
        if self._status(events) != self._wanted:
            return False
        self.events = events
        self._tried.clear()
        return True

    def _heard(self) -> Wanted:
        """Of each event of the smallest schedule, the message that it hears."""
        wire = self._wire(self.events)
        numbers = [event.split(" ")[-1] if event.startswith("hear ") else "" for event in self.events]
        return [wire[int(number)] if number.isdigit() and int(number) < len(wire) else None for number in numbers]

    def _strike(self, size: int) -> bool:
        """Tries to strike out each run of so many events, from the last one on. Whether any could be."""
        any_was = False
        heard = self._heard()
        end = len(self.events)
        while end > 0:
            begin = max(0, end - size)
            left = self.events[:begin] + self.events[end:]
            if self._takes(self._renumbered(left, heard[:begin] + heard[end:])) or self._takes(left):
                any_was = True
                heard = self._heard()
            end = min(begin, len(self.events))
        return any_was

    def shrink(self) -> None:
        """Strikes out halves, then quarters and so on, and single events until none can go."""
        size = max(1, len(self.events) // 2)
        while True:
            struck = self._strike(size)
            if size > 1:
                size //= 2
            elif not struck:
                return


def read_words() -> argparse.Namespace:
    given = sys.argv[1:]
    at = given.index("--") if "--" in given else len(given)
    words = argparse.ArgumentParser(description=__doc__, formatter_class=argparse.RawDescriptionHelpFormatter)
    words.add_argument("--rr", default="rr")
    words.add_argument("--out", type=pathlib.Path)
    words.add_argument("--tries", type=int, default=10_000)
    words.add_argument("schedule", type=pathlib.Path)
    asked = words.parse_args(given[:at])
    asked.command = given[at + 1 :]
    if not asked.command:
        words.error("no command behind --")
    return asked


def main() -> int:
    asked = read_words()
    try:
        head, *events = asked.schedule.read_text().splitlines()
    except (OSError, ValueError) as error:
        print(f"shrink: {asked.schedule}: {error if isinstance(error, OSError) else 'it is no schedule'}", file=sys.stderr)
        return 2
    shrinker = Shrinker(asked.rr, asked.command, head, events, asked.tries + 1)
    status = 0
    try:
        shrinker.shrink()
    except OutOfTries:
        print(f"shrink: {asked.tries} runs weren't enough", file=sys.stderr)
        status = 3
    finally:
        shrinker.close()
    text = "".join(f"{line}\n" for line in (head, *shrinker.events))
    print(f"shrink: {len(events)} events, {len(shrinker.events)} are left", file=sys.stderr)
    if asked.out:
        asked.out.write_text(text)
    else:
        sys.stdout.write(text)
    return status


if __name__ == "__main__":
    sys.exit(main())
