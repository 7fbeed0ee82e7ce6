#!/usr/bin/env python3
"""Writes the areas of node 0 of 1 into a folder, as the files a0 and a1, each of at least so many kilobytes.

bench/areas.py FOLDER KILOBYTES [--version VERSION] [--rounds ROUNDS]

Area 0 has groups of at most 64 facts behind the empty snapshot. In them each instance is entered, proposed and adopted in
so many rounds, 1 if left out, and then decided. Area 1 is what the node wrote once area 0 was full: a snapshot of it, of
the next epoch, and more groups. Both are of this version of the format, 2 if left out. Version 1 has 65,536 instances, so
that large areas of it need several rounds.
"""
import argparse
import os
import struct
import sys

GROUP = 64
NAME = b"lighthouse-7"
VALUE = b"203.0.113.7:8443"
INSTANCES = {1: 65_536, 2: 1_048_576}


def command(instance):
    op = struct.pack(">BB", 1, len(NAME)) + NAME + struct.pack(">B", len(VALUE)) + VALUE
    return struct.pack(">IQ", 7, instance) + op


def facts(instance, rounds):
    what = command(instance)
    told = b""
    for number in range(1, rounds + 1):
        at = struct.pack(">II", instance, number)
        # The stamp of an estimate is the round before, in which it was adopted.
        told += b"\x01" + at + struct.pack(">I", number - 1) + what
        told += b"\x02" + at + what
        told += b"\x03" + at + what
    return told + struct.pack(">BI", 4, instance) + what


def frame(payload):
    return struct.pack(">BI", 0xA5, len(payload)) + payload


class Areas:
    """Areas of a version of the format, in which each instance takes so many rounds."""

    def __init__(self, version, rounds):
        self.version, self.rounds = version, rounds
        self.facts = 3 * rounds + 1
        self.instances = GROUP // self.facts

    def snapshot(self, epoch, instances):
        entries = b"".join(struct.pack(">IB", i, 1) + command(i) for i in range(instances))
        head = struct.pack(">BBBQQI", self.version, 0, 1, epoch, self.facts * instances, instances)
        return frame(head + entries)

    def group(self, instance):
        payload = b"".join(facts(i, self.rounds) for i in range(instance, instance + self.instances))
        return frame(struct.pack(">QH", self.facts * instance, self.facts * self.instances) + payload)

    def write(self, path, size, epoch, instances):
        """Writes an area that begins with a snapshot of so many decided instances, and says how many it ends with."""
        with open(path, "wb") as area:
            written = area.write(self.snapshot(epoch, instances))
            while written < size:
                written += area.write(self.group(instances))
                instances += self.instances
            area.write(b"\x00")
            area.flush()
            os.fsync(area.fileno())
        if instances > INSTANCES[self.version]:
            sys.exit(f"{instances} instances are too many for version {self.version}: take more rounds")
        return instances


def main():
    words = argparse.ArgumentParser()
    words.add_argument("folder")
    words.add_argument("kilobytes", type=int)
    words.add_argument("--version", type=int, choices=INSTANCES, default=2)
    words.add_argument("--rounds", type=int, choices=range(1, GROUP // 3 + 1), default=1, metavar="ROUNDS")
    said = words.parse_args()
    areas = Areas(said.version, said.rounds)
    decided = areas.write(os.path.join(said.folder, "a0"), said.kilobytes * 1024, 1, 0)
    areas.write(os.path.join(said.folder, "a1"), said.kilobytes * 1024, 2, decided)


main()
