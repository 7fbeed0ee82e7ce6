"""What README.md promises of a report, checked by the text alone: one list of submitted commands agrees with it."""
import registry
from harness import events_of, tell


class Report:
    """The lines of a report by their kinds, and where each stands."""

    def __init__(self, text):
        lines = text.decode().splitlines()
        self.end = next(at for at, line in enumerate(lines) if line.startswith("decided "))
        self.words = [(at, line.split()) for at, line in enumerate(lines[: self.end])]
        listed = [line.split() for line in lines[self.end + 1 :]]
        self.count = int(lines[self.end].split()[1])
        self.places = [int(words[0]) for words in listed]
        self.commands = [(words[1], words[2:]) for words in listed]
        self.refused = {int(words[1]): (at, words[3]) for at, words in self.of("refuse")}

    def of(self, kind):
        return [(at, words) for at, words in self.words if words[0] == kind]


def read(tally, what, ending):
    """The report that a run printed; None where it printed none, or another text."""
    try:
        report = Report(ending.out) if ending.status == 0 else None
    except (StopIteration, IndexError, ValueError):
        report = None
    tally.check(report or ending.status == 3, f"{what}: no report, {tell(ending)}")
    return report


def check(tally, what, text, report):
    """Checks all of it for a schedule and its report."""
    check_list(tally, what, text, report)
    check_restarts(tally, what, report)
    replies = registry.after(report.commands).replies
    for _, words in report.of("ack"):
        tally.check(replies.get(words[2]) == " ".join(words[3:]), f"{what}: {words} isn't the list's reply")
    check_decisions(tally, what, report)
    unlawful = {why for _, why in report.refused.values()} & {"Damaged", "OutOfMemory"}
    tally.check(not unlawful, f"{what}: {unlawful}")


def check_list(tally, what, text, report):
    """The list's places are numbered, and each of its commands was submitted by an event that wasn't refused."""
    numbered = report.places == list(range(report.count))
    tally.check(numbered, f"{what}: the places of the list are {report.places}")
    events = [(line, words) for line, words in events_of(text) if words[0] == "submit" and line not in report.refused]
    submitted = {(f"{words[2]}.{words[3]}", tuple(words[4:])) for _, words in events}
    for request, words in report.commands:
        tally.check((request, tuple(words)) in submitted, f"{what}: nobody submitted {request} {words}")


def check_restarts(tally, what, report):
    """A restart has the registry of a beginning of the list, with all that its node acknowledged before."""
    for at, words in report.of("restart"):
        prefix = report.commands[: int(words[3])]
        held = registry.after(prefix)
        own = {ack[2] for before, ack in report.of("ack") if before < at and ack[1] == words[1]}
        tally.check(len(prefix) == int(words[3]), f"{what}: {words} counts more than was decided")
        tally.check(held.shown() == words[4:], f"{what}: {words} isn't the registry {held.shown()}")
        tally.check(own <= held.replies.keys(), f"{what}: acknowledged {own}, and {words} has {list(held.replies)}")
        tally.counts["acknowledged requests found again"] += len(own)


def check_decisions(tally, what, report):
    """No two decisions that were sent for an instance name different commands; one in the list names its command."""
    told = {str(place): " ".join([request, *words]) for place, (request, words) in enumerate(report.commands)}
    for _, words in report.of("send"):
        if words[4] == "decision":
            command = " ".join(words[6:])
            tally.check(told.setdefault(words[5], command) == command, f"{what}: {words} names another command than {told[words[5]]}")
