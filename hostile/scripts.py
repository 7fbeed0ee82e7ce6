"""Scripts for `rr run`, and what is asked of their answers and of the folders that a run leaves.

Nothing here comes of rr or of the plain Rust program: folders are read by reading.py, and registry.py has the replies.
A client asks its next line only once the line before is answered. So where a command stands in any node's folder, or is
decided, each earlier submit of its client was acknowledged, also where the run was killed and printed nothing."""
import os

import reading
import registry

FIRST_CLIENT = 10
VERBS = ("claim", "claim", "claim", "update", "release", "transfer")


def draw(rng, nodes, count, start=1):
    """The lines of a script, in which each submit has a request of its own, from the number `start` on."""
    lines = []
    for number in range(start, start + count):
        node = rng.randrange(nodes)
        name = rng.choice(("a", "b", f"own-{number}", f"own-{rng.randrange(start, start + count)}"))
        if rng.random() < 0.25:
            lines.append(f"look {node} {name}")
            continue
        verb = rng.choice(VERBS)
        rest = {"claim": rng.choice(("", f" v{number}")), "update": f" w{number}", "transfer": f" {FIRST_CLIENT + rng.randrange(nodes)}"}
        lines.append(f"submit {node} {FIRST_CLIENT + node} {number} {verb} {name}{rest.get(verb, '')}")
    return lines


def text_of(lines):
    return "".join(f"{line}\n" for line in lines).encode()


def submit_of(line):
    """The node, the request and the words of the command of a line; None where it is a look."""
    words = line.split(" ")
    return (int(words[1]), f"{words[2]}.{words[3]}", tuple(words[4:])) if words[0] == "submit" else None


def disks_of(folder, nodes):
    """What the folders of a run hold; nothing where there is none yet."""
    return [reading.Disk([bytes_of(f"{folder}/{node}/a{area}") for area in (0, 1)]) for node in range(nodes)]


def bytes_of(path):
    if not os.path.exists(path):
        return b""
    with open(path, "rb") as file:
        return file.read()


def acknowledged(lines, requests):
    """By node the requests that were acknowledged, where commands of these requests stand in folders."""
    found = {}
    for node in {int(line.split(" ")[1]) for line in lines}:
        asked = [it[1] for it in map(submit_of, lines) if it and it[0] == node]
        last = max((at for at, request in enumerate(asked) if request in requests), default=0)
        found[node] = asked[:last]
    return found


def requests_in(disks):
    """The requests of all commands that stand in the disks."""
    return {fact.request for disk in disks for fact in disk.facts} | {request for disk in disks for request, _ in disk.decided.values()}


def check_disks(tally, what, lines, disks, before=None):
    """No two disks decide differently, nor than before; what they decide was submitted. Answers the list."""
    commands, apart = reading.list_of(disks + ([before] if before else []))
    tally.check(not apart, f"{what}: two disks differ in what they decided at {apart}")
    submitted = {(it[1], it[2]) for it in map(submit_of, lines) if it}
    others = [command for disk in disks for command in disk.decided.values() if command not in submitted]
    tally.check(not others, f"{what}: decided, and never submitted: {others}")
    return commands


def check_acknowledged(tally, what, found, disks):
    """Each node's disk has decided what that node acknowledged, without a gap before it."""
    for node, requests in found.items():
        held = {request for request, _ in disks[node].prefix()}
        lost = [request for request in requests if request not in held]
        tally.check(not lost, f"{what}: node {node} acknowledged {lost}, and its disk hasn't decided them")
        tally.counts["acknowledged requests found in the folders"] += len(requests)


def check_answers(tally, what, lines, out, disks, commands, may_miss=False):
    """The answers of a whole run: one for each line, replies as the list has them, looks at a beginning of the list that
    has all that the client was told. With `may_miss` a submit and a look may be refused. Answers how many were."""
    answers = out.decode("ascii", "replace").splitlines()
    if not tally.check(len(answers) == len(lines), lambda: f"{what}: {len(answers)} answers to {len(lines)} lines"):
        return 0
    replies, history = registry.after(commands).replies, History(commands)
    held = [[request for request, _ in disk.prefix()] for disk in disks]
    seen, missed = [0] * len(disks), 0
    for line, answer in zip(lines, answers):
        node = int(line.split(" ")[1])
        if asked := submit_of(line):
            missed += (is_missed := answer == f"none {node} {asked[1]}")
            wanted = f"ack {node} {asked[1]} {replies.get(asked[1])}"
            holds = may_miss if is_missed else answer == wanted and asked[1] in held[node]
            tally.check(holds, lambda: f"{what}: {line} has the answer {answer}; wanted {wanted}")
            if holds and not is_missed:
                seen[node] = max(seen[node], held[node].index(asked[1]) + 1)
            continue
        missed += (is_missed := answer == f"{line} none")
        at = history.first(line.split(" ")[2], answer.removeprefix(f"{line} "), seen[node])
        holds = may_miss if is_missed else at is not None and answer.startswith(f"{line} ")
        tally.check(holds, lambda: f"{what}: {line} has the answer {answer}, which no beginning of the list has from {seen[node]} on")
        if at is not None:
            seen[node] = at
    return missed


class History:
    """How each name is bound behind each beginning of a list."""

    def __init__(self, commands):
        held, self.states = registry.Registry(), [{}]
        for request, words in commands:
            held.apply(request, words)
            self.states.append(dict(held.bound))

    def first(self, name, told, start):
        """The first beginning, of at least so many commands, where a look at the name tells this."""
        for at in range(start, len(self.states)):
            bound = self.states[at].get(name)
            if told == ("free" if bound is None else f"{bound[0]}:{bound[1]}"):
                return at
        return None
