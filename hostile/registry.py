"""The registry of names, applied to the decided list of a report. Written from the rules for people, as a check of its own."""

MOST_BOUND = 4096


class Registry:
    def __init__(self):
        self.bound = {}
        self.replies = {}

    def apply(self, request, words):
        """Applies a command; each request counts once."""
        if request not in self.replies:
            client = request.partition(".")[0]
            self.replies[request] = getattr(self, words[0])(client, *words[1:])

    def claim(self, client, name, value=""):
        if name in self.bound:
            return f"taken {self.bound[name][0]}"
        if len(self.bound) >= MOST_BOUND:
            return "full"
        self.bound[name] = (client, value)
        return "claimed"

    def change(self, client, name, how, reply):
        if name not in self.bound:
            return "unknown"
        if self.bound[name][0] != client:
            return "notowner"
        how()
        return reply

    def update(self, client, name, value=""):
        return self.change(client, name, lambda: self.bound.update({name: (client, value)}), "updated")

    def release(self, client, name):
        return self.change(client, name, lambda: self.bound.pop(name), "released")

    def transfer(self, client, name, owner):
        value = self.bound.get(name, ("", ""))[1]
        return self.change(client, name, lambda: self.bound.update({name: (owner, value)}), "transferred")

    def shown(self):
        """The bound names as the line of a restart shows them."""
        return [f"{name}={owner}:{value}" for name, (owner, value) in sorted(self.bound.items())]


def after(commands):
    """The registry after commands, each a request and the words of its operation."""
    registry = Registry()
    for request, words in commands:
        registry.apply(request, words)
    return registry
