"""Random changes, each of them allowed by the graph before it."""

from tests.lib.history import EDGE, EDGE_ATTR, NODE, NODE_ATTR


class Changes:
    """Random changes, each allowed by the graph before it."""

    def __init__(self, rng):
        self.rng, self.time, self.names = rng, 0, []
        self.nodes, self.edges = set(), {}
        self.has_messages = True
        self.values = {NODE_ATTR: {}, EDGE_ATTR: {}}
        self.ids, self.keys, self.texts = 30, [b"a", b"bb", b"c"], [b"x", b"y y", b"", b"zz"]
        self.kinds = ["+node"] * 3 + ["-node", "+edge", "+edge", "-edge", "nset", "ndel", "eset", "edel"]

    def are_of_values(self, keys):
        """From now on values come and go at few nodes, of which some are made again, under so many keys more."""
        self.ids, self.kinds = 5, ["+node", "-node"] * 3 + ["nset"] * 6 + ["ndel"] * 5 + ["+edge"]
        self.keys = [b"a", b"k" * 64, *(b"k%d" % number for number in range(keys))]
        self.texts = [b"x", b"y y", b"", b" z ", b"v" * 1024]

    def name(self, text, new):
        if text not in self.names:
            self.names.append(text)
            new.append(text)
        return self.names.index(text)

    def next(self, new):
        """A line and its event; the names that it brings are added to `new`."""
        while True:
            made = self.attempt(new)
            if made:
                self.time, line, event = made
                return f"{self.time} {line}", event

    def attempt(self, new):
        rng = self.rng
        time = self.time + rng.choice([0, 0, 1, 1, 2])
        kind = rng.choice(self.kinds + ["msg", "msg"] * self.has_messages)
        if kind == "+node":
            node = rng.randrange(self.ids)
            if node in self.nodes:
                return None
            self.nodes.add(node)
            return time, f"+node {node}", (time, "+", (NODE, node))
        if kind == "-node" and self.nodes:
            node = rng.choice(sorted(self.nodes))
            if any(node in ends[:2] for ends in self.edges.values()) or self.has_value(NODE_ATTR, node):
                return None
            self.nodes.remove(node)
            return time, f"-node {node}", (time, "-", (NODE, node))
        if kind == "+edge" and self.nodes:
            edge, nodes = rng.randrange(40), sorted(self.nodes)
            if edge in self.edges:
                return None
            self.edges[edge] = (rng.choice(nodes), rng.choice(nodes), rng.randrange(2))
            source, target, directed = self.edges[edge]
            word = "dir" if directed else "undir"
            return time, f"+edge {edge} {source} {target} {word}", (time, "+", (EDGE, edge) + self.edges[edge])
        if kind == "-edge" and self.edges:
            edge = rng.choice(sorted(self.edges))
            if self.has_value(EDGE_ATTR, edge):
                return None
            return time, f"-edge {edge}", (time, "-", (EDGE, edge) + self.edges.pop(edge))
        if kind == "msg":
            return self.message(time, new)
        return self.value_change(time, kind, new)

    def message(self, time, new):
        if not self.nodes:
            return None
        source, target = (self.rng.choice(sorted(self.nodes)) for _ in range(2))
        text = self.rng.choice([b"x", b"hi", b"", b"a b  "])
        return time, f"msg {source} {target} {text.decode()}", (time, "msg", source, target, self.name(text, new))

    def has_value(self, kind, owner):
        return any(key[0] == owner for key in self.values[kind])

    def value_change(self, time, word, new):
        kind = NODE_ATTR if word[0] == "n" else EDGE_ATTR
        owners, values = (self.nodes if word[0] == "n" else self.edges), self.values[kind]
        if word.endswith("set") and owners:
            owner = self.rng.choice(sorted(owners))
            key_text, text = self.rng.choice(self.keys), self.rng.choice(self.texts)
            key, value = self.name(key_text, new), self.name(text, new)
            old = values.get((owner, key))
            values[owner, key] = value
            return time, f"{word} {owner} {key_text.decode()} {text.decode()}", (time, kind, owner, key, old, value)
        if word.endswith("del") and values:
            owner, key = self.rng.choice(sorted(values))
            old = values.pop((owner, key))
            return time, f"{word} {owner} {self.names[key].decode()}", (time, kind, owner, key, old, None)
        return None
