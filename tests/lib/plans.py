"""The graph of an index, its least plans and trees, and what is said of a certificate: docs/FORMATS.md, The index graph, and
docs/SCRIPT.md, Plans and certificates."""

def is_number(word, most):
    return word.isascii() and word.isdigit() and word == str(int(word)) and int(word) <= most


class IndexGraph:
    """The graph of an index, for the asked columns: nodes in their order, and edges (from, to, weight). The bases are
    nodes that handles hold, each with its handle."""

    def __init__(self, history, columns, memory=True, bases=()):
        leaves, arity = len(history.events) // history.size, history.arity

        def leaf(j):
            return f"leaf {j}" if j else "root"

        def weight(key):
            structure, nodes, edges, _ = history.sizes[key]
            return structure + ("n" in columns) * nodes + ("e" in columns) * edges

        heights = [h for h in range(1, 40) if arity**h <= leaves]
        memory = memory and bool(history.events)
        self.nodes = ["root"] + (["now", "recent"] if memory else [])
        self.nodes += [f"leaf {j + 1}" for j in range(leaves)] + [f"list {i}" for i in range(leaves)]
        self.nodes += [f"inner {h} {j + 1}" for h in heights for j in range(leaves // arity**h)]
        # Each edge with the record that it enters, or None.
        edges = [("root", "now", 0, None)] if memory else []
        self.handles = {len(edges) + i: handle for i, (handle, node) in enumerate(bases)}
        edges += [("root", node, 0, None) for handle, node in bases]
        edges += [("root", f"inner {h} 1", weight(f"top {h}"), f"top {h}") for h in heights]
        for i in range(leaves):
            record = f"list {i}"
            edges += [(leaf(j), record, weight(record), record) for j in (i, i + 1)]
            edges += [(record, leaf(j), 0, None) for j in (i, i + 1)]
        for h in heights:
            for j in range(1, leaves // arity**h + 1):
                for c in history.children(j):
                    child = f"inner {h - 1} {c}" if h > 1 else f"leaf {c}"
                    record = f"down {h} {c}"
                    edges += [(f"inner {h} {j}", child, weight(record), record), (child, f"inner {h} {j}", weight(record), record)]
        if memory:
            edges += [("now", "recent", 0, None), ("recent", "now", 0, None)]
            edges += [("recent", leaf(leaves), 0, None), (leaf(leaves), "recent", 0, None)]
        edges = [edge for edge in edges if edge[1] != "root"]
        self.edges = [edge[:3] for edge in edges]
        self.records = [edge[3] for edge in edges]
        self.costs = self.costs_from(["root"])
        self.trees = {}  # by their targets

    def costs_from(self, starts):
        """The least cost of each node from these, by rounds over all edges until none changes."""
        costs, changed = {node: (0, 0) for node in starts}, True
        while changed:
            changed = False
            for tail, head, weight in self.edges:
                if tail in costs:
                    cost = (costs[tail][0] + weight, costs[tail][1] + 1)
                    if head not in costs or cost < costs[head]:
                        costs[head], changed = cost, True
        return costs

    def walk(self, target, starts, costs):
        """The numbers of the steps of the least walk to a node from one of these."""
        steps, node = [], target
        while node not in starts:
            for i, (tail, head, weight) in enumerate(self.edges):
                cost = costs[tail]
                if head == node and (cost[0] + weight, cost[1] + 1) == costs[node]:
                    break
            steps.append(i)
            node = tail
        return steps[::-1]

    def plan(self, target):
        """The lines of the least plan of a node, and its weight and number of steps."""
        steps = [f"step {i} {self.edges[i][1]} {self.edges[i][2]}" for i in self.walk(target, ["root"], self.costs)]
        weight = self.costs[target][0]
        potentials = [f"potential {n} {self.costs[n][0]}" for n in self.nodes if self.costs[n][0] < weight]
        return steps + potentials, weight, len(steps)

    def tree(self, targets):
        """The steps of the tree of these targets: for each the least walk from the tree so far is added."""
        key = tuple(targets)
        if key not in self.trees:
            tree, steps = ["root"], []
            for target in targets:
                walk = [] if target in tree else self.walk(target, tree, self.costs_from(tree))
                tree += [self.edges[i][1] for i in walk]
                steps += walk
            self.trees[key] = steps
        return self.trees[key]

    def rests(self, targets):
        """For each target the handle with whose node its path within the tree begins, or None."""
        on = {"root": None}
        for i in self.tree(targets):
            tail, head, _ = self.edges[i]
            on[head] = self.handles.get(i) if tail == "root" else on[tail]
        return [on[target] for target in targets]

    def tree_weight(self, targets):
        return sum(self.edges[i][2] for i in self.tree(targets))

    def entered(self, targets):
        """The records that the tree of these targets enters."""
        return [self.records[i] for i in self.tree(targets) if self.records[i] is not None]

    def judged(self, target, lines):
        """What is said of the lines of a certificate."""
        steps, potentials, weight, place = [], {}, 0, -1
        for n, line in enumerate(lines, 1):
            read = plan_line(line)
            if read is None:
                return f"line {n}"
            kind, edge, node, value = read
            if kind == "step":
                if potentials or weight + value > 2**63 - 1:
                    return f"line {n}"
                steps.append((edge, node, value))
                weight += value
            else:
                if node not in self.nodes or self.nodes.index(node) <= place or value >= weight:
                    return f"line {n}"
                place = self.nodes.index(node)
                potentials[node] = value
        reached = "root"
        for n, (edge, head, value) in enumerate(steps, 1):
            if edge >= len(self.edges) or self.edges[edge] != (reached, head, value):
                return f"step {n}"
            reached = head
        if reached != target:
            return f"step {len(steps) + 1}"
        of = {node: potentials.get(node, weight) for node in self.nodes}
        if of["root"] != 0:
            return "potential root"
        for tail, head, value in self.edges:
            if of[head] > of[tail] + value:
                return f"potential {head}"
        return "valid" if of[target] == weight else "not-tight"


def plan_line(line):
    """A plan line as its kind, edge, node and last number, or None where it is none."""
    words = line.split(" ")
    kind, edge = words[0], 0
    if kind == "step" and len(words) > 1 and is_number(words[1], 2**32 - 1):
        edge, words = int(words[1]), words[2:]
    elif kind == "potential":
        words = words[1:]
    else:
        return None
    if not words or not is_number(words[-1], 2**63 - 1):
        return None
    node, value = words[:-1], int(words[-1])
    numbers = {"root": 0, "now": 0, "recent": 0, "leaf": 1, "list": 1, "inner": 2}
    if not node or numbers.get(node[0]) != len(node) - 1 or not all(is_number(w, 2**32 - 1) for w in node[1:]):
        return None
    return kind, edge, " ".join(node), value


def point(history, time):
    """The node from which the graph as of an instant is reached."""
    count = sum(event[0] <= time for event in history.events)
    leaves = len(history.events) // history.size
    if count == len(history.events):
        return "now"
    if count % history.size == 0:
        return f"leaf {count // history.size}"
    return "recent" if count > leaves * history.size else f"list {count // history.size}"


def older_children(history, count):
    """The children, there now, of the interior nodes that so many more events complete."""
    leaves, after = (n // history.size for n in (len(history.events), len(history.events) + count))
    found, height = [], 1
    while history.arity**height <= after:
        done = leaves // history.arity**height
        if after // history.arity**height > done:
            last = leaves // history.arity ** (height - 1)
            found += [f"inner {height - 1} {c}" if height > 1 else f"leaf {c}" for c in range(done * history.arity + 1, last + 1)]
        height += 1
    return found
