#!/usr/bin/env python3
"""Finds an order of a crate's must-fail edits in which little is proved again, and numbers them by it.

usage: tools/order_edits.py [--write] [CRATE..]     (from the top of the repository; without a name every crate)

The gate tries a crate's edits by their names, each over what the one before it left. A function that an edit
breaks is refused, and at once so is each function that calls it; where the next edit does not break them too,
all of them are proved again. So an edit comes before those of functions that its function calls. Who calls whom
is read from the text, by names alone; what a function costs is taken to grow with its lines.
Without --write it prints what would be proved again, in lines of code, by the names and by the order found;
with it, it numbers the edits where that saves a tenth.
"""
import os
import re
import sys

NUMBER = re.compile(r"^\d+-")
HEAD = re.compile(r"(?m)^([ \t]*)(?:pub(?:\([a-z]+\))?\s+)?(?:const\s+)?fn\s+(\w+)")
CALLED = re.compile(r"(?:(?<=::)|\b)([a-z_]\w*)(?=(?:::<[^()]*>)?\()|(?<=::)([a-z_]\w*)")


def functions_of(folder):
    """Returns each function's file, name, place and text; a function ends at a brace as far in as its head."""
    found = []
    for at, folders, files in os.walk(f"{folder}/src"):
        folders.sort()
        for name in sorted(it for it in files if it.endswith(".rt")):
            path = os.path.join(at, name)
            with open(path, encoding="utf-8") as file:
                text = file.read()
            for head in HEAD.finditer(text):
                end = re.compile(rf"(?m)^{head[1]}\}}").search(text, head.end())
                last = end.end() if end else len(text)
                found.append((os.path.relpath(path, folder), head[2], head.start(), text[head.start() : last]))
    return found


def callers_of(functions):
    """Returns, for each function, the functions that call it, directly or not, and itself."""
    by_name = {}
    for at, (_, name, _, _) in enumerate(functions):
        by_name.setdefault(name, set()).add(at)
    direct = [set() for _ in functions]
    for at, (_, _, _, text) in enumerate(functions):
        for name in {it for pair in CALLED.findall(text) for it in pair if it}:
            for callee in by_name.get(name, ()):
                direct[callee].add(at)
    found = []
    for at in range(len(functions)):
        seen, left = {at}, [at]
        while left:
            more = direct[left.pop()] - seen
            seen |= more
            left += more
        found.append(seen)
    return found


def broken_by(edit, folder, functions, callers):
    """Returns the functions that are refused under an edit."""
    path, broken = "", set()
    with open(edit, encoding="utf-8") as file:
        lines = file.read().split("\n")
    for line in lines:
        if line.startswith("file: "):
            path = line[len("file: ") :].strip()
            with open(f"{folder}/{path}", encoding="utf-8") as file:
                text = file.read()
        elif line.startswith("old: "):
            place = text.find(line[len("old: ") :].strip())
            inside = [at for at, it in enumerate(functions) if it[0] == path and it[2] <= place < it[2] + len(it[3])]
            if inside:
                broken |= callers[max(inside, key=lambda at: functions[at][2])]
    return broken


class Order:
    """The edits of a crate, and what is proved again between them."""

    def __init__(self, folder):
        functions = functions_of(folder)
        callers = callers_of(functions)
        self.lines = [8 + text.count("\n") for _, _, _, text in functions]
        self.folder = f"{folder}/must-fail"
        names = os.listdir(self.folder) if os.path.isdir(self.folder) else []
        self.edits = sorted(it for it in names if it.endswith(".edit"))
        self.broken = {it: broken_by(f"{self.folder}/{it}", folder, functions, callers) for it in self.edits}
        self.known = {}

    def between(self, one, next_one):
        key = one, next_one
        if key not in self.known:
            self.known[key] = sum(self.lines[it] for it in self.broken[one] - self.broken.get(next_one, set()))
        return self.known[key]

    def cost(self, order):
        return sum(self.between(one, other) for one, other in zip(order, [*order[1:], None]))

    def from_one(self, first):
        """Goes on each time with the edit before which the least is proved again, of those the one that breaks least."""
        order, left = [first], [it for it in self.edits if it != first]
        while left:
            key = lambda it: (self.between(order[-1], it), self.between(it, None), NUMBER.sub("", it))
            order.append(min(left, key=key))
            left.remove(order[-1])
        return order

    def found(self):
        """Returns the best of these orders, made better by moving single edits as long as that helps."""
        order = min(map(self.from_one, self.edits), key=self.cost)
        cost, is_better = self.cost(order), True
        while is_better:
            is_better = False
            for edit in list(order):
                rest = [it for it in order if it != edit]
                tried = [[*rest[:at], edit, *rest[at:]] for at in range(len(order))]
                best = min(tried, key=self.cost)
                if self.cost(best) < cost:
                    order, cost, is_better = best, self.cost(best), True
        return order


def number(order, found):
    """Renames the edits by their place, over names that no edit has."""
    digits = len(str(len(found)))
    for at, edit in enumerate(found, 1):
        os.rename(f"{order.folder}/{edit}", f"{order.folder}/{edit}.moved")
    for at, edit in enumerate(found, 1):
        os.rename(f"{order.folder}/{edit}.moved", f"{order.folder}/{at:0{digits}}-{NUMBER.sub('', edit)}")


def main(words):
    names = [it for it in words if it != "--write"] or sorted(os.listdir("crates"))
    for name in names:
        order = Order(f"crates/{name}")
        if len(order.edits) < 3:
            continue
        found = order.found()
        before, behind = order.cost(order.edits), order.cost(found)
        print(f"{name}: {len(found)} edits, lines proved again {before} by their names, {behind} by the order found")
        if "--write" in words and 10 * behind < 9 * before:
            number(order, found)


if __name__ == "__main__":
    main(sys.argv[1:])
