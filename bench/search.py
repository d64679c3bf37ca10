#!/usr/bin/env python3
"""Compares each line of `rflx check` with a plain search: search.py PROGRAM FILE..

The checks of docs/CHECKS.md are written down here anew, and nothing is asked of the program but its report. A message of
tiny types is searched whole: all numbers of its scalars, and all lengths up to one behind which nothing changes
(`lengths`). A verdict by proofs must then have no counterexample, and the path of one by a point must be the first that
has one. Of any message the path, the length and the numbers that are told are followed along the message and must meet
the check. Lines must be those of the message, in their order, and the number of proofs that of the paths. The status is 1
where one line differs.
"""
import collections
import functools
import json
import math
import os
import re
import subprocess
import sys

import packages

# a field on a path: its first bit, its size in bits, and its number
Place = collections.namedtuple("Place", "first size number")
ABSENT = Place(0, 0, 0)
# at most so many choices of numbers and a length are searched for one message
MOST = 400_000


class Front:
    """A partial path: the numbers of its links, its last node, and its fields in their order."""

    def __init__(self, message, total, path=(), node="-", places={}):
        self.message, self.total, self.path, self.node, self.places = message, total, path, node, places
        self.end = places[node].first + places[node].size if places else 0
        self.covered = max([place.first + place.size for place in places.values()], default=0)

    def names(self, word, name):
        """The value of a name or an attribute; a field that is not on the path has zeros, and -1 for its Last."""
        if name == "Message":
            return {"First": 0, "Size": 8 * self.total, "Last": 8 * self.total - 1}[word]
        if word == "name" and name not in self.message.fields:
            return self.message.literals[name]
        place = self.places.get(name, ABSENT)
        return {"name": place.number, "First": place.first, "Size": place.size, "Last": place.first + place.size - 1}[word]

    def value(self, tree):
        return packages.value_of(tree, self.names)

    def takes(self, link):
        return all(self.value(condition) == 1 for condition in link.conditions)

    def place_of(self, link):
        """First and Size of the field to which the link leads."""
        first = self.value(link.first) if link.first else self.end
        scalar = self.message.fields[link.target].scalar
        if scalar:
            return first, scalar.size
        return first, self.value(link.size) if link.size else 8 * self.total - first

    def numbers(self, field, size):
        """The numbers that the field can have here: over a scalar of its size on the path it has that one's."""
        if not field.scalar:
            return [0]
        below = self.places.get(field.over)
        if below and self.message.fields[field.over].scalar and below.size == size:
            return [below.number] if below.number in field.scalar.numbers else []
        return field.scalar.numbers

    def onward(self, link, wanted=None):
        """The fronts that go on with the link, or the one where its target has the wanted number."""
        if link.target is None or not self.takes(link):
            return
        first, size = self.place_of(link)
        if first < 0 or size < 0 or first + size > 8 * self.total:
            return
        numbers = self.numbers(self.message.fields[link.target], size)
        for number in numbers if wanted is None else [wanted] if wanted in numbers else []:
            places = {**self.places, link.target: Place(first, size, number)}
            yield Front(self.message, self.total, self.path + (link.number,), link.target, places)


# ---- checks


def checks_of(message):
    """The checks of a message in their order, each with the node at which it is asked and the numbers of its links."""
    links = [link for links in message.links.values() for link in links]
    inward = [link for link in links if link.target]
    subjects = {
        "Taken": links,
        "Position": inward,
        "Grid": [link for link in inward if not message.fields[link.target].scalar],
        "Overlay": [link for link in inward if message.fields[link.target].over],
        "Cover": links,
        "Whole": [link for link in links if not link.target],
    }
    checks = [("Exclusive", a.source, a.number, b.number) for a in links for b in message.links[a.source][a.number :]]
    checks += [("Taken", link.source, link.number) for link in subjects.pop("Taken")]
    checks += [("Reached", field) for field in message.fields]
    return checks + [(name, link.source, link.number) for name, chosen in subjects.items() for link in chosen]


def is_universal(check):
    return check[0] not in ("Taken", "Reached")


def is_met(front, check):
    """Whether the check's formula is met at the end of the partial path: what breaks it, or for Taken and Reached what it asks."""
    name, node, *numbers = check
    links = [front.message.links[node][number - 1] for number in numbers]
    return all(front.takes(link) for link in links) and (not links or breaks(front, name, links[0]))


def breaks(front, name, link):
    if name in ("Exclusive", "Taken"):
        return True
    if name == "Whole":
        return front.end % 8 != 0
    if link.target is None:
        return front.end != front.covered
    first, size = front.place_of(link)
    field = front.message.fields[link.target]
    if name == "Position":
        return first < 0 or size < 0
    if name == "Grid":
        return first % 8 != 0 or size % 8 != 0
    if name == "Overlay":
        return size != front.places.get(field.over, ABSENT).size
    return field.over is None and first != front.covered


# ---- the search


def path_counts(message):
    """How many paths lead from the start to each node."""

    @functools.cache
    def count(node):
        into = [link.source for links in message.links.values() for link in links if link.target == node]
        return 1 if node == "-" else sum(map(count, into))

    return {node: count(node) for node in message.links}


def divisor_of(tree):
    """The product of all divisors in an expression."""
    own = packages.value_of(tree[2], None) if tree[0] in ("/", "mod") else 1
    return own * math.prod(divisor_of(part) for part in tree[1:] if isinstance(part, tuple))


def magnitude_of(tree, message, far):
    """With m bytes a part of the expression is a * 8m + b; this is at least each |b|, where no |b| of a field passes `far`."""
    word, *parts = tree
    if word == "number":
        return parts[0]
    if word == "name":
        field = message.fields.get(parts[0])
        return field.scalar.numbers[-1] if field else message.literals[parts[0]]
    if not isinstance(parts[0], tuple):
        return far + 1
    sizes = [magnitude_of(part, message, far) for part in parts]
    return math.prod(sizes) if word in ("*", "**") else sum(sizes) + 1


def lengths(message):
    """How many lengths suffice.

    With fixed numbers, whatever is compared along a path is a * 8m + b in a message of m bytes, where m is taken modulo the
    product d of all divisors; a is a multiple of 1 / d, and `far` bounds each |b|. Two such sums with different a keep
    their order once 8m > 2 * d * far, and those with one a keep it always. Whether a sum is a multiple of 8 repeats with
    d. So what holds for no length below d * (far / 4 + 2) holds for none. Links lead onward in the text here.
    """
    links = [link for links in message.links.values() for link in links]
    divisor = math.prod(divisor_of(tree) for link in links for tree in [*link.conditions, link.first, link.size] if tree)
    far = 8
    for name, field in message.fields.items():
        into = [link for link in links if link.target == name]
        far = max([magnitude_of(link.first, message, far) for link in into if link.first] + [far])
        sizes = [magnitude_of(link.size, message, far) if link.size else far for link in into]
        far += field.scalar.size if field.scalar else max(sizes, default=0)
    far = max([magnitude_of(condition, message, far) for link in links for condition in link.conditions] + [far])
    return divisor * (far // 4 + 2)


def is_tiny(message):
    places = {name: place for place, name in enumerate([*message.links, None])}
    if any(places[link.target] <= places[source] for source, links in message.links.items() for link in links):
        return False
    choices = math.prod(len(field.scalar.numbers) for field in message.fields.values() if field.scalar)
    return choices * lengths(message) <= MOST


def fronts(front):
    yield front
    for link in front.message.links[front.node]:
        for longer in front.onward(link):
            yield from fronts(longer)


def search(message, checks):
    """Of each check that is met somewhere the first path on which it is."""
    asked = collections.defaultdict(list)
    for check in checks:
        asked[check[1]].append(check)
    found = {}
    for total in range(lengths(message)):
        for front in fronts(Front(message, total)):
            for check in asked[front.node]:
                if (check not in found or front.path < found[check]) and is_met(front, check):
                    found[check] = front.path
    return found


# ---- the report

LINE = re.compile(r"(Passed|Failed) (?:by (\d+) proofs of \d+ steps|on (\S+) length (\d+) (\{.*\}))")


def number_of(field, shown):
    return field.scalar.literals[shown] if isinstance(shown, str) else shown


def follow(message, path, total, shown):
    """The front of a path, a length and the numbers that are told, or None where it is none."""
    front, left = Front(message, total), dict(shown)
    for number in path:
        link = message.links[front.node][number - 1]
        field = message.fields[link.target]
        wanted = number_of(field, left.pop(link.target, -1)) if field.scalar else 0
        front = next(front.onward(link, wanted), None)
        if front is None:
            return None
    return None if left or total >= 2**24 else front


def fault_of(message, check, told, paths, found):
    """What is wrong with the verdict, or None. So many paths lead to its node; `found` is None where nothing was searched."""
    parts = LINE.fullmatch(told)
    if not parts:
        return "is no verdict"
    word, proofs, path, total, shown = parts.groups()
    if (word == "Passed") != (is_universal(check) == (proofs is not None)):
        return "has the wrong word"
    if proofs:
        if int(proofs) != paths:
            return "has not as many proofs as paths"
        return f"is met on {found[check]}" if check in (found or {}) else None
    path = () if path == "-" else tuple(map(int, path.split(".")))
    front = follow(message, path, int(total), json.loads(shown))
    if front is None or front.node != check[1] or not is_met(front, check):
        return "is told with what does not meet it"
    return None if found is None or found.get(check) == path else f"has another first path, {found.get(check)}"


def compare(program, file, counts):
    """The faults of the program's report on one package; what was looked at is counted."""
    package, messages = packages.read(open(file).read())
    folder = os.path.dirname(os.path.abspath(file))
    ran = subprocess.run([program, "check", package], cwd=folder, stdin=subprocess.DEVNULL, capture_output=True, text=True)
    lines = ran.stdout.splitlines()
    expected = [(message, check) for message in messages for check in checks_of(message)]
    if len(lines) != len(expected) + 1:
        return [f"{package}: {len(lines)} lines, and not {len(expected) + 1}"]
    found = {m.name: search(m, checks_of(m)) if is_tiny(m) else None for m in messages}
    paths = {m.name: path_counts(m) for m in messages}
    faults, words = [], collections.Counter()
    for (message, check), line in zip(expected, lines):
        subject, _, told = line.partition(": ")
        fault = fault_of(message, check, told, paths[message.name][check[1]], found[message.name])
        if subject != " ".join([f"{package}::{message.name}", *map(str, check)]):
            fault = f"is not of {check}"
        words[told.split(" ")[0]] += 1
        counts[check[0], told.split(" ")[0], found[message.name] is not None] += 1
        faults += [f"{line}\n  {fault}"] if fault else []
    last = f"{words['Passed']} passed, {words['Failed']} failed, {words['Undecided']} undecided"
    if lines[-1] != last or ran.returncode != (1 if words["Failed"] else 4 if words["Undecided"] else 0):
        faults.append(f"{package}: {lines[-1]} with status {ran.returncode}")
    return faults


def main(program, *files):
    counts, faults = collections.Counter(), []
    for file in files:
        faults += compare(os.path.abspath(program), file, counts)
    print("check      passed  failed   of them searched whole")
    for name in ["Exclusive", "Taken", "Reached", "Position", "Grid", "Overlay", "Cover", "Whole"]:
        row = [counts[name, word, whole] for word in ("Passed", "Failed") for whole in (True, False)]
        print(f"{name:<10} {row[0] + row[1]:>6}  {row[2] + row[3]:>6}   {row[0]:>6}  {row[2]:>6}")
    print(*faults, f"{sum(counts.values())} lines, {len(faults)} faults", sep="\n")
    return 1 if faults else 0


if __name__ == "__main__":
    sys.exit(main(*sys.argv[1:]))
