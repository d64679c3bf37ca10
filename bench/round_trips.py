#!/usr/bin/env python3
"""Sends generated messages both ways through rflx, and compares.

    round_trips.py [--seed N] [--packages N] [--program FILE]
    round_trips.py --store FOLDER      writes the run of crates/round_trials, from a few of the packages

Packages with plain, branching and overlaid messages, in both byte orders, are made from a fixed seed, each with values
for its fields. The bytes and the JSON text of the values are worked out here, apart from the program. Tried are:
  values    `encode` of the text writes the bytes, and `decode` of the bytes prints the text
  spelled   so it is with members in another order, and names, literals and digits in other letters
  changed   where `encode` takes values of which one was changed, `decode` prints them
  buffers   where `decode` takes random bytes, or bytes of a message with bits changed, `encode` writes them again
Prints how many of each there were, and each difference; the status is 1 where there is one.
"""
import argparse
import collections
import pathlib
import random
import subprocess
import sys
import tempfile

TOP = pathlib.Path(__file__).resolve().parent.parent
MESSAGES = 6
BUFFERS = 12


# ---- types

class Scalar:
    """A scalar type: its definition, its size, and its numbers with their names, if they have any."""

    def __init__(self, text, size, first, last, names=None, every=False):
        self.text, self.size, self.first, self.last, self.names, self.every = text, size, first, last, names, every

    def allows(self, number):
        return number in self.names if self.names and not self.every else self.first <= number <= self.last

    def some(self, rng):
        if self.names and not (self.every and rng.random() < 0.2):
            return rng.choice(list(self.names))
        near = [self.first, self.last, min(self.last, self.first + rng.randrange(24))] + [rng.randint(self.first, self.last)] * 3
        return rng.choice(near)

    def shown(self, number):
        return f'"{self.names[number]}"' if self.names and number in self.names else str(number)

    def spelled(self, rng, number):
        if self.names and number in self.names and rng.random() < 0.5:
            return f'"{other_case(rng, self.names[number])}"'
        return str(number)


class Opaque:
    text, size = "Opaque", None

    def shown(self, value):
        return f'"{value.hex()}"'

    def spelled(self, rng, value):
        return f'"{other_case(rng, value.hex())}"'


def other_case(rng, text):
    return "".join(rng.choice([c.lower(), c.upper()]) for c in text)


BOOLEAN = Scalar("Boolean", 1, 0, 1, {0: "False", 1: "True"})


# ---- messages

class Field:
    """A field, the text and the bits of its size if it is bytes, the field that it lies over, and its links."""

    def __init__(self, name, kind, size_text=None, size=None, over=None):
        self.name, self.kind, self.size_text, self.size, self.over, self.links = name, kind, size_text, size, over, []


Link = collections.namedtuple("Link", "target condition holds")


class Package:
    """One package with one message, made up from the random numbers of its own generator."""

    def __init__(self, rng, name):
        self.rng, self.name, self.types, self.fields = rng, name, {}, []
        self.low = rng.random() < 0.4
        self.literals = 0
        ends = self.blocks([], rng.randint(2, 4), 0)
        if not self.fields or rng.random() < 0.4:
            ends = self.rest(ends)
        self.join(ends, None)

    # ---- types

    def declared(self, scalar):
        name = f"T{len(self.types)}"
        self.types[name] = scalar
        return name

    def sized(self, size):
        """A scalar type of so many bits."""
        rng = self.rng
        form = rng.choice(["unsigned", "range", "enumeration"] if size > 1 else ["unsigned", "Boolean"])
        if form == "Boolean":
            return form, BOOLEAN
        if form == "unsigned":
            scalar = Scalar(f"unsigned {size}", size, 0, 2**size - 1)
        elif form == "range":
            first, last = sorted(rng.randrange(2**size) for _ in range(2))
            scalar = Scalar(f"range {first} .. {last} with Size => {size}", size, first, last)
        else:
            scalar = self.enumeration(size)
        return self.declared(scalar), scalar

    def enumeration(self, size):
        rng = self.rng
        numbers = sorted({rng.randrange(2**size) for _ in range(rng.randint(2, 4))})
        names = {number: f"Lit_{self.literals + index}" for index, number in enumerate(numbers)}
        self.literals += len(names)
        every = rng.random() < 0.3
        listed = ", ".join(f"{name} => {number}" for number, name in names.items())
        text = f"({listed}) with Size => {size}" + (", Always_Valid" if every else "")
        return Scalar(text, size, 0, 2**size - 1, names, every)

    def some_size(self, at_most):
        if self.low:
            return self.rng.choice([n for n in [1, 2, 3, 5, 7, 8, 16, 24, 32, 48, 56] if n <= at_most])
        return self.rng.randint(1, at_most)

    # ---- blocks of fields: each takes the ends of what stands before it, and gives its own

    def field(self, ends, kind, scalar, **aspects):
        field = Field(f"F{len(self.fields)}", kind, **aspects)
        field.scalar = scalar
        self.fields.append(field)
        self.join(ends, field)
        return field

    def join(self, ends, target):
        for field, condition, holds in ends:
            field.links.append(Link(target, condition, holds))

    @staticmethod
    def always(field):
        return [(field, None, lambda values: True)]

    def run(self, ends):
        """Scalars that end on a whole byte together."""
        left = 8 * self.rng.randint(1, 9)
        while left:
            size = self.some_size(min(left, 63))
            ends = self.always(self.field(ends, *self.sized(size)))
            left -= size
        return ends

    def length_type(self):
        size = self.rng.choice([8, 16])
        last = self.rng.choice([20, 40, 200])
        first = self.rng.choice([0, 0, 2])
        scalar = Scalar(f"range {first} .. {last} with Size => {size}", size, first, last)
        return self.declared(scalar), scalar

    def bytes(self, ends):
        """A length, and so many bytes, or two fewer."""
        name, scalar = self.length_type()
        length = self.field(ends, name, scalar)
        less = self.rng.choice([0, 2])
        text = f"{length.name} * 8" if not less else f"{length.name} * 8 - 16"
        ends = [(length, f"{length.name} >= {less}", lambda values, n=length.name: values[n] >= less)]
        size = lambda values, n=length.name: 8 * values[n] - 8 * less
        return self.always(self.field(ends, "Opaque", Opaque(), size_text=text, size=size))

    def fixed(self, ends):
        """A fixed count of bytes."""
        bits = 8 * self.rng.randint(0, 5)
        return self.always(self.field(ends, "Opaque", Opaque(), size_text=str(bits), size=lambda values: bits))

    def rest(self, ends):
        """The rest of the message, by itself or by its size."""
        if len(ends) == 1 and self.rng.random() < 0.5:
            text = f"Message'Last - {ends[0][0].name}'Last"
            return self.always(self.field(ends, "Opaque", Opaque(), size_text=text))
        return self.always(self.field(ends, "Opaque", Opaque()))

    def overlay(self, ends):
        """A scalar, and another of the same size over it."""
        size = 8 * self.rng.randint(1, 4)
        below = self.field(ends, *self.sized(size))
        every = Scalar(f"unsigned {size}", size, 0, 2**size - 1)
        name, scalar = self.sized(size)
        if not any(scalar.allows(number) for number in [below.scalar.first, below.scalar.last]) or below.scalar.names:
            name, scalar = self.declared(every), every
        return self.always(self.field(self.always(below), name, scalar, over=below))

    def choice(self, ends, deep):
        """A tag, and blocks of fields for some of its numbers."""
        tag, cases = self.tag(ends)
        after = []
        for condition, holds in cases:
            branch = [(tag, condition, holds)]
            after += self.blocks(branch, self.rng.randint(0, 2), deep + 1)
        return after

    def tag(self, ends):
        rng = self.rng
        if rng.random() < 0.5:
            scalar = self.enumeration(8)
            while len(scalar.names) < 2:
                scalar = self.enumeration(8)
            tag = self.field(ends, self.declared(scalar), scalar)
            numbers = list(scalar.names)
            return tag, [(f"{tag.name} = {scalar.names[n]}", self.is_number(tag, n)) for n in numbers[: rng.randint(2, 4)]]
        scalar = Scalar("unsigned 8", 8, 0, 255)
        tag = self.field(ends, self.declared(scalar), scalar)
        cuts = sorted(rng.sample(range(1, 250), rng.randint(1, 2)))
        bounds = list(zip([0] + [c + 1 for c in cuts], cuts + [rng.choice([255, 252])]))
        return tag, [(f"{tag.name} >= {a} and {tag.name} <= {b}", self.is_between(tag, a, b)) for a, b in bounds]

    @staticmethod
    def is_number(field, number):
        return lambda values: values[field.name] == number

    @staticmethod
    def is_between(field, first, last):
        return lambda values: first <= values[field.name] <= last

    def blocks(self, ends, count, deep):
        for _ in range(count):
            block = self.rng.choice([self.run, self.run, self.bytes, self.fixed, self.overlay, self.choice])
            if block == self.choice:
                ends = self.run(ends) if deep > 1 else self.choice(ends, deep)
            else:
                ends = block(ends)
        return ends

    # ---- the text

    def text(self):
        lines = [f"package {self.name} is"]
        lines += [f"   type {name} is {scalar.text};" for name, scalar in self.types.items()]
        lines += ["   type M is", "      message"] + [line for field in self.fields for line in self.lines_of(field)]
        order = "\n         with Byte_Order => Low_Order_First" if self.low else ""
        return "\n".join(lines + [f"      end message{order};", f"end {self.name};", ""])

    def lines_of(self, field):
        aspects = [f"First => {field.over.name}'First"] if field.over else []
        aspects += [f"Size => {field.size_text}"] if field.size_text else []
        lines = [f"         {field.name} : {field.kind}" + (f" with {', '.join(aspects)}" if aspects else "")]
        for link in field.links:
            target = link.target.name if link.target else "null"
            lines.append(f"            then {target}" + (f" if {link.condition}" if link.condition else ""))
        lines[-1] += ";"
        return lines

    # ---- values, their bytes and their texts

    def values(self):
        """The values of a message, and its bytes; none where the random values lead to no end."""
        values, bits, places = {}, "", {}
        field = self.fields[0]
        while field:
            if field.over:
                bits_of = places[field.over.name]
                values[field.name] = self.number_of(bits_of)
                if not field.scalar.allows(values[field.name]):
                    return None
            elif field.kind == "Opaque":
                count = field.size(values) // 8 if field.size else self.rng.randrange(12)
                value = bytes(self.rng.randrange(256) for _ in range(count))
                values[field.name] = value
                bits += "".join(f"{byte:08b}" for byte in value)
            else:
                values[field.name] = field.scalar.some(self.rng)
                places[field.name] = self.bits_of(values[field.name], field.scalar.size)
                bits += places[field.name]
            taken = [link for link in field.links if link.holds(values)]
            if not taken:
                return None
            field = taken[0].target
        return values, bytes(int(bits[i : i + 8], 2) for i in range(0, len(bits), 8))

    def bits_of(self, number, size):
        bits = f"{number:0{size}b}"
        return self.turned(bits)

    def number_of(self, bits):
        return int(self.turned(bits), 2)

    def turned(self, bits):
        if not self.low or len(bits) % 8:
            return bits
        return "".join(reversed([bits[i : i + 8] for i in range(0, len(bits), 8)]))

    def scalar_of(self, name):
        return next(field.scalar for field in self.fields if field.name == name)

    def shown(self, values):
        """The text that is printed of the values."""
        members = [f'"{name}":{self.scalar_of(name).shown(values[name])}' for name in sorted(values)]
        return f"{{{','.join(members)}}}\n".encode()

    def spelled(self, values):
        """Another text that means the same."""
        names = list(values)
        self.rng.shuffle(names)
        space = lambda: self.rng.choice(["", " ", "\n", "\t "])
        members = [f'{space()}"{other_case(self.rng, n)}"{space()}:{space()}{self.scalar_of(n).spelled(self.rng, values[n])}' for n in names]
        return f"{{{(space() + ',').join(members)}{space()}}}{space()}".encode()

    def changed(self, values):
        """The values with one changed, left out or added."""
        values = dict(values)
        field = self.rng.choice(self.fields)
        if self.rng.random() < 0.2:
            values.pop(field.name, None)
        elif field.kind == "Opaque":
            values[field.name] = bytes(self.rng.randrange(256) for _ in range(self.rng.randrange(6)))
        else:
            values[field.name] = field.scalar.some(self.rng)
        return values

    def buffer(self, message):
        """Random bytes, or those of the message with some bits changed, cut off or added."""
        if self.rng.random() < 0.3:
            return bytes(self.rng.randrange(256) for _ in range(self.rng.randrange(24)))
        buffer = bytearray(message)
        for _ in range(self.rng.randrange(4)):
            if buffer:
                buffer[self.rng.randrange(min(len(buffer), 16))] ^= 1 << self.rng.randrange(8)
        if self.rng.random() < 0.2:
            buffer = buffer[: self.rng.randrange(len(buffer) + 1)]
        return bytes(buffer)


# ---- the trials

class Trials:
    def __init__(self, program, folder):
        self.program, self.folder = program, folder
        self.counts, self.differences = collections.Counter(), 0

    def run(self, words, given=b""):
        ran = subprocess.run([self.program, *words], input=given, cwd=self.folder, stdout=subprocess.PIPE)
        if ran.returncode not in (0, 1, 4, 5):
            sys.exit(f"round_trips: {' '.join(words)} ended with {ran.returncode}: {ran.stdout[:200]}")
        return ran.returncode, ran.stdout

    def same(self, what, package, given, found, wanted):
        self.counts[what] += 1
        if found != wanted:
            self.differences += 1
            print(f"{what} of {package.name}: of {given!r} came {found!r}, and not {wanted!r}\n{package.text()}")

    def message(self, package, values, message):
        operand = f"{package.name}::M"
        decode = lambda given: self.run(["decode", operand], given)
        encode = lambda given: self.run(["encode", operand], given)
        shown = package.shown(values)
        self.same("values", package, shown, encode(shown), (0, message))
        self.same("values", package, message, decode(message), (0, shown))
        spelled = package.spelled(values)
        self.same("spelled", package, spelled, encode(spelled), (0, message))
        for _ in range(4):
            changed = package.shown(package.changed(values))
            status, written = encode(changed)
            if status == 0:
                self.same("changed", package, changed, decode(written), (0, changed))
            else:
                self.counts["changed and refused"] += 1
        for _ in range(BUFFERS):
            buffer = package.buffer(message)
            status, text = decode(buffer)
            if status == 0:
                self.same("buffers", package, buffer, encode(text), (0, buffer))
            else:
                self.counts["buffers that were refused"] += 1

    def package(self, package):
        """Whether the package passes its checks; then its messages are tried."""
        (self.folder / f"{package.name.lower()}.rflx").write_text(package.text())
        status, report = self.run(["check", package.name])
        if status:
            self.counts["packages that do not pass"] += 1
            return
        self.counts["packages"] += 1
        self.counts["branching"] += any(len(field.links) > 1 for field in package.fields)
        self.counts["overlaid"] += any(field.over is not None for field in package.fields)
        self.counts["in low order"] += package.low
        for _ in range(MESSAGES):
            made = package.values()
            if made:
                self.message(package, *made)


def is_plain(package):
    return all(len(field.links) == 1 and not field.over for field in package.fields)


def is_branching(package):
    return any(len(field.links) > 1 for field in package.fields) and not package.low


def is_overlaid(package):
    return any(field.over for field in package.fields) and package.low


def stored(seed, test):
    """The first package that is so and has a short text."""
    index = 0
    while True:
        package = Package(random.Random(f"{seed} {index}"), f"Made_{index}")
        if test(package) and len(package.fields) > 5 and len(package.text()) < 1600:
            return package
        index += 1


def store(folder, seed):
    given, wanted = [], []
    for test in (is_plain, is_branching, is_overlaid):
        package = stored(seed, test)
        (folder / "data").mkdir(exist_ok=True)
        (folder / "data" / f"{package.name.lower()}.rflx").write_text(package.text())
        for values, message in filter(None, (package.values() for _ in range(6))):
            text = package.spelled(values).decode().replace("\n", " ")
            given.append(f"{package.name}::M {text}\n")
            wanted.append(f"{message.hex()} {package.shown(values).decode()}")
    (folder / "stdin").write_text("".join(given))
    (folder / "stdout").write_text("".join(wanted))


def main():
    words = argparse.ArgumentParser()
    words.add_argument("--seed", type=int, default=2026)
    words.add_argument("--packages", type=int, default=20)
    words.add_argument("--program", default=str(TOP / "crates/rflx/out/rflx"))
    words.add_argument("--store", type=pathlib.Path)
    words = words.parse_args()
    if words.store:
        return store(words.store, words.seed)
    if not pathlib.Path(words.program).exists():
        sys.exit(f"round_trips: there is no {words.program}; bin/rflx builds it")
    with tempfile.TemporaryDirectory() as folder:
        trials = Trials(words.program, pathlib.Path(folder))
        for index in range(words.packages):
            trials.package(Package(random.Random(f"{words.seed} {index}"), f"Made_{index}"))
    for what, count in trials.counts.items():
        print(f"{count:6} {what}")
    print(f"{trials.differences:6} differences")
    sys.exit(1 if trials.differences or not trials.counts["packages"] else 0)


if __name__ == "__main__":
    main()
