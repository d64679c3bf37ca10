#!/usr/bin/env python3
"""Writes the text of a package: messages.py KIND [SEED].

    table      50 small messages for search.py, from a fixed seed or the given one: up to three scalars of tiny types,
               bytes, branches, and fields that lie over others or leave bits between
    fields     a message of 128 fields
    links      a message of 512 links
    paths      a message of 4,096 paths from the start to null
    too_many   as `paths`, with one more
"""
import random
import sys

SEED, COUNT = 11, 50

TYPES = """package Table is
   type Bit is unsigned 1;
   type Duo is unsigned 2;
   type Trio is range 1 .. 6 with Size => 3;
   type Byte is range 0 .. 5 with Size => 8;
   type Hue is (Red => 0, Green => 2, Blue => 3) with Size => 2;
   type Kind is (Off => 1, On => 4) with Size => 8;
   type Mode is (Slow => 0, Fast => 6) with Size => 3, Always_Valid;
"""
NUMBERS = ["Bit", "Duo", "Trio", "Byte"]
LITERALS = {"Hue": ["Red", "Green", "Blue"], "Kind": ["Off", "On"], "Mode": ["Slow", "Fast"], "Boolean": ["True", "False"]}
TURNED = {"=": "/=", "/=": "=", "<": ">=", ">=": "<", ">": "<=", "<=": ">"}


# ---- conditions and aspects, over the fields so far: pairs of a name and a type


def number(draw, fields):
    """A sum over the numbers of one or two fields; a constant where no field is a number."""
    names = [name for name, kind in fields if kind in NUMBERS]
    if not names:
        return str(draw.randrange(4))
    one, other = draw.choice(names), draw.choice(names)
    pair = [f"{one} + {other}", f"2 * {one} - {other}"] if one != other else [one, f"2 * {one}"]
    return draw.choice([one, one, one, *pair, f"{one} / 2", f"{one} mod 3", f"5 - {one}"])


def bits(draw, fields):
    """A number of bits."""
    name = draw.choice(fields)[0] if fields else "Message"
    return draw.choice(["Message'Size", "Message'Size", "Message'Last", f"{name}'Size", f"{name}'Last + 1", f"{name}'First"])


def comparison(draw, fields):
    """Its left side, its operator and its right side."""
    shape = draw.randrange(10)
    named = [(name, kind) for name, kind in fields if kind in LITERALS]
    if named and shape < 4:
        name, kind = draw.choice(named)
        return name, draw.choice(["=", "/="]), draw.choice(LITERALS[kind])
    operator = draw.choice(list(TURNED))
    if shape < 8 and any(kind in NUMBERS for name, kind in fields):
        return number(draw, fields), operator, str(draw.randrange(1, 5))
    right = draw.choice([8 * draw.randrange(1, 4), 8 * draw.randrange(1, 4), bits(draw, fields), f"8 * ({number(draw, fields)})"])
    return bits(draw, fields), operator, right


def condition(draw, fields):
    """A condition, and one that is true where it is false."""
    left, operator, right = comparison(draw, fields)
    one, other = f"{left} {operator} {right}", f"{left} {TURNED[operator]} {right}"
    shape = draw.randrange(8)
    if shape == 0:
        return f"{one}", f"not ({one})"
    if shape < 3:
        more, less = condition(draw, fields)
        return draw.choice([(f"{one} and ({more})", f"{other} or {less}"), (f"{one} or {more}", f"{other} and ({less})")])
    return one, other


def size(draw, fields):
    """The Size of bytes behind these fields."""
    length = number(draw, fields)
    last = f"{fields[-1][0]}'Last" if fields else "7"
    return draw.choice([
        f"({length}) * 8", f"({length}) * 8", f"8 * ({length}) - 8", f"({length}) * 4", "16", "Message'Size - 16",
        f"Message'Last - {last}", f"Message'Size - {last} - 1", f"({length}) * 8 + 16",
    ])  # fmt: skip


def first(draw, fields):
    """Where a field begins, mostly nothing of it."""
    name = draw.choice(fields)[0] if fields else ""
    return draw.choice([""] * 9 + [f"{name}'First"] * 3 + [f"{fields[-1][0]}'Last + 1", f"{name}'Last + 1", f"{name}'Last + 9"]) if fields else ""


def aspects(firsts, sizes):
    said = [f"First => {text}" for text in firsts if text] + [f"Size => {text}" for text in sizes]
    return " with " + ", ".join(said) if said else ""


# ---- messages


def links(draw, fields, onward, sized):
    """Links to the first of the later fields, and to others of them or null; those to `sized` have a Size of their own."""
    names = [name for name, kind in onward]
    targets = [names[0]] + [draw.choice(names) for _ in range(draw.choice([0, 0, 1, 1, 2]))]
    draw.shuffle(targets)
    ways = [*condition(draw, fields), condition(draw, fields)[0]]
    always = 0.7 if len(targets) == 1 else 0.05
    texts = [f" then {target}{aspects([], [size(draw, fields)] if target == sized else [])}" for target in targets]
    return "".join(text + ("" if draw.random() < always else f" if {way}") for text, way in zip(texts, ways))


def field(draw, before, own, onward, sized):
    """A field's declaration. Bytes that go to null alone may have no Size."""
    name, kind = own
    is_rest = kind == "Opaque" and name != sized and len(onward) == 1 and draw.random() < 0.5
    sizes = [size(draw, before)] if kind == "Opaque" and name != sized and not is_rest else []
    way = f" if {condition(draw, before + [own])[0]}" if draw.random() < 0.1 else ""
    onward_links = "" if is_rest else links(draw, before + [own], onward, sized)
    return f"{name} : {kind}{aspects([first(draw, before)], sizes)}{way}{onward_links};"


def kinds(draw):
    """The types of the fields of a message: up to three scalars, and perhaps bytes behind one of them."""
    scalars = NUMBERS + ["Byte", "Byte", "Byte", "Kind"] + list(LITERALS)
    chosen = [draw.choice(scalars) for _ in range(draw.choice([1, 1, 2, 2, 3]))]
    if draw.random() < 0.45:
        chosen.insert(draw.randrange(1, len(chosen) + 1), "Opaque")
    return chosen


def message(draw, name):
    fields = list(zip("ABCD", kinds(draw)))
    onward = fields + [("null", None)]
    sized = draw.choice([name for name, kind in fields if kind == "Opaque"] + [None])
    texts = [f"null{links(draw, [], onward, sized)};"] if draw.random() < 0.15 else []
    texts += [field(draw, fields[:place], fields[place], onward[place + 1 :], sized) for place in range(len(fields))]
    order = " with Byte_Order => Low_Order_First" if draw.random() < 0.1 else ""
    return f"   type {name} is message\n      " + "\n      ".join(texts) + f"\n   end message{order};\n"


def table(seed=SEED):
    draw = random.Random(seed)
    return TYPES + "".join(message(draw, f"M{number}") for number in range(1, COUNT + 1)) + "end Table;\n"


# ---- large messages


def package(name, parts):
    return f"package {name} is\n   type U8 is unsigned 8;\n   type M is message\n" + "".join(parts) + f"   end message;\nend {name};\n"


def fields():
    """128 bytes one behind the other."""
    return package("Fields", [f"      F{number} : U8;\n" for number in range(1, 129)])


def many_links():
    """512 links: one to the first of 16 fields, and from each to the next one, and for some numbers to null."""
    parts = []
    for number in range(1, 17):
        name, onward = f"F{number}", f"F{number + 1}" if number < 16 else "null"
        ends = 30 if number == 16 else 31
        ways = [f"then {onward} if {name} >= {ends}"] + [f"then null if {name} = {k}" for k in range(ends)]
        parts.append(f"      {name} : U8\n         " + "\n         ".join(ways) + ";\n")
    return package("Links", parts)


def ways(count, more=""):
    """So many fields that each lead to one of two more, which meet again: 2 ** count paths to null. The first has more links."""
    parts = []
    for k in range(1, count + 1):
        after = f"F{k + 1}" if k < count else "null"
        parts.append(f"      F{k} : U8 then L{k} if F{k} < 128 then R{k} if F{k} >= 128{more if k == 1 else ''};\n")
        parts.append(f"      L{k} : U8 then {after};\n      R{k} : U8 then {after};\n")
    return parts


KINDS = {
    "table": table,
    "fields": fields,
    "links": many_links,
    "paths": lambda: package("Paths", ways(12)),
    "too_many": lambda: package("Too_Many", ways(12, " then null if F1 = 200")),
}
if __name__ == "__main__":
    sys.stdout.write(KINDS[sys.argv[1]](*sys.argv[2:]))
