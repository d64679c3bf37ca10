"""Reads the text of a package with scalar types and messages, as docs/LANGUAGE.md and docs/GRAMMAR.md describe them.

`read` gives the package's name and its messages. Only texts that rflx accepts are read: names are taken as they are
written, and a name of another package is refused. An expression is a tuple: ("number", 3), ("name", "A"),
("First", "A"), ("-", operand), ("not", operand), or an operator with its two operands.
"""
import collections
import re

# the numbers of a scalar type in their order, its size in bits, and the numbers of its literals by name
Scalar = collections.namedtuple("Scalar", "numbers size literals")
# `scalar` is None for bytes, `over` the name of the field that it lies over, or None
Field = collections.namedtuple("Field", "name scalar over")
# from the start (`source` "-") or a field to a field or null (`target` None); `number` counts the links of the source from 1
Link = collections.namedtuple("Link", "source number target conditions first size")
# fields by name, the links of each node in their order, and the numbers of all literals of the package
Message = collections.namedtuple("Message", "name fields links literals")

TOKEN = re.compile(r"[0-9]+#[0-9A-Fa-f_]+#|[0-9][0-9_]*|[A-Za-z][A-Za-z0-9_]*|::|=>|/=|<=|>=|\*\*|\.\.|[^\s]")
LEVELS = [["or"], ["and"], ["=", "/=", "<", "<=", ">", ">="], ["+", "-"], ["*", "/", "mod"], ["**"]]
BOOLEAN = Scalar([0, 1], 1, {"False": 0, "True": 1})


class Tokens:
    def __init__(self, text):
        self.tokens = TOKEN.findall(re.sub(r"--[^\n]*", "", text)) + [""]
        self.place = 0

    def sees(self, *words):
        return self.tokens[self.place] in words

    def takes(self, *words):
        """Takes the next token if it is one of the words."""
        return self.next() if self.sees(*words) else None

    def next(self):
        self.place += 1
        return self.tokens[self.place - 1]

    def need(self, *words):
        for word in words:
            if not self.takes(word):
                raise SyntaxError(f"{word} is missing at {self.tokens[self.place]}")

    # ---- expressions

    def expression(self, level=0):
        if level == len(LEVELS):
            return self.factor()
        if level == 3 and self.takes("-"):
            left = ("-", self.expression(level + 1))
        else:
            left = self.expression(level + 1)
        while self.sees(*LEVELS[level]):
            left = (self.next(), left, self.expression(level + 1))
        return left

    def factor(self):
        if self.takes("not"):
            return ("not", self.factor())
        if self.takes("("):
            inner = self.expression()
            self.need(")")
            return inner
        word = self.next()
        if word[0].isdigit():
            base, digits = word.rstrip("#").split("#") if "#" in word else (10, word)
            return ("number", int(digits.replace("_", ""), int(base)))
        return (self.next(), word) if self.takes("'") else ("name", word)

    def static(self):
        return value_of(self.expression(), None)

    # ---- types

    def size(self):
        self.need("with", "Size", "=>")
        return self.static()

    def integer(self):
        if self.takes("unsigned"):
            size = self.static()
            return Scalar(range(2**size), size, {})
        self.need("range")
        first = self.static()
        self.need("..")
        last = self.static()
        return Scalar(range(first, last + 1), self.size(), {})

    def enumeration(self):
        self.need("(")
        literals = {}
        while not self.takes(")"):
            name = self.next()
            literals[name] = self.static() if self.takes("=>") else len(literals)
            self.takes(",")
        size = self.size()
        if self.takes(","):
            self.need("Always_Valid")
            return Scalar(range(2**size), size, literals)
        return Scalar(sorted(literals.values()), size, literals)

    # ---- messages

    def aspects(self, known):
        """First and Size, behind `with`; those of the field stand beside those of a link."""
        found = dict(known)
        more = self.takes("with")
        while more:
            name = self.next()
            self.need("=>")
            found[name] = self.expression()
            more = self.sees(",") and self.tokens[self.place + 1] in ("First", "Size") and self.next()
        return found

    def condition(self):
        return [self.expression()] if self.takes("if") else []

    def thens(self):
        """The targets of the links that are written, with their aspects and conditions."""
        links = []
        while self.takes(",") or self.takes("then"):
            if self.tokens[self.place - 1] == "then":
                target = None if self.takes("null") else self.next()
                links.append((target, self.aspects({}), self.condition()))
        return links

    def message(self, name, scalars, literals):
        self.need("message")
        starts = self.thens() if self.takes("null") else []
        if starts:
            self.need(";")
        fields = []
        while not self.takes("end"):
            field = self.next()
            self.need(":")
            scalar = scalars[self.next()]
            aspects, condition, links = self.aspects({}), self.condition(), self.thens()
            fields.append((field, scalar, aspects, condition, links))
            self.need(";")
        self.need("message")
        if self.takes("with"):
            self.need("Byte_Order", "=>")
            self.next()
        return message_of(name, fields, starts, literals)


def message_of(name, fields, starts, literals):
    """Links that are not written lead to the next field in the text; a field's aspects hold of each link to it."""
    held = {field: aspects for field, scalar, aspects, condition, links in fields}
    following = [field for field, *rest in fields[1:]] + [None]
    nodes = [("-", [], starts or [(fields[0][0], {}, [])])]
    for (field, scalar, aspects, condition, links), after in zip(fields, following):
        nodes.append((field, condition, links or [(after, {}, [])]))
    made = {}
    for source, condition, links in nodes:
        made[source] = []
        for number, (target, aspects, own) in enumerate(links, 1):
            both = {**held.get(target, {}), **aspects}
            made[source].append(Link(source, number, target, condition + own, both.get("First"), both.get("Size")))
    overs = {link.target: link.first[1] for links in made.values() for link in links if link.first and link.first[0] == "First"}
    return Message(name, {f: Field(f, scalar, overs.get(f)) for f, scalar, *rest in fields}, made, literals)


def read(text):
    tokens = Tokens(text)
    tokens.need("package")
    package, scalars, literals, messages = tokens.next(), {"Boolean": BOOLEAN, "Opaque": None}, dict(BOOLEAN.literals), []
    tokens.need("is")
    while tokens.takes("type"):
        name = tokens.next()
        tokens.need("is")
        if tokens.sees("message"):
            messages.append(tokens.message(name, scalars, literals))
        else:
            scalars[name] = tokens.enumeration() if tokens.sees("(") else tokens.integer()
            literals.update(scalars[name].literals)
        tokens.need(";")
    tokens.need("end", package, ";")
    return package, messages


# ---- the value of an expression

OPERATORS = {
    "+": lambda a, b: a + b,
    "-": lambda a, b: a - b,
    "*": lambda a, b: a * b,
    "/": lambda a, b: a // b,
    "mod": lambda a, b: a % b,
    "**": lambda a, b: a**b,
    "=": lambda a, b: int(a == b),
    "/=": lambda a, b: int(a != b),
    "<": lambda a, b: int(a < b),
    "<=": lambda a, b: int(a <= b),
    ">": lambda a, b: int(a > b),
    ">=": lambda a, b: int(a >= b),
    "and": lambda a, b: int(a == 1 and b == 1),
    "or": lambda a, b: int(a == 1 or b == 1),
}


def value_of(tree, names):
    """The value; `names` gives that of a name and of an attribute, and may be None where there is none of them."""
    word, *operands = tree
    if word == "number":
        return operands[0]
    if len(operands) == 2:
        return OPERATORS[word](value_of(operands[0], names), value_of(operands[1], names))
    if word == "-":
        return -value_of(operands[0], names)
    if word == "not":
        return int(value_of(operands[0], names) != 1)
    return names(word, operands[0])
