#!/usr/bin/env python3
"""Writes a package text of about so many bytes: texts.py KIND BYTES.

KIND is `messages` (ordinary declarations), `dense` (four bytes a token, up to the limit of 262,144 tokens) or `chains`
(unsigned types alone). `decode` of the first two is refused after the whole text was lexed and parsed.
"""
import sys

MESSAGE = """   type Kind{n} is (Off => 1, On => 3) with Size => 8;
   type Packet{n} is
      message
         Tag : Kind{n}
            then Length if Tag = On
            then null if Tag = Off;
         Length : Word;
         Value : Opaque with Size => Length * 8;
      end message;
"""


def messages(size):
    parts = ["package Q is\n   type Word is unsigned 16;\n"]
    length = len(parts[0])
    while length < size - 400:
        part = MESSAGE.format(n=len(parts))
        parts.append(part)
        length += len(part)
    return "".join(parts) + "end Q;\n"


def spelled(tokens):
    return "".join(f"{token:<3}\n" for token in tokens)


def dense(size):
    """Sizes with 200 operators each and 20 brackets round them; a token and its white space mostly have four bytes."""
    sentence = spelled(["is", "unsigned"] + ["("] * 20 + ["1"] + ["+", "2"] * 200 + [")"] * 20 + [";"])
    parts = [spelled(["package", "Q", "is"])]
    length = len(parts[0])
    while length < size - 2000:
        part = spelled(["type", f"T{len(parts)}"]) + sentence
        parts.append(part)
        length += len(part)
    return "".join(parts) + "end Q ;\n"


def chains(size):
    parts = ["package Q is\n"]
    length = len(parts[0])
    while length < size - 40:
        part = f"   type T{len(parts)} is unsigned 8;\n"
        parts.append(part)
        length += len(part)
    return "".join(parts) + "end Q;\n"


KINDS = {"messages": messages, "dense": dense, "chains": chains}
sys.stdout.write(KINDS[sys.argv[1]](int(sys.argv[2])))
