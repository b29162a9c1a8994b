"""Examples in pages: inputs of the program, with what it prints for them.

A line `<!-- check: WORDS -->` stands before a fenced block that has the input of `ido WORDS`; the next block, fenced as text, has the
whole output. In an input `` `129:TEXT` `` stands for 129 times the text, in which `#` is the number of the round, from 0, and `@` the next
number. Where the first word ends with `-hex` the block spells bytes: `0a` is a byte, `317*00` so many of them, `"IDO-IMG"` a text's.
"""

import collections
import re

# The line of its mark, the words, and the bytes of input and output.
Example = collections.namedtuple("Example", "line words input output")

MARK = re.compile(r"<!-- check: (.+) -->\s*\Z")
FENCE = re.compile(r"(```+)(\S*)\s*\Z")
ROUNDS = re.compile(rb"`([0-9]+):([^`]*)`")
SPELLED = re.compile(r'"([^"\n]*)"|(?:([0-9]+)\*)?([0-9a-f]{2})|(\S+)')


class BadExample(Exception):
    """An example that isn't written as one; the text says where."""


def expanded(text):
    """A text with its rounds written out."""

    def rounds(match):
        count, piece = int(match[1]), match[2]
        return b"".join(piece.replace(b"#", str(it).encode()).replace(b"@", str(it + 1).encode()) for it in range(count))

    return ROUNDS.sub(rounds, text)


def bytes_spelled(text):
    """The bytes that a block of hexadecimal digits and texts spells."""
    found = bytearray()
    for quoted, count, digits, other in SPELLED.findall(text):
        if other:
            raise ValueError(f"{other} is no byte")
        found += bytes.fromhex(digits) * int(count or 1) if digits else quoted.encode()
    return bytes(found)


def block_from(lines, at):
    """The text of the fenced block that begins at a line, its kind, and the line after it; None where there is none."""
    while at < len(lines) and not lines[at].strip():
        at += 1
    fence = FENCE.match(lines[at]) if at < len(lines) else None
    if not fence:
        return None
    end = at + 1
    while end < len(lines) and lines[end].rstrip() != fence[1]:
        end += 1
    return "".join(it + "\n" for it in lines[at + 1 : end]), fence[2], end + 1


def examples_of(page):
    """The examples of a page's text."""
    lines, found = page.split("\n"), []
    for at, line in enumerate(lines):
        mark = MARK.match(line)
        if not mark:
            continue
        content = block_from(lines, at + 1)
        answer = content and block_from(lines, content[2])
        if not answer or answer[1] != "text":
            raise BadExample(f"line {at + 1}: an input and an output have to follow, each in a fenced block, the output's with `text`")
        words = mark[1].split()
        try:
            given = bytes_spelled(content[0]) if words[0].endswith("-hex") else expanded(content[0].encode())
        except ValueError as error:
            raise BadExample(f"line {at + 1}: {error}") from error
        words[0] = words[0][:-4] if words[0].endswith("-hex") else words[0]
        found.append(Example(at + 1, words, given, answer[0].encode()))
    return found
