"""The tokens of a source of Rattle, so that it does not matter how its lines are broken. What is not understood is an error: `Unread`."""
import functools
import re

TOKEN = re.compile(r"""(?P<blank>\s+|//[^\n]*)|(?P<text>b?"(?:\\.|[^"\\])*"|b'(?:\\.|[^'\\])+')|(?P<word>'?\w+)|(?P<sign>::|->|\S)""")
# the words before the braces of a clause, in which antt stands, and what may come between: the name of the clause, or of what is ghost
CLAUSES = ("requires", "ensures", "ghost")
NAMED = re.compile(r"\s*(?:\w+\s*[:=]?\s*)?\{")


class Unread(Exception):
    """A source has something at a line that is not understood."""


@functools.cache
def tokens(text):
    """The tokens with their lines. A clause is one of them, its word and all that its braces hold; and what a `ghost use` brings in is none."""
    place, line, found = 0, 1, []
    while place < len(text):
        token = TOKEN.match(text, place)
        word, end = token[0], token.end()
        opened = NAMED.match(text, end) if word in CLAUSES else None
        if opened:
            depth, end = 1, opened.end()
            while depth and end < len(text):
                depth += {"{": 1, "}": -1}.get(text[end], 0)
                end += 1
            inner = text[opened.end():end - 1]
            if depth or re.search(r'--|//|\{-|"', inner):
                raise Unread(line, f"`{word}` with a comment or a text in its braces")
            found.append((line, (word, " ".join(inner.split()))))
        elif word == "ghost" and re.compile(r"\s+use\b").match(text, end):
            end = text.find(";", end) + 1
            if not end or "//" in text[place:end]:
                raise Unread(line, "a `ghost use` that does not end, or with a comment in it")
        elif not token["blank"]:
            if text[place:place + 2] == "/*" or word in ('"', "\\") or token["text"] and re.search(r"[\w#]$", text[max(place - 1, 0):place]):
                raise Unread(line, f"`{text[place:place + 2]}`")
            found.append((line, word))
        line += text.count("\n", place, end)
        place = end
    return tuple(found)


def clauses(text):
    """What stands in the braces of clauses, each with the line on which its clause begins."""
    return [(line, token[1]) for line, token in tokens(text) if isinstance(token, tuple)]


def said(text):
    """All that is required and ensured, and what is ghost; nothing, where the text is not understood."""
    try:
        return " ".join(token[1] for _, token in tokens(text) if isinstance(token, tuple))
    except Unread:
        return ""


def asked(text):
    """Its words."""
    return set(re.findall(r"\w+", said(text)))


def members(text):
    """Those that follow a point, as the members of a trait do after a type."""
    return set(re.findall(r"\.\s*(\w+)", said(text)))


def depths(tokens):
    """How many brackets each token stands in."""
    depth = 0
    for token in tokens:
        depth -= token in (")", "]", "}", ">")
        yield depth + (token in (")", "]", "}", ">"))
        depth += token in ("(", "[", "{", "<")
