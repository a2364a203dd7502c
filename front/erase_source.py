"""The pieces of a source: tokens, what is between brackets, and texts of tokens. front/erase and front/publish read sources by it."""
import re
import sys

from erase_tables import REFUSED

MARKS = sorted("<<= >>= ..= ... :: -> => == != <= >= && || += -= *= /= %= ^= &= |= << >> ..".split(), key=len)[::-1]
SINGLE, ALWAYS_MARKS = "+-*/%^!&|=<>.,;:#?()[]{}", set("+-*%^!&|=<.,;:#?()[]{}")
MARK = re.compile("|".join([*map(re.escape, MARKS), "(?s:.)"]))
NAME = re.compile(r"[A-Za-z_][A-Za-z0-9_]*")
NUMBER = re.compile(r"[0-9][0-9_]*(?![A-Za-z0-9_]|\.[0-9])")
LIFETIME = re.compile(r"'[a-z_]+(?!')")
# What most tokens are: space, or a word that begins no text.
COMMON = re.compile(r"([ \n]+)|(?!extern\b|ghost\b|requires\b|ensures\b)[A-Za-z_][A-Za-z0-9_]*(?![A-Za-z0-9_\"'])")
# A text, or the byte of a character, in which nothing stands for something else. No letter before it says what kind it is.
TEXT = re.compile(r'(?<![A-Za-z0-9_])"[A-Za-z0-9 ]*"|b\'[A-Za-z0-9]\'')
# Texts, bytes and characters with all that Rust has in them on one line.
ALL_TEXTS = re.compile(r'(?<![A-Za-z0-9_])b?"(?:[^"\\\n]|\\[nrt0"\'\\])*"'
                       r"|(?<![A-Za-z0-9_])b?'(?:[^'\\\n]|\\(?:[nrt0\"'\\]|u\{[0-9a-f]{1,6}\}))'")
CODE = {"name", "lifetime", "number", "text", "mark"}
CLOSING = {"(": ")", "[": "]", "{": "}"}


class Token:
    """A piece of a source: `kind` is space, doc, note, name, lifetime, number, text, mark, clause, member or lost; `at` its place."""

    __slots__ = ("kind", "text", "at")

    def __init__(self, kind, text, at):
        self.kind, self.text, self.at = kind, text, at

    def is_code(self):
        return self.kind in CODE

    def is_mark(self, text):
        return self.kind == "mark" and self.text == text

    def refuse(self, what):
        sys.exit(f"erase: {self.at}: {what}")


class Source:
    """A source that is read from its start on."""

    def __init__(self, file, text, words=frozenset()):
        self.file, self.text, self.at, self.refused = file, text, 0, REFUSED - words
        self.texts, self.marks = (ALL_TEXTS if '"' in words else TEXT), SINGLE + "$" * ("$" in words)

    def refuse(self, what):
        line = 1 + self.text.count("\n", 0, self.at)
        Token("", "", f"{self.file}:{line}").refuse(what)

    def take(self, pattern):
        found = re.compile(pattern).match(self.text, self.at)
        if found:
            self.at = found.end()
        return found and found[0]

    def tokens(self):
        made, line = [], 1
        while self.at < len(self.text):
            begun = self.at
            kind = self.token()
            made.append(Token(kind, self.text[begun : self.at], f"{self.file}:{line}"))
            line += made[-1].text.count("\n")
        return made

    def token(self):
        """Reads one token, and answers its kind."""
        if found := COMMON.match(self.text, self.at):
            self.at = found.end()
            return "space" if found[1] else "name"
        return self.mark() if self.text[self.at] in ALWAYS_MARKS else self.rarer_token()

    def rarer_token(self):
        comment = self.take(r"//[^\n]*")
        if comment:
            return "doc" if comment.startswith(("///", "//!")) else "note"
        if self.take(r'extern "C" (?=fn bits_)'):
            return "lost"
        if self.take(self.texts):
            return "text"
        word = self.take(NAME)
        if word:
            return self.ghost(word) if word in ("ghost", "requires", "ensures") else "name"
        if self.take(LIFETIME):
            return "lifetime"
        if self.take(NUMBER):
            return "number"
        if self.text[self.at - 1] != " " and self.take(r">(?=>[ (>{,;)\n])"):
            return "mark"  # (the first of two that close parameters)
        return self.mark()

    def mark(self):
        mark = MARK.match(self.text, self.at)[0]
        if mark in self.refused or mark not in MARKS and mark not in self.marks or self.text.startswith("/*", self.at):
            self.refuse(f"{mark!r} is no token that is known")
        self.at += len(mark)
        return "mark"

    def ghost(self, word):
        """Reads what follows `ghost`, `requires` or `ensures`, up to its end."""
        if word != "ghost":
            self.take(r"\*")
            self.take(r"\s+[a-z_]+(?=\s*\{)")
            self.term()
            return "clause"
        if self.take(r"\s+use\s"):
            if not self.take(r"(?:(?!//)[^;\"'{}])*(?:\{(?:(?!//)[^;\"'{}])*\})?;"):
                self.refuse("a `ghost use` has no end")
            return "member"
        if not self.take(r"\s+[A-Za-z_]+"):
            self.refuse("a ghost member has no name")
        typed = self.take(r"\s*:(?!:)")
        if typed:
            self.term()
        if self.take(r"\s*="):
            self.term()
        elif not typed:
            self.refuse("a ghost member has no term")
        if not self.take(r"[;,]"):
            self.refuse("a ghost member has no end")
        return "member"

    def term(self):
        """Reads a term in braces. It may have no comment, and no quote but round a mark, so its braces alone tell where it ends."""
        if not self.take(r"\s*\{"):
            self.refuse("a term in braces has to stand here")
        depth = 1
        while depth:
            self.take(r"""[^{}"'/-]*(?:"[:]")?""")
            char = self.text[self.at : self.at + 1]
            if char in ("", '"', "'") or self.text.startswith(("--", "//", "/*", "{-"), self.at):
                self.refuse(f"{char!r} in a term")
            depth += {"{": 1, "}": -1}.get(char, 0)
            self.at += 1


def end_of(tokens, at):
    """The place behind the bracket that closes the one at `at`."""
    stack = []
    for place in range(at, len(tokens)):
        text = tokens[place].text if tokens[place].kind == "mark" else ""
        if text in CLOSING:
            stack.append(CLOSING[text])
        elif text in CLOSING.values():
            if not stack or stack.pop() != text:
                tokens[place].refuse(f"{text} closes nothing")
            if not stack:
                return place + 1
    tokens[at].refuse("a bracket is not closed")


def words_of(tokens):
    return [token.text for token in tokens if token.kind in CODE]


def code(tokens):
    """The code of tokens, with one space between them."""
    return " ".join(words_of(tokens))


def text_of(tokens):
    return "".join(token.text for token in tokens)


def drop_space(made):
    while made and made[-1].kind == "space":
        made.pop()
