"""The tokens of a Rattle source, and edits of its text at tokens, for tools/erase."""

import re
from typing import NamedTuple

TOKEN = re.compile(
    r"""
    (?P<space>\s+)
  | (?P<comment>//[^\n]*|/\*.*?\*/)
  | (?P<string>b?r(?P<hashes>\#*)".*?"(?P=hashes)|b?"(?:\\.|[^"\\])*")
  | (?P<char>b?'(?:\\[^\n]+?|[^'\\\n])')
  | (?P<lifetime>'[A-Za-z_]\w*(?!'))
  | (?P<number>\d\w*)
  | (?P<word>[^\W\d]\w*)
  | (?P<sign>::|->|=>|\.\.=|\.\.|==|!=|<=|>=|&&|\|\||.)
    """,
    re.X | re.S,
)
OPEN = {"(": ")", "[": "]", "{": "}"}
CLOSE = set(OPEN.values())
# Stands for removed text until the lines are joined, so that lines without other text are removed.
REMOVED = "\0"


class Token(NamedTuple):
    """A token, with its place in the text."""

    kind: str
    text: str
    start: int
    end: int


class Source:
    """The tokens of a file, without white space and comments, and the edits of its text."""

    def __init__(self, text):
        self.text, self.edits = text, []
        found = (Token(it.lastgroup, it[0], *it.span()) for it in TOKEN.finditer(text))
        self.tokens = [it for it in found if it.kind not in ("space", "comment")]
        self.texts = [it.text for it in self.tokens]

    def at(self, index, *texts):
        """Returns whether the tokens from the index on have these texts. None is any text."""
        if not 0 <= index < len(self.texts) or texts[0] not in (self.texts[index], None):
            return False
        found = self.texts[index : index + len(texts)]
        return len(found) == len(texts) and all(
            text in (it, None) for it, text in zip(found, texts)
        )

    def line(self, index):
        """Returns the number of the line of a token."""
        return self.text.count("\n", 0, self.tokens[index].start) + 1

    def closing(self, index):
        """Returns the index of the bracket that closes the one at the index."""
        if not any(self.at(index, it) for it in OPEN):
            line = self.line(min(index, len(self.tokens) - 1))
            raise SyntaxError(f"line {line}: a bracket is missing")
        expected = []
        for at in range(index, len(self.tokens)):
            text = self.tokens[at].text
            if text in OPEN:
                expected.append(OPEN[text])
            elif text == expected[-1]:
                expected.pop()
                if not expected:
                    return at
        raise SyntaxError(f"line {self.line(index)}: the bracket is not closed")

    def before_attributes(self, index):
        """Returns the index of the first attribute of an item, or the index without any."""
        while self.at(index - 1, "]"):
            hashes = (it for it in range(index, -1, -1) if self.at(it, "#", "["))
            index = next(it for it in hashes if self.closing(it + 1) == index - 1)
        return index

    def end_of_item(self, index, ends):
        """Returns the index of the first of these tokens outside brackets, or that of the last token
        before a bracket that closes what contains the item."""
        while self.texts[index] not in ends:
            if self.texts[index] in OPEN:
                index = self.closing(index)
            if index + 1 == len(self.texts):
                raise SyntaxError(f"line {self.line(index)}: an item has no end")
            if self.texts[index + 1] in CLOSE:
                return index
            index += 1
        return index

    def replace(self, first, last, text):
        """Replaces the tokens from index `first` to index `last`."""
        self.edits.append((self.tokens[first].start, self.tokens[last].end, text))

    def cut(self, first, last, text=""):
        """Replaces what is between two tokens, comments too."""
        self.edits.append((self.tokens[first].end, self.tokens[last].start, text))

    def insert_before(self, index, text):
        """Inserts text before a token."""
        self.edits.append((self.tokens[index].start, self.tokens[index].start, text))

    def insert_after(self, index, text):
        """Inserts text after a token."""
        self.edits.append((self.tokens[index].end, self.tokens[index].end, text))

    def remove(self, first, last, with_comments=True):
        """Removes tokens, with the lines of comments directly above them, except `//!`."""
        start = self.tokens[first].start
        line = self.text.rfind("\n", 0, start) + 1
        if with_comments and not self.text[line:start].strip():
            start = self.start_of_comments(line, start)
        self.edits.append((start, self.tokens[last].end, REMOVED))

    def start_of_comments(self, line, start):
        """Returns where the lines of comments above a line start, or `start` without any."""
        while line:
            above = self.text.rfind("\n", 0, line - 1) + 1
            if not re.match(r" *//(?!!)", self.text[above:line]):
                break
            line = above
            start = line + len(re.match(" *", self.text[line:])[0])
        return start

    def kept(self):
        """Yields the indices of the tokens that no edit covers."""
        edits = sorted(self.edits)
        at = 0
        for index, token in enumerate(self.tokens):
            while at < len(edits) and edits[at][1] <= token.start:
                at += 1
            if at == len(edits) or token.end <= edits[at][0]:
                yield index

    def result(self):
        """Returns the text with the edits. An edit in removed text has no effect."""
        parts, at = [], 0
        for start, end, text in sorted(self.edits, key=lambda it: (it[0], -it[1])):
            if start >= at:
                parts += [self.text[at:start], text]
                at = end
            elif end > at:
                raise SyntaxError(f"two edits overlap at {self.text[start:end]!r}")
        return tidied("".join(parts) + self.text[at:])


def tidied(text):
    """Returns a text without the lines that only had removed text, without surplus blank lines
    around these, and with `{}` in place of brackets in which nothing is left."""
    lines, is_after_removed = [], False
    for line in text.split("\n"):
        if REMOVED in line:
            line = line.replace(REMOVED, "").rstrip()
            if not line:
                is_after_removed = True
                continue
        last = lines[-1] if lines else ""
        if is_after_removed and not line.strip() and (not last or last.endswith("{")):
            continue
        if is_after_removed and line.strip().startswith("}"):
            if not last:
                lines.pop()
            if lines[-1].endswith("{"):
                line = lines.pop() + line.strip()
        is_after_removed = False
        lines.append(line)
    return "\n".join(lines).strip("\n") + "\n"
