"""The prose of a page: its sentences with their lines, without commands, code and tables. Of a source file it is the comments.

A sentence ends at a full stop, a colon or a semicolon. What stands between backticks, or is a literal of mdoc, is the name of
something in code. It counts as words of its sentence, but its words are not the page's own. Nor is a path such as `link.behind`.
"""

import io
import re
import tokenize
from dataclasses import dataclass

# macros of mdoc that end a sentence, and those whose arguments name something in code
ENDS = {"Sh", "Ss", "Pp", "It", "Bl", "El", "Bd", "Ed", "Dd", "Dt", "Os", "Nd", "Dl", "D1"}
NAMES = {"Cm", "Li", "Ql", "Fl", "Ar", "Ic", "Pa", "Ev", "Dv", "Nm", "Xr", "Sx", "Op", "Pq"}
INLINE = NAMES | {"Ns", "No", "Em", "Sy", "Oo", "Oc", "Pf"}
END = re.compile(r"[.!?:;](?=[)\"'*]*(\s|$))")
NAMED = re.compile(r"`[^`]*`|\b\w+(?:(?:\.|::)\w+)+")
# what begins a comment in code, in definitions and proofs, and in a must-fail edit; in all other files it is #
MARKS = {"rt": "//[/!]?", "antt": "--", "lua": "--", "edit": "# wrong:"}
SET_IN = " " * 4
LITERAL = re.compile(r'"(?:[^"\\]|\\.)*"')
# the tokens of Python after which a string stands alone
STARTS = {None, tokenize.NEWLINE, tokenize.INDENT}
ABBREVIATED = re.compile(r"\b(e\.g|i\.e|vs|St)\.(?=\s)")


@dataclass
class Piece:
    """Text that goes on over its lines: the line that it begins in, its text, and whether it is a row of a table."""

    line: int
    text: str
    is_row: bool = False


@dataclass
class Sentence:
    """A sentence: its place, all of it, what of it is not the name of something in code, and whether a table has it."""

    page: str
    line: int
    text: str
    own: str
    is_row: bool

    def words(self) -> int:
        return len(self.text.split())


def markdown_pieces(lines: list[str]) -> list[Piece]:
    """Paragraphs, headings, items of lists and rows of tables. Blocks of code and comments are left out."""
    found, is_open, fence, comment = [], False, False, False
    for at, line in enumerate(lines, 1):
        fence = fence != line.startswith("```")
        comment = comment or line.startswith("<!--")
        is_code = fence or comment or line.startswith("```") or (re.match(r" {4,}\S", line) and not is_open)
        comment = comment and "-->" not in line
        begins = re.match(r"\s*([-*]|\d+\.|#+)\s+", line)
        if is_code or not line.strip():
            is_open = False
        elif line.lstrip().startswith("|"):
            found += [Piece(at, cell, True) for cell in line.split("|")]
            is_open = False
        elif begins or not is_open:
            found.append(Piece(at, line[begins.end():] if begins else line))
            is_open = not line.startswith("#")
        else:
            found[-1].text += "\n" + line
    return found


def plain_macros(line: str) -> str:
    """A line of mdoc without its macros; what they name in code stands between backticks."""
    if not line.startswith("."):
        return line
    text, is_name = [], False
    for word in line[1:].split():
        if word in INLINE:
            is_name = word in NAMES
        else:
            text.append("`%s`" % word if is_name and re.search(r"\w", word) else word)
    return " ".join(text)


def mdoc_pieces(lines: list[str]) -> list[Piece]:
    """Paragraphs and items of lists. The synopsis, displays and comments are left out."""
    found, is_open, is_shown, section = [], False, True, ""
    for at, line in enumerate(lines, 1):
        macro = line[1:3].strip() if line.startswith(".") else ""
        section = line if macro == "Sh" else section
        is_shown = macro == "Ed" or (is_shown and not line.startswith(".Bd -literal"))
        if line.startswith('.\\"') or not is_shown or section == ".Sh SYNOPSIS":
            continue
        if macro in ENDS:
            is_open = False
        elif is_open:
            found[-1].text += "\n" + plain_macros(line)
        else:
            found.append(Piece(at, plain_macros(line)))
            is_open = True
    return found


def comment_lines(name: str, text: str) -> list[tuple[int, str, str]]:
    """The comments of a source file, line by line: the line, the mark that begins the comment, and what follows it. A comment
    after code has no mark."""
    mark = MARKS.get(name.rpartition(".")[2], "#")
    if mark == "#" and text.startswith(("#!/usr/bin/env python3", '"""')):
        return python_lines(text)
    alone, after_code = re.compile(r"\s*(%s)(?:\s(.*))?$" % mark), re.compile(r"\s(%s)\s(.*)$" % mark)
    found = [(at, alone.match(line) or after_code.search(LITERAL.sub(blank, line))) for at, line in enumerate(text.split("\n"), 1)]
    return [(at, it[1] if it.re is alone else "", prose_of(it[2] or "")) for at, it in found if it]


def python_lines(text: str) -> list[tuple[int, str, str]]:
    """The comments and the doc strings of a script in Python."""
    found, before = [], None
    for token in tokenize.generate_tokens(io.StringIO(text).readline):
        if token.type == tokenize.COMMENT and not token.string.startswith("#!"):
            found.append((token.start[0], "#" if token.line.lstrip().startswith("#") else "", prose_of(token.string[2:])))
        elif token.type == tokenize.STRING and before in STARTS and token.string.startswith('"""'):
            code = " " * token.start[1] + SET_IN
            found += [(token.start[0] + at, '"', "" if line.startswith(code) else line.strip())
                      for at, line in enumerate(token.string.strip('"').split("\n"))]
        before = before if token.type in (tokenize.COMMENT, tokenize.NL) else token.type
    return found


def prose_of(words: str) -> str:
    """What a line of a comment says. One that is set in is code, and says nothing."""
    return "" if words.startswith(SET_IN) else words.strip()


def blank(it: re.Match) -> str:
    return " " * len(it[0])


def comment_pieces(name: str, text: str) -> list[Piece]:
    """The comments of a source file. One of them goes on over lines that begin with the same mark."""
    found, last, last_mark = [], 0, ""
    for at, mark, words in comment_lines(name, text):
        if found and at == last + 1 and mark and mark == last_mark and words:
            found[-1].text += "\n" + words
        elif words:
            found.append(Piece(at, words))
        last, last_mark = at if words else 0, mark
    return found


def is_page(name: str) -> bool:
    """Whether a file is a page in markdown or a manual page in mdoc, and no source."""
    return name.endswith((".md", ".1", ".5", ".7", ".8"))


def sentences(page: str, text: str) -> list[Sentence]:
    """The sentences of a page or of a source file, in order."""
    lines = text.split("\n")
    pieces = comment_pieces(page, text) if not is_page(page) else markdown_pieces(lines) if page.endswith(".md") else mdoc_pieces(lines)
    return [one for piece in pieces for one in split(page, piece)]


def split(page: str, piece: Piece) -> list[Sentence]:
    """The sentences of a piece. No sentence ends inside of a name."""
    own = NAMED.sub(lambda it: re.sub(r"\S", "`", it[0]), ABBREVIATED.sub(r"\1 ", piece.text))
    found, start = [], 0
    for end in [it.end() for it in END.finditer(own)] + [len(own)]:
        if own[start:end].strip():
            before = piece.text[:end][:start + len(own[start:end]) - len(own[start:end].lstrip())]
            found.append(Sentence(page, piece.line + before.count("\n"), " ".join(piece.text[start:end].split()),
                                  " ".join(own[start:end].split()), piece.is_row))
        start = end
    return found
