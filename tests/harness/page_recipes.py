"""The recipes of a page: its blocks of commands, what the page says they print, and what a comment in its source says of them.

In markdown a block is set in by four blanks, or stands between fences. In mdoc it is a literal display, or lines of `.Dl`. A line
that begins with `$ ` is a command, and the lines after it are what it prints. Where no line of markdown does, the whole block is
commands, and comments that begin with `# prints` say what the commands before them print. `cat FILE` shows a file that the recipe
needs. A block whose lines all state devices is a configuration, which has to be read without a fault; no server is started with
it.

A comment directly before a block, `<!-- .. -->` in markdown and `.\\" ..` in mdoc, says more:

    not run: REASON                 it cannot run everywhere
    not commands                    it is something else
    begins the blocks below         it is run before each block that follows in its section
    ends the blocks above           it is run after each block of its section
    goes on                         it is run after the block before it, in the same shell
    file NAME                       it is what stands in a file
"""

import re
from dataclasses import dataclass, field

MARKED = {
    "markdown": re.compile(r"<!-- (.*) -->"),
    "mdoc": re.compile(r'\.\\" (.*)'),
}
# what stands for a character in mdoc
ESCAPED = {"e": "\\", "-": "-", "&": "", "~": " ", "(aq": "'", "(dq": '"', "(ha": "^", "(ti": "~"}
PRINTS = "# prints "
# a configuration is read before the server listens, which it cannot at an address that no machine has
READS = "afd serve 192.0.2.1:1701 1 < page.conf"
# a command that goes on in the next line
GOES_ON = ("\\", "|")


@dataclass
class Step:
    """A piece of text for the shell, and the lines that it prints, or None if the page does not say. Or a file that is made."""

    text: str
    prints: list | None = None
    file: str | None = None


@dataclass
class Recipe:
    """What is run in one shell: the steps of a block, after those that begin its section and before those that end it."""

    page: str
    line: int
    steps: list
    is_prompted: bool
    reason: str | None = None
    before: list = field(default_factory=list)
    after: list = field(default_factory=list)

    def place(self):
        return "%s, line %d" % (self.page, self.line)

    def all_steps(self):
        return [*self.before, *self.steps, *self.after]


@dataclass
class Block:
    """A block as it stands in the page: its first line, its section, the comment before it, and its lines."""

    line: int
    section: str
    note: str
    lines: list


def markdown_blocks(lines):
    section, note, at = "", "", 0
    while at < len(lines):
        line, first = lines[at], at
        marked = MARKED["markdown"].fullmatch(line)
        if line.startswith("#"):
            section = line
        if line.startswith("```"):
            at = lines.index("```", at + 1)
            yield Block(first + 2, section, note, lines[first + 1:at])
            note = ""
        elif line.startswith("    ") and (not lines[at - 1].strip() or MARKED["markdown"].fullmatch(lines[at - 1])):
            while at + 1 < len(lines) and (lines[at + 1].startswith("    ") or is_inside(lines, at + 1)):
                at += 1
            yield Block(first + 1, section, note, [each[4:] for each in lines[first:at + 1]])
            note = ""
        elif marked:
            note = marked[1]
        elif line.strip():
            note = ""
        at += 1


def is_inside(lines, at):
    """Whether an empty line stands inside of a block."""
    return not lines[at].strip() and at + 1 < len(lines) and lines[at + 1].startswith("    ")


def mdoc_blocks(lines):
    section, note, at = "", "", 0
    while at < len(lines):
        line, first = lines[at], at
        marked = MARKED["mdoc"].fullmatch(line)
        if line.startswith(".Sh "):
            section = line
        if line.startswith(".Bd -literal"):
            at = lines.index(".Ed", at)
            yield Block(first + 2, section, note, [unescaped(each) for each in lines[first + 1:at]])
            note = ""
        elif line.startswith(".Dl "):
            while at + 1 < len(lines) and lines[at + 1].startswith(".Dl "):
                at += 1
            yield Block(first + 1, section, note, [unescaped(each[4:]) for each in lines[first:at + 1]])
            note = ""
        elif marked:
            note = marked[1]
        elif line != ".Pp":
            note = ""
        at += 1


def unescaped(line):
    return re.sub(r"\\(\(..|.)", lambda it: ESCAPED[it[1]], line)


def is_prompted(block, is_mdoc):
    """Whether its commands are told from what they print: by `$ `, or in mdoc by `# ` if they are for root."""
    return any(line.startswith("$ ") for line in block.lines) or (is_mdoc and block.lines[0].startswith("# "))


def prompted_steps(lines):
    """Commands after a prompt, and what stands below each."""
    steps, at = [], 0
    while at < len(lines):
        command, at = lines[at][2:], at + 1
        while command.endswith(GOES_ON) and at < len(lines):
            command, at = command + "\n" + lines[at], at + 1
        below = []
        while at < len(lines) and not lines[at].startswith("$ "):
            below.append(lines[at])
            at += 1
        shown = re.fullmatch(r"cat ([\w.-]+)", command)
        if shown and below:
            steps.append(Step("".join(line + "\n" for line in below), file=shown[1]))
        else:
            steps.append(Step(command, joined(below)))
    return steps


def joined(lines):
    """What is printed in one line may be broken by a backslash, where the next line is not set in."""
    whole = re.sub(r"\\\n(?!\s)", "", "\n".join(lines))
    return whole.split("\n") if whole else []


def plain_steps(lines):
    """All lines are for the shell, but for comments that say what is printed."""
    steps, text = [], []
    for line in lines:
        if not line.startswith(PRINTS):
            text.append(line)
            continue
        if text:
            steps.append(Step("\n".join(text), []))
            text = []
        steps[-1].prints.append(line[len(PRINTS):])
    if text:
        steps.append(Step("\n".join(text)))
    return steps


def configuration(page, block):
    """The recipe that reads a configuration."""
    text = "".join(line + "\n" for line in block.lines)
    return Recipe(page, block.line, [Step(text, file="page.conf"), Step(READS, ["afd: listen failed"])], True)


def recipes(page, text):
    """The recipes of a page, of which some are not run."""
    is_mdoc = not page.endswith(".md")
    begins, ends, found = {}, {}, []
    for block in (mdoc_blocks if is_mdoc else markdown_blocks)(text.split("\n")):
        if block.note.startswith("file "):
            found[-1].steps.append(Step("\n".join(block.lines) + "\n", file=block.note[5:]))
            continue
        if all(line.startswith("device ") for line in block.lines):
            found.append(configuration(page, block))
            continue
        prompted = is_prompted(block, is_mdoc)
        if block.note == "not commands" or (is_mdoc and not prompted):
            continue
        steps = (prompted_steps if prompted else plain_steps)(block.lines)
        if block.note == "begins the blocks below":
            begins[block.section] = steps
        elif block.note == "ends the blocks above":
            ends.setdefault(block.section, []).extend(steps)
        elif block.note == "goes on":
            found[-1].steps += steps
        else:
            reason = block.note[9:] if block.note.startswith("not run: ") else None
            recipe = Recipe(page, block.line, steps, prompted, reason, begins.get(block.section, []))
            recipe.after = ends.setdefault(block.section, [])
            found.append(recipe)
    return found
