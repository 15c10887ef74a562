"""The manual page of kbroker and its completions for bash and zsh: templates of packaging/, with what `kbroker --help` says in them."""

import re
import subprocess
from typing import NamedTuple

from program import ROOT

TEMPLATES = ROOT / "packaging"
COMMANDS = re.compile(r"^  (\w+)  +(.*)$", re.M)
# A block of a help text: its heading, and its lines up to the next one that isn't indented.
BLOCK = re.compile(r"^(Arguments|Options):\n(.*?)(?=^\S|\Z)", re.M | re.S)
# An entry of a block, and what stands below it.
ENTRY = re.compile(r"^ {2,6}(\S.*)\n((?: {10}.*\n)+)", re.M)
OPTION = re.compile(r"(--[\w-]+)(?: <(.+)>)?$")
CODE = re.compile(r"`([^`]+)`")
# What a value is called that is the name of a file, and the one value that an option of its own takes.
FILE, DASH = "FILE", "-"


class Entry(NamedTuple):
    """An argument or an option: how it is written, and what it does."""

    head: str
    text: str


class Option(NamedTuple):
    """An option: its name, what its value is called, or None, and what it does."""

    name: str
    value: str | None
    text: str


class Help(NamedTuple):
    """What is said of a command: a line, what it does, how it is called, its arguments and options, and examples."""

    line: str
    about: str
    usage: str
    arguments: list
    entries: list
    examples: str

    def options(self):
        """The options, with the parts of their names."""
        found = [(OPTION.search(head), text) for head, text in self.entries]
        return [Option(it[1], it[2], text) for it, text in found if it]

    def options_of(self, is_wanted):
        """The names of the options whose values are called so."""
        return [it.name for it in self.options() if it.value and is_wanted(it.value)]

    def takes_a_file(self):
        """Whether the name of a file may stand behind the command."""
        return any(FILE in head for head, _ in self.arguments)


def filled(name, marks):
    """A template, with these texts in it."""
    text = (TEMPLATES / name).read_text(encoding="utf-8")
    for mark, it in marks.items():
        text = text.replace(f"@{mark}@", it)
    return text


# ---- what the program says


def said(program, *words):
    """What the program says for these words, wherever it says it."""
    ran = subprocess.run([program, *words], stdin=subprocess.DEVNULL, stdout=subprocess.PIPE, stderr=subprocess.STDOUT, encoding="utf-8")
    return ran.stdout


def entries_of(text):
    """The entries of a block."""
    return [Entry(head, " ".join(below.split())) for head, below in ENTRY.findall(text)]


def read_help(line, text):
    """A help text in its parts."""
    about, _, rest = text.partition("\nUsage: ")
    usage, _, rest = rest.partition("\n")
    rest, _, examples = rest.partition("\nExample:\n")
    blocks = {heading: entries_of(f"{block}\n") for heading, block in BLOCK.findall(rest)}
    return Help(line, about.strip(), usage, blocks.get("Arguments", []), blocks.get("Options", []), examples.strip("\n"))


def helps_of(program):
    """What is said of each command, by its name."""
    lines = dict(COMMANDS.findall(said(program, "--help").partition("\nCommands:\n")[2].partition("\n\n")[0]))
    return {name: read_help(line, said(program, name, "--help")) for name, line in sorted(lines.items()) if name != "help"}


# ---- the manual page


def roff(text):
    """A text as the manual's formatter takes it; what stands in backticks is bold."""
    text = text.replace("\\", "\\e").replace("-", "\\-")
    lines = [f"\\&{it}" if it.startswith((".", "'")) else it for it in text.split("\n")]
    return CODE.sub(r"\\fB\1\\fR", "\n".join(lines))


def paragraphs(text):
    """Paragraphs, of which those that are indented stay as they are."""
    made = []
    for part in re.split(r"\n\n+", text):
        lines = part.split("\n")
        if all(it.startswith("    ") for it in lines):
            made.append("\n".join([".PP", ".nf", ".RS 4", *(roff(it[4:]) for it in lines), ".RE", ".fi"]))
        else:
            made.append(f".PP\n{roff(part)}")
    return "\n".join(made)


def tagged(entries):
    """Entries, each below how it is written."""
    return [f".TP\n.B {roff(head)}\n{roff(text)}" for head, text in entries]


def section_of(name, told):
    """The part of the manual page that is of a command."""
    about = [f".SS {roff(name)}", paragraphs(told.about), *tagged(told.arguments + told.entries)]
    return "\n".join([*about, ".PP\nExample:", paragraphs(told.examples)])


def manual(helps, version, date):
    """The manual page, of a version that was made on a day."""
    usages = "\n.br\n".join(f".B {roff(it.usage)}" for it in helps.values())
    sections = "\n".join(section_of(name, it) for name, it in helps.items())
    return filled("kbroker.1", {"VERSION": version, "DATE": date, "USAGES": usages, "COMMANDS": sections})


# ---- completions


def bash_case(name, told):
    """What may stand behind a command, in bash: its options, or where it takes a file those alone that are begun."""
    begun = "[[ $word != -* ]] || " if told.takes_a_file() else ""
    return f'        {name}) {begun}words="{" ".join(it.name for it in told.options())}" ;;'


def bash(helps):
    """The completions for bash."""
    dashes = [name for it in helps.values() for name in it.options_of(lambda value: value == DASH)]
    others = [name for it in helps.values() for name in it.options_of(lambda value: value not in (FILE, DASH))]
    files = [name for it in helps.values() for name in it.options_of(lambda value: value == FILE)]
    marks = {name: " | ".join(sorted({*those})) for name, those in (("DASHES", dashes), ("OTHERS", others), ("FILES", files))}
    cases = "\n".join(bash_case(name, it) for name, it in helps.items())
    return filled("completions.bash", {**marks, "COMMANDS": " ".join(helps), "CASES": cases})


def quoted(text):
    """A text inside the quotes and brackets of zsh's completions."""
    return re.sub(r"([\[\]:\\])", r"\\\1", text).replace("'", r"'\''")


def zsh_words(told):
    """What may stand behind a command, as zsh's `_arguments` takes it."""
    ends = {None: "", FILE: ":FILE:_files", DASH: f":value:({DASH})"}
    words = [f"'{it.name}[{quoted(it.text)}]{ends.get(it.value, f':{it.value}: ')}'" for it in told.options()]
    return words + ["':FILE:_files'"] * told.takes_a_file()


def zsh_case(name, told):
    """The same as a case of its own."""
    return " \\\n            ".join([f"        {name})\n            _arguments", *zsh_words(told)]) + "\n            ;;"


def zsh(helps):
    """The completions for zsh."""
    commands = "\n".join(f"        '{name}:{quoted(it.line)}'" for name, it in helps.items())
    cases = "\n".join(zsh_case(name, it) for name, it in helps.items())
    return filled("completions.zsh", {"COMMANDS": commands, "CASES": cases})
