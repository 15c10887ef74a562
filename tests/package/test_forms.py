"""Holds the decisions about forms that differ, in docs/DECISIONS.md, against the public signatures of the crates; and that each
number stands there once, in order.

plain_forms.txt has the plainest form of each public call. A call or a type whose form in the sources is another one has a
decision, 'Not this, but that', which names it; and such a decision names none whose form is the plain one.
"""

import re
import unittest
from pathlib import Path

from program import ROOT

PLAIN = Path(__file__).with_name("plain_forms.txt")
PAGE = "docs/DECISIONS.md"
OF_KAFKA = re.compile(r"^\| (\d+) \| (\d{4}-\d\d-\d\d) \|", re.M)  # a row of part A
DECISION = re.compile(r"^(\d+)\. (\d{4}-\d\d-\d\d), (stands|replaced by \d+): (.+)$", re.M)  # a line of part B
DIFFERS = re.compile(r"Not (.*?), but ")
ITEM = re.compile(r"^ *(?:pub )?fn (\w+)", re.M)
OWNER = re.compile(r"^(impl|pub trait)\b([^{]*)\{", re.M)
STRUCT = re.compile(r"^pub struct (\w+)(?:<[^{(]*>)? \{\n(.*?)^\}", re.M | re.S), re.compile(r"^    pub (\w+): (.*),$", re.M)
VARIANT = re.compile(r"^    ([A-Z]\w*) \{\n(.*?)^    \}", re.M | re.S), re.compile(r"^        (\w+): (.*),$", re.M)
# An allocation failure stands beside each error of what allocates: these add it to the error alone.
NAMES = {"Text": "String", "Items": "Vec", "Shared": "Arc", "ReadFault": "Malformed", "FetchFault": "OutOfRange"}
NAMES["LoginFault"] = "Closed"
NOT_ASKED = "alloc: Global", "rt: &T"


def end_of(text, start, closing):
    """The place after what closes the bracket at `start`."""
    depth = 0
    for place in range(start, len(text)):
        depth += (text[place] == text[start]) - (text[place] == closing and text[place - 1] != "-")
        if not depth:
            return place + 1
    raise ValueError(text[start : start + 80])


def parted(text):
    """The parts of a list, at the commas that stand in no brackets."""
    parts, depth, last = [], 0, 0
    for place, letter in enumerate(text):
        depth += (letter in "(<[{") - (letter in ")]}" or letter == ">" and text[place - 1] != "-")
        if letter == "," and not depth:
            parts.append(text[last:place])
            last = place + 1
    return [it.strip() for it in [*parts, text[last:]] if it.strip()]


def plain_type(text):
    """A type without lifetimes, ledgers and allocation failures, and with the plain names of texts, lists and shared values."""
    text = re.sub(r"<'\w+>|'\w+,? ?", "", text).replace("<L, R>", "").replace("<L>", "").replace("static str", "str")
    for name, plain in NAMES.items():
        text = re.sub(rf"\b{name}\b", plain, text)
    while (found := text.rfind(", AllocError>")) >= 0:
        start = next(it for it in starts_of("Result<", text, found) if end_of(text, it + 6, ">") == found + 13)
        text = text[:start] + text[start + 7 : found] + text[found + 13 :]
    return text


def starts_of(word, text, before):
    """The places of a word before a place, the last one first."""
    return [it.start() for it in re.finditer(re.escape(word), text[:before])][::-1]


def plain_call(name, asked, answered):
    """The form of a function."""
    parts = [it for it in parted(asked) if it not in NOT_ASKED]
    types = ", ".join(it if "self" in it else plain_type(it.partition(": ")[2]) for it in parts)
    answer = plain_type(answered)
    return f"{name}({types})" + (f" -> {answer}" if answer not in ("", "()") else "")


def owners_in(text):
    """Where the blocks of types and traits stand, and whose they are."""
    for found in OWNER.finditer(text):
        head = found[2].strip()
        head = head[end_of(head, 0, ">") :] if head.startswith("<") else head
        named = re.match(r"[&\[]*(\w*)", head.rpartition(" for ")[2].strip())
        yield found.start(), text.find("\n}\n", found.end()), named[1], found[1] != "impl" or " for " not in head


def functions_in(text):
    """The functions of a file that are public, by their names, and those of traits."""
    owners = [*owners_in(text)]
    for found in ITEM.finditer(text):
        owner = [it for it in owners if it[0] < found.start() < it[1]]
        is_own = not owner or owner[0][3]
        is_public = "pub fn" in found[0] or owner and text.startswith("pub trait", owner[0][0])
        if not (is_own and is_public):
            continue
        start = end_of(text, found.end(), ">") if text[found.end()] == "<" else found.end()
        end = end_of(text, start, ")")
        answer = re.match(r"\s*(?:-> (.*?))?\s*(?=\b(?:ensures|requires|where)\b|\{\s*\n|;|\n\s*//)", text[end:], re.S)
        name = f"{owner[0][2]}::{found[1]}" if owner else found[1]
        yield plain_call(name, " ".join(text[start + 1 : end - 1].split()), " ".join((answer and answer[1] or "").split()))


def traits_in(text):
    """The traits of a file, each with its functions."""
    owners = [it for it in owners_in(text) if text.startswith("pub trait", it[0])]
    for start, end, name, _ in owners:
        calls = [it.partition("::")[2] for it in functions_in(text[start : end + 3])]
        yield f"{name} {{ {', '.join(calls)} }}"


def types_in(text):
    """The types of a file with public fields, and the variants with fields, as they are written."""
    for whole, field in (STRUCT, VARIANT):
        for name, fields in whole.findall(text):
            told = [f"{it}: {plain_type(kind)}" for it, kind in field.findall(fields)]
            yield f"{name} {{ {', '.join(told)} }}"


def name_of(form):
    """The name of what has this form."""
    return re.match(r"[\w:]+", form)[0]


def forms_of(crate):
    """The forms of a crate's public calls and types, by their names."""
    forms = {}
    for file in sorted((ROOT / "crates" / crate / "src").rglob("*.rt")):
        text = file.read_text()
        for form in [*functions_in(text), *traits_in(text), *types_in(text)]:
            forms.setdefault(name_of(form), form)
    return forms


def plain_forms():
    """The plainest forms, by crate and name."""
    forms, crate = {}, None
    for line in PLAIN.read_text().splitlines():
        if line and not line.startswith("#"):
            crate = line if re.fullmatch(r"\w+", line) else crate
            forms.setdefault(crate, {})
            if crate != line:
                forms[crate][name_of(line)] = line
    return forms


def plain_parts():
    """What the decisions about forms say of the plain form."""
    decisions = DECISION.findall((ROOT / PAGE).read_text())
    return [found[1] for *_, text in decisions if (found := DIFFERS.match(text))]


def named_in_decisions():
    """The names of calls and types that decisions name as plain forms."""
    return {name_of(it) for part in plain_parts() for it in re.findall(r"`([^`]+)`", part) if re.match(r"[\w:]+", it)}


class Decisions(unittest.TestCase):
    def test_numbers(self):
        """None is missing, and none stands twice; one that is replaced names a decision that stands."""
        page = (ROOT / PAGE).read_text()
        decisions = DECISION.findall(page)
        numbers = [int(it[0]) for it in (*OF_KAFKA.findall(page), *decisions)]
        self.assertGreater(len(decisions), 200)
        self.assertEqual(numbers, [*range(1, len(numbers) + 1)])
        replaced = [int(status.rpartition(" ")[2]) for _, _, status, _ in decisions if status != "stands"]
        self.assertLessEqual({*replaced}, {int(number) for number, _, status, _ in decisions if status == "stands"})


class Forms(unittest.TestCase):
    def test_each_call_is_there(self):
        for crate, forms in plain_forms().items():
            there = forms_of(crate)
            for name in forms:
                with self.subTest(crate=crate, name=name):
                    self.assertIn(name.rpartition("::")[2] if name == "Event::Ask" else name, there)

    def test_what_differs_has_a_decision(self):
        named = named_in_decisions()
        for crate, forms in plain_forms().items():
            there = forms_of(crate)
            for name, plain in forms.items():
                here = there.get(name.rpartition("::")[2] if name == "Event::Ask" else name)
                with self.subTest(crate=crate, name=name):
                    is_plain = here is not None and here.removeprefix(name) == plain.removeprefix(name)
                    self.assertEqual(name in named, not is_plain, f"plain: {plain}; here: {here}")


if __name__ == "__main__":
    unittest.main()
