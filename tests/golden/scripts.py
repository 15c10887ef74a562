"""The golden scripts: each `NAME.txt` of examples/ and of the folders beside this file, with what has to be printed for it in
`NAME.out`; and the program's stored run, with what has to be printed in `stdout`."""

from program import ROOT

EXAMPLES = ROOT / "examples"
GOLDEN = ROOT / "tests/golden"
STORED_RUN = ROOT / "crates/kbroker/stdin"
# Whose scripts are no golden ones, but those of `kbroker show`.
SHOWN = GOLDEN / "show"


def folders():
    """The folders, each of which has to have scripts."""
    return [EXAMPLES, *sorted(it for it in GOLDEN.iterdir() if it.is_dir() and it != SHOWN and it.name != "__pycache__")]


def scripts():
    """All scripts."""
    return [STORED_RUN, *(it for folder in folders() for it in sorted(folder.rglob("*.txt")))]


def output_of(script):
    """The file that has what has to be printed for a script."""
    return script.with_name("stdout") if script == STORED_RUN else script.with_suffix(".out")


def a_case_for_each(cls):
    """Gives a class of tests a case for each script, by the names of its folder and its file, that looks at it by `look_at`."""
    for script in scripts():
        name = f"test_{script.parent.name}_{script.stem}"
        if hasattr(cls, name):
            raise ValueError(f"two scripts have the case {name}")
        setattr(cls, name, case_of(script))
    return cls


def case_of(script):
    """A case for a script."""

    def case(self):
        with self.subTest(script=str(script.relative_to(ROOT))):
            self.look_at(script)

    return case


def assert_lines(case, printed, wanted):
    """Fails at the first line in which what is printed isn't what is wanted."""
    for at, (one, other) in enumerate(zip(printed, wanted), 1):
        case.assertEqual(one, other, f"line {at}")
    case.assertEqual(len(printed), len(wanted), "so many lines")
