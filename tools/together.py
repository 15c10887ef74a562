"""The mutants that the gate tries together: those of gate-mutants/, of different functions in one check (tools/try_mutants.py).

Those of a crate are tried in a copy in which `rt ci` has just proved it. Of each that was plainly refused that is kept on this
machine, by a checksum of all that it rests on (tools/kept.py), and then it isn't tried again.
"""

import shutil
import sys
from concurrent.futures import ThreadPoolExecutor

import edits
import kit
import processes
import prove
import refusals
from kept import Kept, sum_of
from program import ROOT

TRY_MUTANTS = ROOT / "tools/try_mutants.py"
# What judges a mutant: where it changes, another judgement may come of the same.
JUDGES = TRY_MUTANTS, ROOT / "tools/kit.py", ROOT / "tools/refusals.py"
MEMORY_OF_CRATE = 4e9  # bytes; four crates at a time were seen to take 10.7 GB


class Together:
    """Those of some crates, and what was said of each so far."""

    def __init__(self, names):
        self.edits = {it: found for it in names if (found := edits.TOGETHER.edits([it]))}
        self.kept, self.names, self.said = Kept(), {}, {}
        if self.edits:
            self.name_all()

    @property
    def wanted(self):
        """The name of each."""
        return {f"{crate}/{it.name}" for crate, found in self.edits.items() for it in found}

    def name_all(self):
        """Computes the name under which it is kept what came of each."""
        rt = kit.load_rt()
        judges = [it.read_bytes() for it in JUDGES]
        for crate, found in self.edits.items():
            rests = kit.Crate(rt, ROOT, crate).sum()
            for it in found:
                name = f"{crate}/{it.name}"
                self.names[name] = sum_of(judges, rests, name, it.read_bytes())

    def text_of(self, name):
        """What was said of one, in this run or in another one that kept it."""
        if name not in self.said:
            text = self.kept.find(self.names[name])
            if text is not None and refusals.is_plain(text):
                self.said[name] = text
        return self.said.get(name, refusals.NOTHING_SAID)

    def left_of(self, crate):
        """Those of a crate of which nothing was said so far, or that they weren't tried."""
        return [it for it in self.edits.get(crate, []) if self.text_of(f"{crate}/{it.name}").startswith(refusals.NOT_TRIED)]

    def see(self, line):
        """Notes what a line says of a mutant, and keeps it where it is a plain refusal."""
        for name, text in refusals.LINE.findall(line):
            if name in self.names:
                self.said[name] = text
                if refusals.is_plain(text):
                    self.kept.keep(self.names[name], text)

    def try_in(self, runs, room, crates, at_once, nice=0):
        """Tries those of crates that are left, so many crates at once, in a copy in which `rt ci` has proved them."""
        with ThreadPoolExecutor(at_once) as workers:
            list(workers.map(lambda it: self.try_those_of(runs, room, it, nice), filter(self.left_of, crates)))

    def try_those_of(self, runs, room, crate, nice):
        """Tries those of one crate."""
        folder = room / "left" / crate
        folder.mkdir(parents=True)
        for it in self.left_of(crate):
            shutil.copy(it, folder)
        runs.run(room, nice, words=[sys.executable, TRY_MUTANTS, room, crate, folder], seen=self.see)

    def try_left(self, runs):
        """Tries those of all crates that are left, once all is proved."""
        left = [*filter(self.left_of, self.edits)]
        if left:
            with processes.room("kbroker-mutants-") as room:
                prove.copy_crates(left, room)
                runs.run(room)
                self.try_in(runs, room, left, processes.at_once(MEMORY_OF_CRATE))

    def lines(self):
        """What was said of each, as lines."""
        return "".join(f"{refusals.line_of(*it.split('/'), self.text_of(it))}\n" for it in sorted(self.names))
