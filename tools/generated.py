"""The part of a page that a tool makes: it stands between two lines of the page, of which the first names the tool."""

import sys

END = "<!-- so far -->\n"


class Part:
    """What this tool makes of this page."""

    def __init__(self, page, tool):
        self.page, self.begin = page, f"<!-- made by tools/{tool}.py -->\n"

    def split(self):
        """What stands on the page before the part, in its place, and after it."""
        before, begin, rest = self.page.read_text(encoding="utf-8").partition(self.begin)
        held, end, after = rest.partition(END)
        if not (begin and end):
            sys.exit(f"kbroker: {self.page.name} has no place for what the tool makes")
        return before, held, after

    def write(self, made):
        """Puts this into its place."""
        before, _, after = self.split()
        self.page.write_text(f"{before}{self.begin}\n{made}\n{END}{after}", encoding="utf-8")
