"""One name, one meaning: no name is defined twice in the crates' specs/, inner/ included."""
import collections
import os
import re
import unittest

from tests.common import ROOT

DEFINED = re.compile(r"^ {0,2}(?:abbrev |unfoldable )?pub (?:record |data )?(?P<name>[^\s:({]+)(?= [:({])")
FIELD = re.compile(r"^ +pub ")


class Names(unittest.TestCase):
    def test_no_name_is_defined_twice(self):
        where = collections.defaultdict(list)
        crates = os.path.join(ROOT, "crates")
        for folder, below, files in os.walk(crates):
            below[:] = [name for name in below if name != "out"]
            if "specs" not in os.path.relpath(folder, crates).split(os.sep):
                continue
            for name in sorted(files):
                path = os.path.join(folder, name)
                with open(path, encoding="utf-8") as text:
                    for line in text:
                        m = DEFINED.match(line)
                        if m and not FIELD.match(line):
                            where[m["name"]].append(os.path.relpath(path, ROOT))
        self.assertGreater(len(where), 300)
        self.assertEqual({}, {name: files for name, files in where.items() if len(files) > 1})


if __name__ == "__main__":
    unittest.main()
