"""Man pages: each companion has one, it is that of its help, and it is shown without warnings."""

import shutil
import subprocess
import unittest

from tests import man_pages, support


class ManPages(unittest.TestCase):
    def test_each_is_that_of_its_help(self) -> None:
        names = man_pages.companions()
        self.assertGreater(len(names), 10)
        files = sorted(path.name for path in man_pages.FOLDER.iterdir())
        self.assertEqual(files, [f"{name}.1" for name in names])
        for name in names:
            with self.subTest(name):
                stored = (man_pages.FOLDER / f"{name}.1").read_text("utf-8")
                message = "call `python3 -m tests.man_pages` in companions/ to write it again"
                self.assertEqual(stored, man_pages.page_of(name), message)

    def test_each_is_shown_without_warnings(self) -> None:
        if shutil.which("man") is None:
            print("test_man_pages: no man here: no page was shown")
            return
        for path in sorted(man_pages.FOLDER.iterdir()):
            with self.subTest(path.name):
                words = ["man", "--warnings", "-l", "-P", "cat", str(path)]
                done = subprocess.run(words, capture_output=True, text=True, timeout=support.PATIENCE)
                self.assertEqual((done.returncode, done.stderr), (0, ""))
                self.assertIn("EXAMPLES", done.stdout)
