"""Who may read a file that a companion writes again."""

import os
import struct
import subprocess
import sys
import unittest
from unittest import mock

from pops_companions import files
from pops_companions.many.targets import Target
from tests import run_here, support

_LIST = "system.posix_acl_access"
_NOBODY = 0xFFFFFFFF
# (kind, rights, user: the owner, one user, the group, the most that users and groups have, others)
_ENTRIES = [
    (0x01, 6, _NOBODY), (0x02, 4, 12345), (0x04, 0, _NOBODY), (0x10, 4, _NOBODY), (0x20, 4, _NOBODY)
]  # fmt: skip
_LISTED = struct.pack("<I", 2) + b"".join(struct.pack("<HHI", *entry) for entry in _ENTRIES)


class Page(support.InRoom):
    def test_a_page_to_an_open_file(self) -> None:
        """What the file has stays."""
        log, words = self.room / "log", "from runpy import run_path; run_path({!r})['write']('/dev/stdout', 'page')"
        log.write_bytes(b"old\n")
        with log.open("ab") as output:
            program = [sys.executable, "-B", "-c", words.format(str(support.REPOSITORY / "page"))]
            subprocess.run(program, stdout=output, check=True)
        self.assertEqual(log.read_bytes(), b"old\npage")


class Names(support.InRoom):
    def test_the_longest_names(self) -> None:
        long = ("x" * 255, "y" * 243, "\u0434" * 127, "\u0434" * 122 + ".html", "z" * 242, "\udcff" * 255)
        for name in long:
            with files.written_whole(str(self.room / name)) as file:
                file.write(b"whole")
                (begun,) = os.listdir(self.room)
                self.assertRegex(begun, r"\.[0-9a-f]{12}$")
                self.assertTrue(name.startswith(begun[:-13]))
            self.assertEqual((self.room / name).read_bytes(), b"whole")
            target = Target(str(self.room / name), b"0" * 64)
            target.try_out()
            with target.opened() as file:
                file.write(b"again")
            self.assertEqual(os.listdir(self.room), [name])
            (self.room / name).unlink()


    def test_a_file_in_whose_place_none_may_be_put(self) -> None:
        """As another user's file in a folder like /tmp: the message names it, and not the file beside it."""
        report, page = self.room / "a.report", self.room / "page.json"
        report.write_bytes(b"problem 1\n#1\nplay\n1.Ra1-a8#\nsolutions: 1\n\n")
        page.write_bytes(b"old")

        def replace(old: str, new: str) -> None:
            raise PermissionError(1, "Operation not permitted", old, None, new)

        with mock.patch("os.replace", replace):
            outcome = run_here.companion("pops2json", str(report), "-o", str(page))
        self.assertEqual(outcome, (3, b"", f"pops2json: {page}: Operation not permitted\n"))
        self.assertEqual(sorted(os.listdir(self.room)), ["a.report", "page.json"])


class Readers(support.InRoom):
    def setUp(self) -> None:
        super().setUp()
        self.path = self.room / "kept"
        self.path.write_bytes(b"old")

    def written(self) -> int:
        """Writes the file, and returns its permissions."""
        with files.written_whole(str(self.path)) as file:
            file.write(b"new")
        self.assertEqual(self.path.read_bytes(), b"new")
        return self.path.stat().st_mode & 0o777

    def written_by_another(self, takes_group: bool) -> tuple[int, int]:
        """Writes the file as a user who can't give it its owner, and perhaps not its group; returns its
        permissions and its group."""
        before = self.path.stat()
        given: list[int] = []
        real_fstat = os.fstat

        def fstat(handle: int) -> os.stat_result:
            now = list(real_fstat(handle))
            now[4:6] = [before.st_uid + 1, given[-1] if given else before.st_gid + 1]
            return os.stat_result(now)

        def fchown(_: int, owner: int, group: int) -> None:
            self.assertEqual(group, before.st_gid)
            if owner != -1 or not takes_group:
                raise PermissionError(1, "not permitted")
            given.append(group)

        with mock.patch("os.fstat", fstat), mock.patch("os.fchown", fchown):
            mode = self.written()
        return mode, given[-1] if given else before.st_gid + 1

    def test_the_group_is_kept_without_the_owner(self) -> None:
        self.path.chmod(0o664)
        self.assertEqual(self.written_by_another(True), (0o664, self.path.stat().st_gid))

    def test_another_group_has_no_rights(self) -> None:
        for before, after in ((0o660, 0o600), (0o664, 0o604), (0o646, 0o604), (0o604, 0o600)):
            self.path.chmod(before)
            self.assertEqual(self.written_by_another(False)[0], after)

    @unittest.skipUnless(sys.platform == "linux", "lists of Linux")
    def test_a_list_of_who_may_read(self) -> None:
        try:
            os.setxattr(self.path, _LIST, _LISTED)
        except OSError as error:
            self.skipTest(f"no lists in {self.room}: {error.strerror}")
        self.written()
        self.assertEqual(os.getxattr(self.path, _LIST), _LISTED)
        self.assertEqual(self.written_by_another(False)[0], 0o600)
        self.path.unlink()
        self.path.write_bytes(b"old")
        self.path.chmod(0o640)
        # (the folder gives it to each new file)
        os.setxattr(self.room, "system.posix_acl_default", _LISTED)
        self.assertEqual(self.written(), 0o640)
        with self.assertRaises(OSError):
            os.getxattr(self.path, _LIST)
