"""Signals that come while locks are taken, or as a program or a folder begins or ends."""

import subprocess
import sys
import tempfile
import unittest

from tests import support

# Does a work as often as it has moments, those at which one of some functions of C returns in the main thread,
# and sends a signal at each in turn. It has to raise there or a little later, and to leave no thread and no
# process. Without a signal the work ends by itself.
_EVERYWHERE = """
import os, signal, sys, tempfile, threading, time
from pops_companions import interrupts
from pops_companions.many import child_process, local, progress, sessions
FUNCTIONS = ("__enter__", "__exit__", "acquire", "release", "_acquire_restore", "_release_save", "fork_exec",
    "start_new_thread", "waitpid", "mkdir", "rmdir", "kill", "close")
room = sys.argv[1]
tempfile.tempdir = room
stopped = threading.Event()
def in_threads():
    local.in_threads(lambda: time.sleep(0.01), 2, stopped.set)
def for_each():
    local.for_each([1, 2, 3], lambda one: one, 2, stopped.set, lambda one, found: None)
def program():
    child_process.outcome_of(["/bin/sh", "-c", "cat; exec true"], b"text")
def beating():
    with progress.Progress("it").beating():
        pass
def folder():
    with sessions.passing_folder("it-") as name:
        open(name + "/file", "w").close()
def sent_at(number):
    seen = 0
    def look(frame, event, function):
        nonlocal seen
        if event == "c_return" and function.__name__ in FUNCTIONS:
            seen += 1
            if seen == number:
                sys.setprofile(None)
                os.kill(os.getpid(), signal.SIGTERM)
                # (where it raises, this one returns nothing)
                return
    interrupts.begin()
    raised = False
    try:
        with interrupts.allowed():
            sys.setprofile(look)
            try:
                WORK()
            finally:
                sys.setprofile(None)
    except KeyboardInterrupt:
        raised = True
    assert raised == (seen >= number), f"at {number} of {seen} moments"
    while any(not it.daemon and it is not threading.main_thread() for it in threading.enumerate()):
        time.sleep(0.01)
    while True:
        try:
            assert os.waitpid(-1, 0)
        except ChildProcessError:
            break
    assert not os.listdir(room), f"at {number} it leaves {os.listdir(room)}"
    return raised
number = 1
while sent_at(number):
    number += 1
assert number > 1
"""


class Everywhere(unittest.TestCase):
    """A signal at each moment of a work."""

    def test_a_signal_at_each_moment(self) -> None:
        for work in ("in_threads", "for_each", "program", "beating", "folder"):
            with self.subTest(work), tempfile.TemporaryDirectory() as room:
                words = [sys.executable, "-c", _EVERYWHERE.replace("WORK", work), room]
                done = subprocess.run(words, cwd=support.COMPANIONS, capture_output=True, timeout=support.PATIENCE)
                self.assertEqual((done.returncode, done.stderr.decode()), (0, ""))
