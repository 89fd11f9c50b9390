"""Connections that logins by ssh share: the first login of a machine opens one, later ones use it."""

import os
import shlex
from contextlib import ExitStack

from pops_companions.many import sessions

# How long a connection stays that no login uses.
_SECONDS_IDLE = 15
# ssh puts a name of this many bytes into the folder, and the path of a socket has that many at most.
_LONGEST_NAME = 60
_LONGEST_PATH = 104


class Connections:
    """A private folder of connections, which end with this process at the latest."""

    def __init__(self, ssh: str):
        """`ssh` is the command; only logins of the program ssh itself share connections."""
        self._open = ExitStack()
        self.options = ""
        words = shlex.split(ssh)
        if not words or os.path.basename(words[0]) != "ssh":
            return
        folder = self._open.enter_context(sessions.passing_folder("pops-many-"))
        if len(os.fsencode(folder)) + _LONGEST_NAME > _LONGEST_PATH or shlex.quote(folder) != folder:
            self._open.close()
            return
        self._open.callback(sessions.end_connections, folder)
        self._open.enter_context(sessions.Watcher(0, folder))
        self.options = (
            f" -o ControlMaster=auto -o ControlPath={folder}/%C -o ControlPersist={_SECONDS_IDLE}"
        )

    def close(self) -> None:
        """Ends the connections, and what runs through them."""
        self._open.close()
        self.options = ""
