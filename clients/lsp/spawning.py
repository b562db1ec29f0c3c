"""Processes that end with the server, also when it is killed.

The kernel ends them with the thread that began them (`prctl`, PR_SET_PDEATHSIG), so one thread begins all. `setpriv` of
util-linux sets that between fork and exec, where Python may not run beside threads; without it they are begun plainly.
"""
import os
import queue
import shutil
import subprocess
import threading
from collections.abc import Sequence
from typing import Any


class Spawner:
    def __init__(self) -> None:
        setpriv = shutil.which("setpriv")
        self.front = [setpriv, "--pdeathsig", "KILL", "--"] if setpriv is not None else []
        self.wanted: queue.SimpleQueue[tuple[Sequence[str], dict[str, Any], queue.SimpleQueue[Any]]] = queue.SimpleQueue()
        threading.Thread(target=self.run, daemon=True).start()

    def popen(self, words: Sequence[str], **how: Any) -> "subprocess.Popen[bytes]":
        """Begins a process as `subprocess.Popen` does. A program that isn't there raises as it does there."""
        if shutil.which(words[0]) is None:
            raise FileNotFoundError(2, os.strerror(2), words[0])
        done: queue.SimpleQueue[Any] = queue.SimpleQueue()
        self.wanted.put((words, how, done))
        begun = done.get()
        if isinstance(begun, Exception):
            raise begun
        made: subprocess.Popen[bytes] = begun
        return made

    def run(self) -> None:
        while True:
            words, how, done = self.wanted.get()
            try:
                done.put(subprocess.Popen([*self.front, *words], **how))
            except Exception as fault:
                done.put(fault)
