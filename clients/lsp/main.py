"""A language server for XML that is being marked up (Language Server Protocol 3.17), over standard input and output.

An editor starts it. What is wrong is underlined with its reason, what may stand at a place is offered, and what is
missing is inserted, all by what pvtag answers. It writes no file.
"""
import argparse
import gc
import os
import sys

from pvtag import program

from . import memory
from .server import Server
from .spawning import Spawner
from .wire import Reader, Writer


def main() -> None:
    words = argparse.ArgumentParser(description=__doc__, formatter_class=argparse.RawDescriptionHelpFormatter)
    program.add_option(words)
    words.add_argument("--stdio", action="store_true", help="standard input and output, as without this word")
    told = words.parse_args()
    if sys.stdin is None or sys.stdout is None:
        sys.exit(f"{os.path.basename(sys.argv[0])}: the standard input or output, by which an editor speaks with it, is closed")
    # The files that are made for the program are in memory, and what is run ends with the server, and within so many seconds.
    program.hold = memory.file_of
    program.popen = Spawner().popen
    program.RUNNING.most = 60.0
    # Trees of large texts are no garbage.
    gc.set_threshold(200_000, 20, 50)
    # What is printed by mistake doesn't go into the messages.
    output, sys.stdout = sys.stdout.buffer, sys.stderr
    status = Server(Reader(sys.stdin.buffer), Writer(output), told.program).run()
    sys.stderr.flush()
    os._exit(status)
