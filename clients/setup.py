"""What `pyproject.toml` can't say: the version, which is that of the program, and that a build leaves nothing in this folder."""
import atexit
import runpy
import shutil
import tempfile
from pathlib import Path

from setuptools import setup

VERSION = runpy.run_path(str(Path(__file__).resolve().parent.parent / "tools" / "version.py"))
SCRATCH = tempfile.mkdtemp(prefix="pvtag-build-")
atexit.register(shutil.rmtree, SCRATCH, ignore_errors=True)


def version() -> str:
    """The version of this commit; of sources without their history there is none."""
    try:
        return str(VERSION["version_of"]())
    except VERSION["Unknown"]:
        return "0"


setup(version=version(), options={"build": {"build_base": SCRATCH}, "egg_info": {"egg_base": SCRATCH}})
