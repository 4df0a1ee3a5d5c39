"""The folders with one run each: those of examples/, by topic, and those of tests/cases."""
import glob
import os

ROOT = os.path.dirname(os.path.dirname(os.path.dirname(os.path.realpath(__file__))))


def every():
    """The paths of all of them, in the order of their names."""
    found = glob.glob(f"{ROOT}/examples/*/*/") + glob.glob(f"{ROOT}/tests/cases/*/")
    return sorted((it.rstrip(os.sep) for it in found), key=os.path.basename)


def named(name):
    """The path of that of this name."""
    return next(it for it in every() if os.path.basename(it) == name)
