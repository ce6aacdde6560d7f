"""Lower case in a class table."""
import pathlib
import sys

sys.path.insert(0, str(pathlib.Path(__file__).resolve().parents[2] / "tools"))
from tables import LOWER, classes, read_classes


def lowered(table, characters):
    """a class table whose rows of these characters have the flag"""
    return classes({c: kind._replace(flags=kind.flags | LOWER * (c in characters)) for c, kind in read_classes(table).items()})
