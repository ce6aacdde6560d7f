"""Decomposition tables by shorter names: circled and fullwidth forms, and what they are made of."""
import pathlib
import sys

sys.path.insert(0, str(pathlib.Path(__file__).resolve().parents[2] / "tools"))
from tables import COMPAT, FORM, NO_BREAK, SUB, SUPER, UNTAGGED, three
from tables import MOST_HELD as MOST_FORM, decomposition_row as form_row, decompositions as forms

SLASH = "\u2044"
NO_FORMS = forms({})
