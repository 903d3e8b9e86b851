"""What the parts of the tests share. It speaks HiSLIP by the client that a user copies, `examples/swm.py`, and here
alone it is said where that is."""
import pathlib
import sys

ROOT = pathlib.Path(__file__).resolve().parent.parent.parent
EXAMPLES = ROOT / "examples"
sys.path.insert(0, str(EXAMPLES))
