"""Where the repository and its tools are. A file that imports this module can import those of tools/lib by name."""
import pathlib
import sys

ROOT = pathlib.Path(__file__).resolve().parent.parent.parent
TOOLS = ROOT / "tools"
# Looked up after the folder of the tests' modules.
sys.path.insert(1, str(TOOLS / "lib"))
