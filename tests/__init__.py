"""The tests of the tools. They are found from the top of the repository, by `python3 -m unittest` and by pytest."""
import pathlib
import sys

sys.path[1:1] = [str(pathlib.Path(__file__).resolve().parent.parent / folder) for folder in ("tools", "bench")]
