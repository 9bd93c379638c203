"""The parts of the stored run of `node_cases`: in its input and in its output a line `== NAME` begins the part NAME."""
import pathlib

FOLDER = pathlib.Path(__file__).parent.parent / "crates" / "node_cases"


def around(text, name):
    """What comes before the lines of a part, these lines, and what comes after them."""
    before, mark, rest = f"\n{text}".partition(f"\n== {name}\n")
    lines, seam, after = f"\n{rest}".partition("\n== ")
    if not mark:
        raise ValueError(f"there is no part {name}")
    return (before + mark)[1:], (lines + seam[:1])[1:], seam[1:] + after


def read_part(name, folder=FOLDER):
    """The lines of a part in the input, and in the output."""
    return tuple(around((folder / file).read_text(encoding="utf-8"), name)[1] for file in ("stdin", "stdout"))


def write_part(name, script, printed, folder=FOLDER):
    """Puts these lines in the place of a part's in the input and in the output; None leaves what stands there."""
    for file, lines in (("stdin", script), ("stdout", printed)):
        if lines is not None:
            before, _, after = around((folder / file).read_text(encoding="utf-8"), name)
            (folder / file).write_text(before + lines + after, encoding="utf-8")
