"""The model as a program: python3 tests/model WORDS.. < TAPE
python3 tests/model texts [K ..] < TAPE
python3 tests/model program SEED [size=12] [depth=3] [hazard=0..3] [spelling=plain|quoted|any] [mutations=N]

With the words of the command line of gier it prints what gier has to print, and ends with its status. `texts` shows texts 1 to 8, or
those with the numbers K. `program` prints the random program of a seed, with so many damages."""
import sys
from pathlib import Path

sys.dont_write_bytecode = True
sys.path.insert(0, str(Path(__file__).resolve().parent.parent))

from model import dump, programs  # noqa: E402
from model.answer import answer  # noqa: E402


def main():
    kind, *rest = sys.argv[1:] or [""]
    if kind == "--help":
        print(__doc__)
    elif kind == "program":
        sys.stdout.buffer.write(programs.tape_of(rest[0], **programs.settings(rest[1:])))
    elif kind == "texts":
        print(dump.texts(sys.stdin.buffer.read(), [int(word) for word in rest] or list(range(1, 9))))
    else:
        found = answer(sys.argv[1:], sys.stdin.buffer.read(), texts=False)
        sys.stdout.buffer.write(found.out)
        sys.stdout.buffer.flush()
        sys.exit(found.status)


main()
