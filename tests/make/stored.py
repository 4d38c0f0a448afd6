"""What the scripts that make stored cases share: writing cases, counts, texts and fields as bytes, and asking the second reader."""
import os
import subprocess
import sys
import tempfile

TOP = os.path.dirname(os.path.dirname(os.path.dirname(os.path.abspath(__file__))))


# The cases that the program part_cases runs, each line behind a word that says which. All others have a folder of their own.
PARTS = ("pin", "pool", "tail", "text", "zone")
PROGRAM = os.path.join(TOP, "crates", "part_cases")
# The program has so much room for its input.
ROOM = 262144


def write_cases(name, cases):
    """Writes the cases of a script: pairs of a line and the one line that is written for it."""
    cases = list(cases)
    word = name[:-len("_cases")]
    if word in PARTS:
        own = [(word + " " + line, said) for line, said in cases]
        others = [case for case in stored_cases() if case[0].split(" ", 1)[0] != word]
        # In the order of the scripts; each script's own order stays.
        all_ = sorted(own + others, key=lambda case: PARTS.index(case[0].split(" ", 1)[0]))
        length = sum(len(line) + 1 for line, _ in all_)
        assert length <= ROOM, "the program's input has %d bytes" % length
        write_files(PROGRAM, all_)
    else:
        write_files(os.path.join(TOP, "tests", "cases", name), cases)
    print("%d cases" % len(cases))


def stored_cases():
    """The cases that the program has."""
    names = [os.path.join(PROGRAM, name) for name in ("stdin", "stdout")]
    if not all(map(os.path.exists, names)):
        return []
    lines, said = (open(name).read().splitlines() for name in names)
    assert len(lines) == len(said)
    return list(zip(lines, said))


def write_files(folder, cases):
    for name, k in ("stdin", 0), ("stdout", 1):
        with open(os.path.join(folder, name), "w") as f:
            f.write("".join(case[k] + "\n" for case in cases))


def count(n):
    """The shortest form of a count: seven bits a byte, low first, the top bit set on all but the last."""
    out = []
    while n > 127:
        out.append(128 + n % 128)
        n //= 128
    return bytes(out + [n])


def padded(n, length):
    """A field's size in so many bytes: its count, and groups of zero behind it (02, Ask 6)."""
    out = count(n)
    while len(out) < length:
        out = out[:-1] + bytes([out[-1] + 128, 0])
    return out


def signed(n):
    """A signed count: 0, -1, 1, -2 are the counts 0, 1, 2, 3."""
    return count(2 * n if n >= 0 else -2 * n - 1)


def offset(ms):
    """An offset in milliseconds, in the first form that fits."""
    n = ms + 86400000
    if n % 1800000 == 0:
        return bytes([n // 1800000])
    if n % 60000 == 0:
        return (0x8000 + n // 60000).to_bytes(2, "big")
    if n % 1000 == 0:
        return (0xA00000 + n // 1000).to_bytes(3, "big")
    return (0xC0000000 + n).to_bytes(4, "big")


def text(s):
    """Length and bytes."""
    b = s if isinstance(s, bytes) else s.encode("utf-8")
    return count(len(b)) + b


def field(id_, data):
    """ID, size and data."""
    return bytes([id_]) + count(len(data)) + data


def hex_(h):
    return bytes.fromhex(h)


def parts(front, unit, times, end):
    """The words of a line that spell the front, the unit so many times, and the end."""
    return "%s %s %06x %s" % (front.hex(), unit.hex(), times, end.hex() or "-")


def but_name(said):
    """An answer without its name, which stands last; a refusal whole."""
    return said.rsplit(" ", 1)[0] if said.startswith("0 ") else said


class Second:
    """The second reader: the program that the command line names, or else the one that is built."""

    def __init__(self):
        self.program = sys.argv[1] if len(sys.argv) > 1 else self.built()
        self.folder = tempfile.TemporaryDirectory()
        self.file = os.path.join(self.folder.name, "zones.nzd")

    @staticmethod
    def built():
        target = os.path.join(TOP, "target", "second_reader")
        subprocess.run(["cargo", "build", "--offline", "--locked", "--release", "--quiet"], cwd=os.path.join(TOP, "tests", "second_reader"),
                       env=dict(os.environ, CARGO_TARGET_DIR=target), check=True)
        return os.path.join(target, "release", "second_reader")

    def says(self, *words):
        """What it writes, without the line feed."""
        done = subprocess.run([self.program, *words], capture_output=True)
        assert done.returncode in (0, 1), (words, done.stderr)
        assert done.stdout.endswith(b"\n")
        return done.stdout[:-1]
