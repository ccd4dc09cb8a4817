#!/usr/bin/env python3
"""Works the songs of crates/worked_songs/proofs/Songs.antt out anew with the unchanged Rust (oracle's `oracle bytes`): the answer and the bytes of
each stay or are written over, and the songs themselves stay. Run at the root after a change of a chart's bytes; needs cargo and the Rust."""
import re, subprocess, sys

PATH = "crates/worked_songs/proofs/Songs.antt"
FLOAT = r"[sd] 0x([0-9a-f]+)"
ORACLE = ["cargo", "run", "--release", "--offline", "--quiet", "--manifest-path", "oracle/Cargo.toml", "--bin", "oracle", "--"]


class Bits:
    """Fields one after another, the highest bit first."""

    def __init__(self):
        self.value = self.width = 0

    def put(self, width, value):
        self.value = self.value << width | value
        self.width += width

    def bytes(self):
        self.put(-self.width % 8, 0)
        return self.value.to_bytes(self.width // 8, "big")


def entries(text, name):
    """the records of a list of the song"""
    listed = re.search(r"\b%s =\s*\((.*?)\);" % name, text, re.S).group(1)
    return [entry for entry in listed.split("∷") if "record" in entry]


def floats(text, *names):
    return [int(re.search(r"\b%s = %s" % (name, FLOAT), text).group(1), 16) for name in names]


def put_object(bits, text):
    kind = re.search(r"kind = (\w+)(.*)\}", text, re.S)
    bits.put(2, ["Circle", "Slider", "Spinner", "Hold"].index(kind.group(1)))
    bits.put(4, int(re.search(r"sound = (\d+)", text).group(1)))
    x, y, start = floats(text, "x", "y", "start")
    bits.put(32, x)
    bits.put(32, y)
    bits.put(64, start)
    if kind.group(1) in ("Spinner", "Hold"):
        bits.put(64, int(re.search(FLOAT, kind.group(2)).group(1), 16))
    if kind.group(1) == "Slider":
        bits.put(10, int(kind.group(2).split()[0]))
        for given, width in (re.search(r"D\.Given \(%s\)" % FLOAT, kind.group(2)), 64), (re.search(r"N\.Given (\d+)", kind.group(2)), 4):
            bits.put(1, given is not None)
            if given:
                bits.put(width, int(given.group(1), 16 if width == 64 else 10))


def record(song):
    bits = Bits()
    lists = [entries(song, name) for name in ("breaks", "timing_points", "difficulty_points", "effect_points", "objects")]
    breaks, timing, difficulty, effect, objects = lists
    bits.put(4, 1)
    bits.put(4, int(re.search(r"keys = (\d+)", song).group(1)))
    for value in floats(song, "hp", "cs", "od", "ar"):
        bits.put(32, value)
    bits.put(64, floats(song, "multiplier")[0])
    for width, listed in zip((8, 12, 12, 12, 12), lists):
        bits.put(width, len(listed))
    for listed, names in (breaks, ("start", "end")), (timing, ("time", "beat")), (difficulty, ("time", "velocity")):
        for entry in listed:
            for value in floats(entry, *names):
                bits.put(64, value)
    for entry in effect:
        bits.put(64, floats(entry, "time")[0])
        bits.put(1, "kiai = true" in entry)
    for entry in objects:
        put_object(bits, entry)
    return bits.bytes()


def worked(text, name, buffer, fill, allowance):
    song = re.search(r"^%s =\n(.*?)\n\n" % name, text, re.S | re.M).group(1)
    out = subprocess.run(ORACLE + ["bytes", allowance, buffer, fill], input=record(song), stdout=subprocess.PIPE, check=True).stdout.decode()
    answer, chart = out.split("\n")[:2]
    return "record { answer = %s; chart = (%s) }" % (answer, " ∷ ".join(chart.split() + ["[]"]))


def main():
    text = open(PATH).read()
    anew = re.sub(r"^(\w+ : job (\S+) \(replicate (\d+) (\d+)\) (\d+) ≡ )record \{.*\}$",
                  lambda m: m.group(1) + worked(text, *m.group(2, 3, 4, 5)), text, flags=re.M)
    if anew != text:
        open(PATH, "w").write(anew)
    print(PATH, "written anew" if anew != text else "as it was")


if __name__ == "__main__":
    sys.exit(main())
