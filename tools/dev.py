#!/usr/bin/env python3
"""The edit loop with less to read: runs `rt check [WORDS]` in the crate's folder, writes each proof file that the check offers and that is not
there yet, and prints what is left: errors, goals and the names that an answer can use. All that `rt` said is kept in target/check.out.
  tools/dev.py chart        tools/dev.py chart --only bytes::get --allow-holes
It is no verdict: that is `rt ci`."""
import os, re, subprocess, sys

root = subprocess.run(["git", "rev-parse", "--show-toplevel"], stdout=subprocess.PIPE, text=True).stdout.strip() or os.getcwd()
cut = int(os.environ.get("CUT", "1500"))
crate, words = sys.argv[1], sys.argv[2:]
folder = os.path.join(root, "crates", crate)
ran = subprocess.run(["rt", "check"] + words, cwd=folder, stdout=subprocess.PIPE, stderr=subprocess.STDOUT, text=True)
os.makedirs(os.path.join(root, "target"), exist_ok=True)
open(os.path.join(root, "target", "check.out"), "w").write(ran.stdout)

# the files that the check offers
lines, kept, i = ran.stdout.split("\n"), [], 0
while i < len(lines):
    offer = re.match(r"help: write (\S+) with these lines", lines[i])
    if not offer:
        kept.append(lines[i])
        i += 1
        continue
    path, body, i = os.path.join(folder, offer.group(1)), [], i + 1
    while i < len(lines) and (lines[i].startswith("    ") or lines[i] == ""):
        body.append(lines[i][4:])
        i += 1
    if not os.path.exists(path):
        os.makedirs(os.path.dirname(path), exist_ok=True)
        open(path, "w").write("\n".join(body).rstrip() + "\n")
        kept.append("wrote " + os.path.relpath(path, root))

# what is left
told = re.compile(r"(fn|struct|enum|union|trait|impl) .*: proved$|(logic /|statements |library |checked |axioms |rt: )|note: (a goal may be false even|to see how far)")
for line in kept:
    if not told.match(line):
        print(line.replace("Rattle.%s." % crate, "").replace(folder + "/", "")[:cut])
sys.exit(ran.returncode)
