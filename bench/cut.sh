#!/bin/sh
# Times `cut` over texts of 32 KB: the program cut_rounds, with and without many rounds, so that its start does not count.
# Use, from the repository's folder, after `rt run` in crates/cut_rounds: bench/cut.sh [ROUNDS]
set -eu
rounds=${1:-2000}
program=crates/cut_rounds/out/cut_rounds
texts=$(mktemp -d)
trap 'rm -r "$texts"' EXIT
python3 - "$texts" <<'P'
import sys
folder = sys.argv[1]
def fill(piece):
    return (piece * (32768 // len(piece) + 1))[:32768 // len(piece) * len(piece)]
texts = {
    "program": fill("  IF COUNT :=: TOTAL THEN WRITE(HEX 1F, 'A', \"text of a message\", 12345) ELSE SKIP := 0 END; % note %\n"),
    "noted": fill("  IF COUNT :=: TOTAL THEN WRITE(HEX 1F, 'A', \"text of a message\", 12345) END; % " + "a note of a line, ".ljust(150, ".") + " %\n"),
    "names": fill("ALONGNAME_%07d " % 1234567),
    "spaces": " " * 32768,
    "comment": "%" + "x" * 32766 + "%",
    "one_name": "A" * 32768,
}
for name, text in texts.items():
    open(folder + "/" + name, "w").write(text)
P
for text in program noted names spaces comment one_name; do
    python3 - "$program" "$rounds" "$texts/$text" "$text" <<'P'
import subprocess, sys, time
program, rounds, path, name = sys.argv[1], int(sys.argv[2]), sys.argv[3], sys.argv[4]
def run(n):
    best = None
    for _ in range(5):
        with open(path) as text:
            start = time.perf_counter()
            out = subprocess.run([program, str(n)], stdin=text, stdout=subprocess.PIPE, check=True).stdout
            took = time.perf_counter() - start
        best = took if best is None or took < best else best
    return best, int(out)
base, _ = run(0)
took, items = run(rounds)
size = len(open(path).read())
print("%-9s %6d bytes %5d items  %8.1f us a cut  %6.1f ns a byte" % (name, size, items // rounds, (took - base) / rounds * 1e6, (took - base) / rounds * 1e9 / size))
P
done
