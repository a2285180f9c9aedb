#!/bin/sh
# The stack that the program judge takes on the longest chains and the deepest nesting that a text can hold, in KB: the least limit (`ulimit -s`) with
# which it answers, nearly all of which is for making the work table; and what judging itself takes, by valgrind's samples after the table is made.
# Needs python3 and valgrind. Use, from the repository's folder, after `rt run` in crates/judge: bench/stack.sh
set -eu
python3 - <<'P'
import os, resource, subprocess, tempfile

PROGRAM = "crates/judge/out/judge"
DATA = "DATA D; INT N; ARRAY (3) INT A; ENDDATA; "

def inside(statement, before=DATA):
    return before + "PROC P (); " + statement + " ENDPROC"

def nested(depth, opening):
    return "N" if depth == 0 else "N + N NEV N LOR N LAND N * - " + opening + nested(depth - 1, opening) + ")"

def blocks(depth, opening, closing):
    return "N := N" if depth == 0 else opening + blocks(depth - 1, opening, closing) + closing

RECORD = "MODE R (REF R S, INT K); DATA D; R A := (A, 1); ENDDATA; "
CALLED = DATA + "PROC F (INT A, B) INT; RETURN (1) ENDPROC; "
TEXTS = [
    ("the empty text", ""),
    ("4,060 signs", inside("N := " + "- " * 4060 + "N")),
    ("2,030 operands", inside("N := " + " + ".join(["N"] * 2030))),
    ("2,020 components", inside("A" + ".S" * 2020 + ".K := 1", RECORD)),
    ("2,030 destinations", inside("N := " * 2030 + "1")),
    ("2,020 arguments", inside("F(" + ",".join(["N"] * 2020) + ")", CALLED)),
    ("2,030 values", "DATA D; ARRAY (2030) INT A := (" + ",".join(["1"] * 2030) + "); ENDDATA"),
    ("2,030 times REF ARRAY", "MODE M (" + "REF ARRAY " * 2030 + "INT A)"),
    ("1,000 comparisons", inside("IF " + " AND ".join(["N = 1"] * 1000) + " THEN END")),
    ("450 arms", inside("IF N = 1 THEN N := 1 " + "ELSEIF N = 1 THEN N := 1 " * 450 + "END")),
    ("4,060 dummy statements", inside(";" * 4060)),
    ("680 procedures", ";".join("PROC P%d (); ENDPROC" % k for k in range(680))),
    ("brackets 32 deep", inside("N := " + nested(32, "("))),
    ("subscripts 32 deep", inside("N := " + nested(32, "A("))),
    ("calls 32 deep", inside("N := " + nested(32, "F(1, "), CALLED)),
    ("BLOCK 32 deep", inside(blocks(32, "BLOCK INT X; ", " ENDBLOCK"))),
    ("IF 32 deep", inside(blocks(32, "IF N = 1 THEN ", " ELSE N := 2 END"))),
]

def answers(text, kilobytes):
    def limit():
        resource.setrlimit(resource.RLIMIT_STACK, (kilobytes * 1024, kilobytes * 1024))
    return subprocess.run([PROGRAM], input=text.encode(), stdout=subprocess.PIPE, stderr=subprocess.DEVNULL, preexec_fn=limit).returncode == 0

def judging(text):
    with tempfile.TemporaryDirectory() as folder:
        out = os.path.join(folder, "massif")
        subprocess.run(["valgrind", "--tool=massif", "--stacks=yes", "--max-snapshots=1000", "--max-stackframe=100000000", "--main-stacksize=67108864",
                        "--massif-out-file=" + out, PROGRAM], input=text.encode(), stdout=subprocess.DEVNULL, stderr=subprocess.DEVNULL, check=True)
        sizes = [int(line.split("=")[1]) for line in open(out) if line.startswith("mem_stacks_B=")]
    # the table has more than 1 MB, and nothing that judging does
    made = max(k for k, size in enumerate(sizes) if size > 1 << 20)
    return max(sizes[made + 1:], default=0) // 1024

for name, text in TEXTS:
    low, high = 0, 65536
    while high - low > 8:
        middle = (low + high) // 2
        low, high = (low, middle) if answers(text, middle) else (middle, high)
    print("%-24s %6d %6d" % (name, high, judging(text)))
P
