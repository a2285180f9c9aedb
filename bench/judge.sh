#!/bin/sh
# Times judging over texts of growing size: the program judge_table on many lines of one text. The time for as many lines of as many
# spaces is taken off where it is shown as `net`, so that reading the lines does not count there.
# Use, from the repository's folder, after `rt run` in crates/judge_table: bench/judge.sh [LINES]
set -eu
lines=${1:-200}
python3 - "$lines" <<'P'
import subprocess, sys, time

program, lines = "crates/judge_table/out/judge_table", int(sys.argv[1])

PROCEDURE = """PROC MOVE_THE_GATE_%d (INT WANTED_POSITION, REF GATE GATE_AT_HAND) INT;
  INT PRESENT_POSITION := GATE_AT_HAND.POSITION, STEP_TO_TAKE := WANTED_POSITION - PRESENT_POSITION;
  IF ABS STEP_TO_TAKE > HOUSE_LIMITS(2) THEN STEP_TO_TAKE := HOUSE_LIMITS(2) END;
  WHILE PRESENT_POSITION # WANTED_POSITION AND STEP_TO_TAKE # 0 DO
    PRESENT_POSITION := PRESENT_POSITION + STEP_TO_TAKE; %% one step nearer to where it is wanted; the last one is as long as is left, and a gate that stands where it is wanted takes none %%
    GATE_AT_HAND.POSITION := PRESENT_POSITION; SAY("g")
  REP;
  RETURN (PRESENT_POSITION)
ENDPROC;
"""
HEAD = """EXT PROC (BYTE) OUTBYTE;
MODE GATE (INT POSITION, BYTE NUMBER);
DATA HOUSE; ARRAY (4) INT HOUSE_LIMITS := (0, 25, 1200, 7); GATE MIDDLE := (600, 9); ENDDATA;
PROC SAY (REF ARRAY BYTE TEXT); INT PLACE := 1; TO LENGTH TEXT DO OUTBYTE(TEXT(PLACE)); PLACE := PLACE + 1 REP ENDPROC;
"""

def ordinary(size):
    text, n = HEAD, 0
    while len(text) + len(PROCEDURE % n) <= size:
        text, n = text + PROCEDURE % n, n + 1
    return text

def declared(size):
    text, n = "DATA D; INT A0", 1
    while len(text) + len(",A%d" % n) + 9 <= size and n < 2020:
        text, n = text + ",A%d" % n, n + 1
    return text + "; ENDDATA"

def used(size):
    names, n = "DATA D; INT A0", 1
    while len(names) * 2 + 60 <= size and n < 900:
        names, n = names + ",A%d" % n, n + 1
    text = names + "; ENDDATA; PROC P (); A0 := 0"
    k = 0
    while len(text) + len(";A%d:=A%d" % (k, k)) + 8 <= size and k < 500:
        text, k = text + ";A%d:=A%d" % (k, n - 1 - k % n), k + 1
    return text + " ENDPROC"

def once(text):
    line = "1 " + text.replace("\\", "\\\\").replace("\n", "\\n") + "\n"
    data, least = (line * lines).encode(), None
    for _ in range(9):
        start = time.perf_counter()
        out = subprocess.run([program], input=data, stdout=subprocess.PIPE, check=True).stdout
        took = (time.perf_counter() - start) / lines
        least = took if least is None or took < least else least
    return least, out.decode().split("\n")[0]

for name, make in (("ordinary", ordinary), ("declared", declared), ("used", used)):
    for size in (1024, 4096, 16384, 32768) if name == "ordinary" else (1024, 4096, 16384):
        text = make(size)
        took, verdict = once(text)
        read, _ = once(" " * len(text))
        print("%-9s %6d bytes  %7.3f ms  net %7.3f ms  %s" % (name, len(text), took * 1e3, (took - read) * 1e3, verdict))
P
