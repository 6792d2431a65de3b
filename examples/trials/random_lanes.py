#!/usr/bin/env python3
"""Runs random scripts of many lanes at once by `run`, with dies of each kind, with `fault` lines and without, and judges each run from outside.

    random_lanes.py LAMBDAIO [RUNS [SEED]]

Each run has 1 to 32 lanes over a few files, 1 to 8 workers and 0 to 4 flushers, and takes the image of an earlier run or `-`. Its transcript must be
`legal` by `check`; without a `fault` line no reply may be `fault`. The calls in the printed order, made again by `solo` as one lane, must have the same
replies, and the image of `run` must hold the files that `solo` leaves. No run may take longer than two minutes. Prints how many runs ended with each
status, and the longest run by its lanes; stops at the first run that breaks a rule, keeping its script.
"""
import os
import random
import subprocess
import sys
import tempfile
import time

LINES = "func lines\n  ldxdw r2, [r1+0]\n  ldxdw r3, [r1+8]\n  ldxdw r4, [r1+16]\n  add r3, r2\nnext:\n  jeq r2, r3, done\n  ldxb r5, [r2+0]\n" \
    "  add r2, 1\n  jne r5, 10, next\n  add r6, 1\n  ja next\ndone:\n  stxdw [r4+0], r6\n  mov r0, 8\n  exit\nend\n"
FILL = "func fill\n  ldxdw r3, [r1+8]\n  ldxdw r2, [r1+16]\n  add r3, r2\nnext:\n  jeq r2, r3, done\n  stb [r2+0], 10\n  add r2, 1\n  ja next\n" \
    "done:\n  mov r0, 7\n  exit\nend\n"
FILES = [f"f{i}" for i in range(6)]


def call(rng, most):
    """A call on one of the files, of every kind."""
    name, off, length = rng.choice(FILES), rng.randrange(60000), rng.randrange(most)
    return rng.choice([
        f"write {name} {off} fill:{rng.randrange(256):02x}*{length}",
        f"append {name} fill:{rng.randrange(256):02x}*{length}",
        f"read {name} {off} {length}",
        f"readl {name} {off} {length} lines {rng.choice([50, 60000])} 8 hex:",
        f"writel {name} {off} {length} fill {rng.choice([50, 60000])} hex: hex:0a0b",
        f"trunc {name} {off}", f"stat {name}", f"create {name}", "sync", f"open {name}", f"remove {name}",
        "load lines func lines", "unload lines", "load fill func fill", f"seal {name}",
    ])


def script(rng, lanes, mirror):
    """`fault` lines, the rest of a script of so many lanes, and the calls of each lane."""
    faults = []
    for _ in range(rng.choice([0, 0, 1, 4])):
        die = "copy" if mirror and rng.random() < 0.4 else "die"
        faults.append(f"fault {die} 0 {rng.choice(['read', 'write'])} {rng.randrange(1, 400)}\n")
    names = [f"l{i}" for i in range(lanes)]
    calls = {name: [] for name in names}
    lines = []
    for text in ["load lines func lines", "load fill func fill"] + [f"create {name}" for name in FILES]:
        lines.append(f"l0: {text}\n")
        calls["l0"].append(text)
    made = len(calls["l0"])
    most = rng.choice([10, 9000, 30000])
    for _ in range(rng.choice([20, 200, 600])):
        lane, other = rng.choice(names), rng.choice(names)
        if not calls[lane]:
            lines.append(f"{lane}: await l0.{made}\n")
        elif other != lane and calls[other] and rng.random() < 0.1:
            lines.append(f"{lane}: await {other}.{rng.randrange(len(calls[other])) + 1}\n")
        text = call(rng, most)
        lines.append(f"{lane}: {text}\n")
        calls[lane].append(text)
    return "".join(faults), LINES + FILL + "".join(lines), calls


def main():
    program = os.path.realpath(sys.argv[1])
    runs = int(sys.argv[2]) if len(sys.argv) > 2 else 200
    rng = random.Random(int(sys.argv[3]) if len(sys.argv) > 3 else 1)
    work = tempfile.mkdtemp(prefix="lambdaio-lanes-")
    os.chdir(work)

    def run(*words):
        return subprocess.run([program, *words], capture_output=True, text=True, timeout=120)

    def replies(lines):
        """Lane, call and reply of each line of a transcript but the last."""
        return [(lane, int(k), reply) for lane, k, reply in ((*line.split(" ", 2)[1].split("."), line.rstrip("\n").split(" ", 2)[2]) for line in lines)]

    open("told", "w").write("".join(f"a: stat {name}\na: read {name} 0 262144\na: append {name} hex:\na: write {name} 0 hex:\n" for name in FILES) + "a: create next\n")
    ends, slowest, image = {}, {}, "-"
    for number in range(runs):
        dies, lanes = rng.choice(["mem", "ftl", "mirror"]), rng.choice([1, 2, 4, 8, 16, 32])
        faults, text, calls = script(rng, lanes, dies == "mirror")
        open("script", "w").write(faults + text)
        before, at = rng.choice(["-", image]), f"{work}: run {number}"
        began = time.monotonic()
        made = run("run", before, "script", "new", "--die", dies, "--place", rng.choice(["auto", "host", "drive"]),
                   "--workers", str(rng.randint(1, 8)), "--flushers", str(rng.randint(0, 4)))
        slowest[lanes] = max(slowest.get(lanes, 0.0), time.monotonic() - began)
        ends[made.returncode] = ends.get(made.returncode, 0) + 1
        lines = made.stdout.splitlines(keepends=True)
        if made.returncode == 6:
            assert faults and lines.pop() == "drivefault\n" and not os.path.exists("new"), at
        else:
            assert made.returncode == 0, f"{at}: {made.returncode} {made.stdout[-80:]}"
        open("calls", "w").write(text)
        open("transcript", "w").write("".join(lines))
        judged = run("check", before, "calls", "transcript")
        assert judged.stdout == f"legal {len(lines) - 1}\n", f"{at}: {judged.stdout}"
        order = replies(lines[:-1])
        assert faults or not any(reply == "fault" for _, _, reply in order), f"{at}: fault"
        # What failed left no trace, so the other calls in the printed order are the whole history
        served = [(calls[lane][k - 1], reply) for lane, k, reply in order if reply not in ("fault", "nomemory")]
        open("again", "w").write(LINES + FILL + "".join(f"a: {text}\n" for text, _ in served))
        again = run("solo", before, "again", "plain")
        assert again.returncode == 0, f"{at}: {again.stdout[-80:]}"
        assert [reply for _, reply in served] == [reply for _, _, reply in replies(again.stdout.splitlines(keepends=True)[:-1])], at
        if made.returncode == 0:
            assert run("solo", "new", "told", "-").stdout == run("solo", "plain", "told", "-").stdout, f"{at}: other files"
            os.replace("new", "image")
            image = "image"
    print(f"{runs} runs, all legal; by status {ends}; longest run by lanes: {({n: round(slowest[n], 2) for n in sorted(slowest)})}")


if __name__ == "__main__":
    main()
