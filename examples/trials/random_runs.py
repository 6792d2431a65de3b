#!/usr/bin/env python3
"""Runs random scripts over drives of every kind, with `fault` lines and without, and judges each run from outside.

    random_runs.py LAMBDAIO [RUNS [SEED]]

Each run takes the image of an earlier one or `-`, options at random, and perhaps an image to write. Its transcript must be `legal` by `check`,
no reply may be `fault` without a `fault` line, and an image that was written must open again with its four files. Prints how many runs ended with each status, and stops at the first run that breaks a rule, keeping its script.
"""
import os
import random
import subprocess
import sys
import tempfile

BLOCK = "func lines\n  ldxdw r2, [r1+0]\n  ldxdw r3, [r1+8]\n  ldxdw r4, [r1+16]\n  add r3, r2\nnext:\n  jeq r2, r3, done\n  ldxb r5, [r2+0]\n" \
    "  add r2, 1\n  jne r5, 10, next\n  add r6, 1\n  ja next\ndone:\n  stxdw [r4+0], r6\n  mov r0, 8\n  exit\nend\n"
LANES = "abcd"


def call(rng, name):
    """A call on a file, of every kind."""
    off, length = rng.randrange(70000), rng.randrange(9000)
    return rng.choice([
        f"write {name} {off} fill:{rng.randrange(256):02x}*{length}",
        f"append {name} fill:{rng.randrange(256):02x}*{length}",
        f"read {name} {off} {length}",
        f"readl {name} {off} {length} lines {rng.choice([50, 60000])} 8 hex:",
        f"writel {name} {off} {length} lines 60000 hex: hex:0a0b",
        f"trunc {name} {off}", f"stat {name}", f"create {name}", "sync",
    ])


def script(rng, mirror):
    """A script of up to 700 lines, with `fault` lines in half of all cases."""
    faults = []
    for _ in range(rng.choice([0, 0, 1, 4])):
        die = "copy" if mirror and rng.random() < 0.4 else "die"
        faults.append(f"fault {die} 0 {rng.choice(['read', 'write'])} {rng.randrange(1, 400)}\n")
    lines = [f"{lane}: create f{i}\n" for i, lane in enumerate(LANES)] + ["a: load lines func lines\n"]
    for _ in range(rng.choice([20, 200, 700])):
        lines.append(f"{rng.choice(LANES)}: {call(rng, f'f{rng.randrange(4)}')}\n")
    return "".join(faults) + BLOCK + "".join(lines), bool(faults)


def main():
    program = os.path.realpath(sys.argv[1])
    runs = int(sys.argv[2]) if len(sys.argv) > 2 else 200
    rng = random.Random(int(sys.argv[3]) if len(sys.argv) > 3 else 1)
    work = tempfile.mkdtemp(prefix="lambdaio-runs-")
    os.chdir(work)

    def run(*words):
        return subprocess.run([program, *words], capture_output=True, text=True)

    open("lengths", "w").write("".join(f"a: stat f{i}\n" for i in range(4)))
    ends, image = {}, "-"
    for number in range(runs):
        dies = rng.choice(["mem", "ftl", "mirror"])
        text, faulty = script(rng, dies == "mirror")
        open("script", "w").write(text)
        before = rng.choice(["-", image])
        out = rng.choice(["-", "new"])
        made = run("solo", before, "script", out, "--die", dies, "--place", rng.choice(["auto", "host", "drive"]))
        ends[made.returncode] = ends.get(made.returncode, 0) + 1
        lines = made.stdout.splitlines(keepends=True)
        if made.returncode == 6:
            assert faulty and lines.pop() == "drivefault\n", f"{work}: run {number}"
        else:
            assert made.returncode == 0, f"{work}: run {number}: {made.stdout[-80:]}"
        assert faulty or not any(line.endswith(" fault\n") for line in lines), f"{work}: run {number}: fault"
        # `check` knows no second copies: without the lines it judges the same calls
        open("calls", "w").write("".join(l for l in text.splitlines(keepends=True) if not l.startswith("fault ")))
        open("transcript", "w").write("".join(lines))
        judged = run("check", before, "calls", "transcript")
        assert judged.stdout.startswith("legal "), f"{work}: run {number}: {judged.stdout}"
        if out == "new" and made.returncode == 0:
            told = run("solo", "new", "lengths", "-").stdout.splitlines()
            assert len(told) == 5 and all(" len " in line for line in told[:4]), f"{work}: run {number}: {told}"
            os.replace("new", "image")
            image = "image"
    print(f"{runs} runs, all legal; by status {ends}")


if __name__ == "__main__":
    main()
