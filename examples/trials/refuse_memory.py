#!/usr/bin/env python3
"""Refuses each allocation of a run in turn, on a script of every kind of call over a small drive with dies of each kind.

    refuse_memory.py LAMBDAIO

Needs a C compiler. Each run must end with status 10 and leave OUT alone, or give a transcript that is `legal` by `check`, with `nomemory` where a
call found none, and an image that opens.
"""
import os
import subprocess
import sys
import tempfile

SCRIPT = "func lines\n  ldxdw r2, [r1+0]\n  ldxdw r3, [r1+8]\n  ldxdw r4, [r1+16]\n  add r3, r2\nnext:\n  jeq r2, r3, done\n  ldxb r5, [r2+0]\n" \
    "  add r2, 1\n  jne r5, 10, next\n  add r6, 1\n  ja next\ndone:\n  stxdw [r4+0], r6\n  mov r0, 8\n  exit\nend\n" \
    "a: create f\na: write f 100 fill:0a*9000\nb: append f text:end\nb: load lines func lines\na: readl f 0 9000 lines 60000 8 hex:\n" \
    "b: writel f 4000 300 lines 60000 hex: hex:0102\na: read f 0 50\na: trunc f 5000\nb: open f\nb: stat f\na: sync\nb: seal f\na: create g\n" \
    "a: remove g\nb: unload lines\nb: read f 4990 20\n"


def main():
    program = os.path.realpath(sys.argv[1])
    here = os.path.dirname(os.path.realpath(__file__))
    work = tempfile.mkdtemp(prefix="lambdaio-memory-")
    os.chdir(work)
    subprocess.run(["cc", "-O1", "-shared", "-fPIC", "-o", "refuse.so", f"{here}/refuse_memory.c", "-ldl"], check=True)
    open("script", "w").write(SCRIPT)

    def run(words, refused=0):
        extra = {"LD_PRELOAD": f"{work}/refuse.so", "REFUSE": str(refused)} if refused else {}
        return subprocess.run([program, *words], capture_output=True, text=True, env={**os.environ, **extra})

    run(["mkimage", "empty", "16", "2"])
    run(["solo", "empty", "script", "image"])
    for dies in ["mem", "ftl", "mirror"]:
        ends, number = {}, 0
        while True:
            number += 1
            if os.path.exists("out"):
                os.remove("out")
            made = run(["solo", "image", "script", "out", "--die", dies], number)
            if "refused" not in made.stderr:
                break
            if made.returncode == 10:
                end = "status 10"
                assert not os.path.exists("out"), f"{work}: {dies} {number}: OUT was written"
            else:
                assert made.returncode == 0, f"{work}: {dies} {number}: {made.returncode}"
                end = "nomemory" if " nomemory\n" in made.stdout else "no effect"
                open("transcript", "w").write(made.stdout)
                judged = run(["check", "image", "script", "transcript"])
                assert judged.stdout.startswith("legal "), f"{work}: {dies} {number}: {judged.stdout}"
                assert run(["check", "out", "script", "transcript"]).returncode in (0, 9), f"{work}: {dies} {number}: the image"
            ends[end] = ends.get(end, 0) + 1
        print(f"{dies}: {number - 1} allocations refused: {ends}")


if __name__ == "__main__":
    main()
