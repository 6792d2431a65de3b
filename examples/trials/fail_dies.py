#!/usr/bin/env python3
"""Fails each read and each write of a die in turn, in a run of every kind of call over a small drive with dies of each kind.

    fail_dies.py LAMBDAIO [COMMAND]

COMMAND is `solo`, the default, or `run`. Each run must end with status 0, or with status 6, `drivefault` and no OUT. Its transcript must be `legal`
by `check`, with one reply `fault` at most. An image that it writes must hold the files that the calls left: what a second run reads from it must be
a legal end of the same transcript. Ahead of these come runs of `solo` whose transcripts are known: each read for a function, and each write of a last
sync, fails in turn.
"""
import os
import subprocess
import sys
import tempfile

BLOCK = "func lines\n  ldxdw r2, [r1+0]\n  ldxdw r3, [r1+8]\n  ldxdw r4, [r1+16]\n  add r3, r2\nnext:\n  jeq r2, r3, done\n  ldxb r5, [r2+0]\n" \
    "  add r2, 1\n  jne r5, 10, next\n  add r6, 1\n  ja next\ndone:\n  stxdw [r4+0], r6\n  mov r0, 8\n  exit\nend\n"
FIRST = "a: create old\na: write old 0 fill:0a*9000\n"
SCRIPT = BLOCK + "a: load lines func lines\nb: await a.1\nb: readl old 0 9000 lines 60000 8 hex:\na: create f\na: write f 100 fill:0a*9000\n" \
    "a: write old 4000 text:new\nb: append old text:end\na: sync\nb: writel old 4000 300 lines 60000 hex: hex:0102\na: read old 0 50\n" \
    "a: trunc f 5000\nb: seal old\na: create g\na: append g text:g\na: remove f\nb: unload lines\nb: read old 8990 20\n"
LAST = "".join(f"z: stat {name}\nz: read {name} 0 20000\n" for name in ["old", "f", "g"])


def known(run):
    """Runs whose transcripts are known, one for each read of a function's input and for each write of a last sync."""
    open("writes", "w").write("a: create log\n" + "".join(f"a: write log {i * 262144} fill:0a*262144\n" for i in range(4)))
    run("solo", "-", "writes", "log")
    counting = BLOCK + "a: load lines func lines\n" + 2 * "a: readl log 0 262144 lines 2000000 8 hex:\n"
    for number in range(1, 65):
        open("script", "w").write(f"fault die 0 read {number}\n" + counting)
        made = run("solo", "log", "script", "-")
        told = "#1 a.1 ok\n#2 a.2 fault\n#3 a.3 res 0000040000000000\nplaces host=0 drive=2 reads=65 writes=0\n"
        assert (made.returncode, made.stdout) == (0, told), f"read {number}: {made.stdout}"
    for number in range(1, 137):
        open("script", "w").write(f"fault die 0 write {number}\na: create f\na: write f 0 text:x\n")
        made = run("solo", "-", "script", "new")
        told = f"#1 a.1 id 1\n#2 a.2 ok\nplaces host=0 drive=0 reads=0 writes={min(number, 135)}\n"
        end = (6, told + "drivefault\n") if number < 136 else (0, told)
        assert (made.returncode, made.stdout) == end, f"write {number}: {made.stdout}"
        assert os.path.exists("new") == (number == 136), f"write {number}: OUT"
    print("64 reads and 135 writes failed, each with its transcript")


def main():
    program = os.path.realpath(sys.argv[1])
    command = sys.argv[2] if len(sys.argv) > 2 else "solo"
    work = tempfile.mkdtemp(prefix="lambdaio-dies-")
    os.chdir(work)

    def run(*words):
        return subprocess.run([program, *words], capture_output=True, text=True)

    def judge(at, text, lines):
        """`check` of these lines of calls, as the transcript of a script over the image."""
        open("calls", "w").write(text)
        open("transcript", "w").write("".join(lines) + "places host=0 drive=0 reads=0 writes=0\n")
        judged = run("check", "image", "calls", "transcript")
        assert judged.stdout == f"legal {len(lines)}\n", f"{work}: {at}: {judged.stdout}"

    def attempt(at, fault, dies):
        """One run with a `fault` line or none: what its failure came to, and its reads and writes."""
        open("script", "w").write(fault + SCRIPT)
        if os.path.exists("out"):
            os.remove("out")
        made = run(command, "image", "script", "out", "--die", dies)
        lines = made.stdout.splitlines(keepends=True)
        if made.returncode == 6:
            assert lines.pop() == "drivefault\n" and not os.path.exists("out"), f"{work}: {at}: {made.stdout[-80:]}"
        else:
            assert made.returncode == 0, f"{work}: {at}: {made.returncode} {made.stdout[-80:]}"
        counts = dict(word.split("=") for word in lines.pop().split()[1:])
        failed = sum(line.endswith(" fault\n") for line in lines)
        assert failed <= (fault != ""), f"{work}: {at}: {failed} faults"
        judge(at, SCRIPT, lines)
        if made.returncode == 0:
            told = run("solo", "out", "last", "-").stdout.splitlines(keepends=True)[:-1]
            ends = [f"#{len(lines) + k} {line.split(' ', 1)[1]}" for k, line in enumerate(told, 1)]
            judge(at, SCRIPT + LAST, lines + ends)
        return "drivefault" if made.returncode == 6 else "fault" if failed else "none", int(counts["reads"]), int(counts["writes"])

    known(run)
    open("first", "w").write(FIRST)
    open("last", "w").write(LAST)
    run("mkimage", "empty", "16", "2")
    run("solo", "empty", "first", "image")
    pages = os.path.getsize("image") // 4096
    for dies in ["mem", "ftl", "mirror"]:
        _, reads, writes = attempt(dies, "", dies)
        for copy in ["die", "copy"] if dies == "mirror" else ["die"]:
            for what, most in [("read", reads + pages), ("write", writes)]:
                ends = {}
                for die in range(2):
                    for number in range(1, most + 1):
                        end, _, _ = attempt(f"{dies} {copy} {die} {what} {number}", f"fault {copy} {die} {what} {number}\n", dies)
                        ends[end] = ends.get(end, 0) + 1
                print(f"{dies}: 2 times {most} {what}s of a {copy} failed, all legal: {ends}")


if __name__ == "__main__":
    main()
