#!/usr/bin/env python3
"""Runs each script of `examples/` by `solo`, whose transcript stands beside it, and many times by `run`, whose transcripts `check` must find legal.

    run_examples.py LAMBDAIO [TIMES]

The image of `keep.script` is written, and `again.script` runs on it. Where `solo` refuses a script, `run` must refuse it alike.
"""
import glob
import os
import subprocess
import sys
import tempfile


def main():
    program = os.path.realpath(sys.argv[1])
    times = int(sys.argv[2]) if len(sys.argv) > 2 else 20
    examples = os.path.dirname(os.path.dirname(os.path.realpath(__file__)))
    os.chdir(tempfile.mkdtemp(prefix="lambdaio-examples-"))

    def run(*words):
        return subprocess.run([program, *words], capture_output=True, text=True, timeout=120)

    kept = run("solo", "-", f"{examples}/keep.script", "kept")
    assert kept.returncode == 0, kept.stdout
    for script in sorted(glob.glob(f"{examples}/*.script")):
        name = os.path.basename(script)
        image = "kept" if name == "again.script" else "-"
        out = "new" if name in ["keep.script", "again.script"] else "-"
        alone = run("solo", image, script, out)
        assert alone.stdout == open(script[:-6] + "transcript").read(), f"{name}: {alone.stdout}"
        for time in range(times):
            for place in ["auto", "host", "drive"]:
                made = run("run", image, script, out, "--place", place, "--workers", str(1 + time % 8), "--flushers", str(time % 5))
                assert made.returncode == alone.returncode, f"{name}: {made.stdout}"
                if made.returncode == 0:
                    open("transcript", "w").write(made.stdout)
                    judged = run("check", image, script, "transcript")
                    calls = len(made.stdout.splitlines()) - 1
                    assert (judged.returncode, judged.stdout) == (0, f"legal {calls}\n"), f"{name}: {judged.stdout}{made.stdout}"
                else:
                    assert made.stdout == alone.stdout, f"{name}: {made.stdout}"
        print(f"{name}: status {alone.returncode}, {3 * times} runs of its lanes at once")


if __name__ == "__main__":
    main()
