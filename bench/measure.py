"""What the programs of this folder have in common: how a run of a program is measured."""
import re
import shutil
import subprocess
import sys
import time
from pathlib import Path

ROOT = Path(__file__).resolve().parent.parent


def best_of_ten(program, words, folder):
    best = None
    for _ in range(10):
        begun = time.perf_counter()
        done = subprocess.run([program, *words], cwd=folder, stdout=subprocess.DEVNULL)
        spent = time.perf_counter() - begun
        if done.returncode != 0:
            sys.exit(f"bench: status {done.returncode}")
        best = spent if best is None else min(best, spent)
    return best


def peak(program, words, folder):
    code = ("import resource, subprocess, sys; subprocess.run(sys.argv[1:], stdout=subprocess.DEVNULL); "
            "print(resource.getrusage(resource.RUSAGE_CHILDREN).ru_maxrss)")
    done = subprocess.run([sys.executable, "-c", code, program, *words], cwd=folder, capture_output=True, text=True)
    return int(done.stdout)


def instructions(program, words, folder):
    if not shutil.which("valgrind"):
        return None
    done = subprocess.run(["valgrind", "--tool=callgrind", "--callgrind-out-file=/dev/null", program, *words],
                          cwd=folder, stdout=subprocess.DEVNULL, stderr=subprocess.PIPE, text=True)
    found = re.search(r"Collected : (\d+)", done.stderr)
    return int(found[1]) if found else None


def row(name, program, words, folder, before):
    wall = best_of_ten(program, words, folder)
    memory = peak(program, words, folder)
    count = instructions(program, words, folder)
    factor = f"{count / before:8.2f}" if count and before else " " * 8
    shown = f"{count / 1e6:10.1f}" if count else " " * 10
    print(f"{name:34}{wall * 1000:9.1f}{memory / 1024:9.1f}{shown}{factor}", flush=True)
    return count


def built(crate):
    """The program that the crate is, which the first use proves and builds."""
    program = ROOT / "crates" / crate / "out" / crate
    if not program.exists() and subprocess.run([ROOT / "tools/build", crate]).returncode:
        sys.exit(1)
    return program


def program_of(words):
    """The program that the words name, or the one built here."""
    return str(Path(words[1]).resolve() if len(words) > 1 else built("mh"))


def heading():
    print(f"{'input':34}{'ms':>9}{'MB':>9}{'M instr.':>10}{'factor':>8}")
