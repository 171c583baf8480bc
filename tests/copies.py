"""What edits.py and definitions.py share: a copy of the repository, and `rt ci` in it.

rt keeps on this machine what `rt ci` passes, by the checksums of all that it read, whichever folder it ran in. So a copy takes over the
proofs of a checkout in which `rt ci` passed, only what is new in the copy is proved or tried, and of that a later run repeats nothing."""
import os
import shutil
import subprocess

ROOT = os.path.dirname(os.path.dirname(os.path.abspath(__file__)))


def copy_to(folder):
    """The crates without their edits and without what rt made."""
    left_out = shutil.ignore_patterns("out", "must-fail", "more-edits")
    shutil.copytree(os.path.join(ROOT, "crates"), os.path.join(folder, "crates"), ignore=left_out)
    for name in ("crates.txt", "HANDLES"):
        if os.path.exists(os.path.join(ROOT, name)):
            shutil.copy(os.path.join(ROOT, name), folder)


def rt_ci(folder, names, said):
    """Runs `rt ci` with these names, passes each line to `said` as it comes, and returns the status and all lines."""
    lines = []
    with subprocess.Popen(["rt", "ci", *names], cwd=folder, stdout=subprocess.PIPE, stderr=subprocess.STDOUT, text=True, errors="replace") as run:
        for line in run.stdout:
            lines.append(line.rstrip("\n"))
            said(lines[-1])
    return run.returncode, lines
