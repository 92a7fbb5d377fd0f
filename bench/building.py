"""Proves and builds a small program over crates of this repository, in a temporary directory."""
import pathlib
import shutil
import subprocess

ROOT = pathlib.Path(__file__).resolve().parent.parent


def build(folder, name, used, *words):
    """Proves and builds bench/NAME.rt.txt in the folder, with the crates that it uses, and returns the program's path.

    rt runs the program once, with these words as its arguments and with an empty input.
    """
    lines = [line for line in (ROOT / "crates.txt").read_text().splitlines() if ":" in line and not line.startswith("#")]
    uses = {line.partition(":")[0]: line.partition(":")[2].split() for line in lines}
    wanted = set(used)
    while any(below not in wanted for it in wanted for below in uses[it] if below in uses):
        wanted |= {below for it in wanted for below in uses[it] if below in uses}
    crates = folder / "crates"
    for it in wanted:
        shutil.copytree(ROOT / "crates" / it, crates / it, ignore=shutil.ignore_patterns("must-fail", "wrong-bodies"))
    here = crates / f"{name}_bench"
    (here / "src").mkdir(parents=True)
    shutil.copyfile(ROOT / "bench" / f"{name}.rt.txt", here / "src" / "main.rt")
    kept = [line for line in lines if line.partition(":")[0] in wanted]
    (folder / "crates.txt").write_text("\n".join([*kept, f"{name}_bench: {' '.join(used)}", ""]))
    (folder / "HANDLES").write_text("Handles allowed: Processes.\n")
    done = subprocess.run(["rt", "run", "--", *words], cwd=here, stdin=subprocess.DEVNULL, capture_output=True, text=True)
    program = here / "out" / f"{name}_bench"
    if done.returncode or not program.exists():
        raise SystemExit(done.stdout + done.stderr)
    return program
