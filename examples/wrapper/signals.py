#!/usr/bin/env python3
"""Sends signals to share/configure while a compiler runs, and looks at what ends, how, and what is left. It also runs the script on a pseudo
terminal.

    signals.py SHELL SCRIPT

A small script takes acrun's place. It starts a compiler of half a minute, and waits for it. The last line says how many rows there were,
and the exit status is 1 if one is wrong.
"""
import contextlib
import os
import pathlib
import pty
import signal
import subprocess
import sys
import tempfile
import time

ACRUN = """#!/bin/sh
# With `read`, it prints what it reads, and with `shows` it writes what it is asked to show. Otherwise it runs a compiler, whose time is a file.
# With `slow`, it has something to do before TERM ends it.
if [ -f read ]; then cat; exit 7; fi
if [ -f slow ]; then trap 'sleep 1; : > conftest2.c; exit 3' TERM; fi
if [ -f shows ]; then printf '%s' "${ACRUN_PROGRESS-unset}" > shows; exit 0; fi
echo $$ > acrun.pid
: > conftest1.o
sh -c 'echo $$ > compiler.new; mv compiler.new compiler.pid; exec sleep "$(cat seconds)"' < /dev/null
echo ended
"""
# Sends TERM to bash before it keeps the number of acrun's process.
EARLY = """trap 'case $BASH_COMMAND in acrun_job=?!) kill -s TERM "$$" ;; esac' DEBUG
set -o functrace
"""
NO_ENV = "#!/bin/sh\nexit 125\n"
# What is ended takes less than this, in seconds, and the compiler takes more.
SOON, LONG = 10, 30


def is_there(pid):
    """Whether a process runs."""
    with contextlib.suppress(OSError):
        return pathlib.Path(f"/proc/{pid}/stat").read_text().rpartition(")")[2].split()[0] not in "ZX"
    return False


def until(true, seconds=SOON):
    """Waits until something is true, and returns whether it is."""
    end = time.monotonic() + seconds
    while not true() and time.monotonic() < end:
        time.sleep(0.02)
    return bool(true())


class Trial:
    def __init__(self, shell, script, room):
        self.shell, self.room, self.rows, self.is_right = shell, room, 0, True
        (room / "configure").write_bytes(script.read_bytes())
        (room / "bin=1").mkdir()
        self.acrun = room / "bin=1" / "acrun"
        self.write(self.acrun, ACRUN)

    def write(self, file, text):
        file.write_text(text)
        file.chmod(0o755)

    def look(self, what, expected, found):
        self.rows += 1
        if found != expected:
            self.is_right = False
            print(f"{self.shell}: {what}\n  is       {found}\n  expected {expected}", flush=True)

    def begin(self, seconds, **more):
        """Starts the script, and returns it when the compiler runs."""
        for name in ("acrun.pid", "compiler.pid"):
            (self.room / name).unlink(missing_ok=True)
        (self.room / "seconds").write_text(str(seconds))
        run = subprocess.Popen([self.shell, "./configure"], cwd=self.room, stdin=subprocess.DEVNULL, stdout=subprocess.PIPE, stderr=subprocess.DEVNULL,
                               env=self.environment(),
                               start_new_session=True, **more)
        self.wait_for_compiler()
        return run

    def environment(self):
        kept = {name: value for name, value in os.environ.items() if not name.startswith(("ACRUN", "MAKEFLAGS", "DEB_"))}
        return kept | {"ACRUN": str(self.acrun)}

    def wait_for_compiler(self):
        if not until((self.room / "compiler.pid").exists, 60):
            raise SystemExit(f"{self.shell}: no compiler was started")

    def left(self):
        """What is still there, after some time if it has to end."""
        names = ("acrun", "compiler")
        pids = {name: (self.room / f"{name}.pid").read_text().strip() for name in names}
        until(lambda: not any(is_there(pid) for pid in pids.values()), 2)
        running = [name for name in names if is_there(pids[name])]
        for name in running:
            with contextlib.suppress(OSError):
                os.kill(int(pids[name]), signal.SIGKILL)
        return running + [file.name for file in self.room.glob("conftest*")]

    def alone(self, name):
        """A signal to the script alone."""
        run = self.begin(LONG)
        began = time.monotonic()
        os.kill(run.pid, getattr(signal, name))
        until(lambda: run.poll() is not None)
        took = time.monotonic() - began
        left = self.left()
        run.kill()
        found = run.wait(), took < SOON, left
        self.look(f"{name} to the script alone: its status, whether soon, what is left", (-getattr(signal, name), True, []), found)
        self.look(f"{name} to the script alone: what was printed", b"", run.communicate()[0])

    def slow(self):
        """The script ends when acrun has ended, also if that takes a while after a signal."""
        (self.room / "slow").touch()
        run = self.begin(LONG)
        os.kill(run.pid, signal.SIGTERM)
        until(lambda: run.poll() is not None)
        running = is_there((self.room / "acrun.pid").read_text().strip())
        left = self.left()
        run.kill()
        self.look("TERM to the script, and acrun ends later: its status, whether acrun runs, what is left", (-signal.SIGTERM, False, []), (run.wait(), running, left))
        run.communicate()
        (self.room / "slow").unlink()

    def early(self):
        """A signal that comes before the script knows the number of acrun's process is sent to acrun then. Only bash can be stopped there."""
        if not pathlib.Path(self.shell).name.startswith("bash"):
            return
        (self.room / "acrun.pid").unlink(missing_ok=True)
        (self.room / "seconds").write_text(str(LONG))
        self.write(self.room / "early", EARLY)
        streams = dict.fromkeys(("stdin", "stdout", "stderr"), subprocess.DEVNULL)
        run = subprocess.Popen([self.shell, "./configure"], cwd=self.room, env=self.environment() | {"BASH_ENV": "./early"}, start_new_session=True, **streams)
        until(lambda: run.poll() is not None)
        status = run.poll()
        with contextlib.suppress(OSError):
            os.killpg(run.pid, signal.SIGKILL)
        run.wait()
        left = [file.name for file in self.room.glob("conftest*")]
        self.look("TERM before the number of acrun is known: its status, what is left", (-signal.SIGTERM, []), (status, left))

    def terminal(self, key, name):
        """A key at the terminal, which sends a signal to all of its foreground group."""
        for file in ("acrun.pid", "compiler.pid"):
            (self.room / file).unlink(missing_ok=True)
        (self.room / "seconds").write_text(str(LONG))
        pid, terminal = pty.fork()
        if pid == 0:
            os.chdir(self.room)
            os.execvpe(self.shell, [self.shell, "./configure"], self.environment())
        self.wait_for_compiler()
        os.write(terminal, key)
        ended = []
        until(lambda: ended or ended.extend(it for it in [os.waitpid(pid, os.WNOHANG)] if it[0]))
        left = self.left()
        if not ended:
            os.kill(pid, signal.SIGKILL)
            ended.append(os.waitpid(pid, 0))
        os.close(terminal)
        # bash ignores QUIT, and ends as it does for a child that a signal ended.
        status = ended[0][1]
        found = os.WTERMSIG(status) if os.WIFSIGNALED(status) else os.WEXITSTATUS(status) - 128
        if name == "SIGQUIT":
            left = [it for it in left if not it.startswith("conftest")]
        self.look(f"{name} of a terminal: the signal that ended the script, what is left", (getattr(signal, name), []), (found, left))

    def ignored(self):
        """A signal that is ignored as the script starts, as below a job in the background, is ignored below it too."""
        run = self.begin(1, preexec_fn=lambda: [signal.signal(it, signal.SIG_IGN) for it in (signal.SIGINT, signal.SIGQUIT)])
        os.killpg(run.pid, signal.SIGINT)
        os.killpg(run.pid, signal.SIGQUIT)
        self.look("INT and QUIT, if the script was started without them", (b"ended\n", 0), (run.communicate()[0], run.returncode))

    def stdin(self):
        """Standard input is that of the script, and may be closed."""
        (self.room / "read").touch()
        words = [self.shell, "./configure"]
        run = subprocess.run(words, cwd=self.room, input=b"a\nb", capture_output=True, env=self.environment())
        self.look("standard input reaches the run", (b"a\nb", b"", 7), (run.stdout, run.stderr, run.returncode))
        run = subprocess.run(["sh", "-c", 'exec "$0" ./configure <&-', self.shell], cwd=self.room, capture_output=True, env=self.environment())
        self.look("standard input may be closed", (b"", 7), (run.stdout, run.returncode))
        (self.room / "read").unlink()

    def progress(self):
        """A line for each child is asked for, unless standard error is a terminal or the environment has ACRUN_PROGRESS."""
        for terminals, given, expected in (
            ([], {}, "lines"),
            (["stdin"], {}, "lines"),
            (["stdout"], {}, "lines"),
            (["stdin", "stdout"], {}, "lines"),
            (["stderr"], {}, "unset"),
            (["stdin", "stdout", "stderr"], {}, "unset"),
            (["stderr"], {"ACRUN_PROGRESS": "lines"}, "lines"),
            (["stderr"], {"ACRUN_PROGRESS": ""}, ""),
        ):
            (self.room / "shows").write_text("not started")
            ours, terminal = pty.openpty()
            streams = dict.fromkeys(("stdin", "stdout", "stderr"), subprocess.DEVNULL) | dict.fromkeys(terminals, terminal)
            subprocess.run([self.shell, "./configure"], cwd=self.room, env=self.environment() | given, **streams)
            os.close(terminal)
            os.close(ours)
            self.look(f"ACRUN_PROGRESS with {', '.join(terminals) or 'nothing'} on a terminal, given {given}", expected, (self.room / "shows").read_text())
        (self.room / "shows").unlink()

    def without_env(self):
        """An env that can't give signals back: the run is in the foreground."""
        self.write(self.room / "bin=1" / "env", NO_ENV)
        path = os.environ["PATH"]
        os.environ["PATH"] = f"{self.room}/bin=1:{path}"
        run = self.begin(2)
        os.kill(run.pid, signal.SIGTERM)
        self.look("TERM, if env can't give signals back", (b"ended\n", -signal.SIGTERM), (run.communicate()[0], run.returncode))
        self.terminal(b"\x03", "SIGINT")
        (self.room / "read").touch()
        run = subprocess.run([self.shell, "./configure"], cwd=self.room, input=b"a", capture_output=True, env=self.environment())
        self.look("standard input and the status, if env can't give signals back", (b"a", 7), (run.stdout, run.returncode))
        (self.room / "read").unlink()
        os.environ["PATH"] = path


def main():
    shell, script = sys.argv[1], pathlib.Path(sys.argv[2])
    with tempfile.TemporaryDirectory() as name:
        trial = Trial(shell, script, pathlib.Path(name))
        for signal_name in ("SIGTERM", "SIGHUP", "SIGINT"):
            trial.alone(signal_name)
        trial.slow()
        trial.early()
        trial.terminal(b"\x03", "SIGINT")
        trial.terminal(b"\x1c", "SIGQUIT")
        trial.ignored()
        trial.stdin()
        trial.progress()
        trial.without_env()
    print(f"wrapper: {trial.rows} rows of signals and terminals, by {shell}{'' if trial.is_right else ': not as they should be'}")
    return 0 if trial.is_right else 1


sys.exit(main())
