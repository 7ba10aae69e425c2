"""Runs of the built program, for the scripts of this folder: with a bound in time, and under limits."""
import contextlib
import os
import pathlib
import resource
import signal
import subprocess
import sys

TOP = pathlib.Path(__file__).resolve().parent.parent
# A run that takes longer hangs. AFX_LIMIT is for slow machines and slow builds.
LIMIT = int(os.environ.get("AFX_LIMIT", "60"))


def built_program():
    """The built program itself: limits and preloaded code of the script ./afx say nothing."""
    named = os.path.abspath(os.environ.get("AFX", str(TOP / "afx")))
    with open(named, "rb") as file:
        is_script = file.read(2) == b"#!"
    built = TOP / "crates" / "afx" / "out" / "afx"
    if not is_script or "AFX_AS_IT_IS" in os.environ:
        return named
    # The script builds the program where there is none.
    subprocess.run([named, "--version"], stdout=subprocess.DEVNULL, check=True)
    return str(built)


class Ended:
    """How a run ended. The status is that of a shell: 128 more than the number of a signal; None for a hang."""

    def __init__(self, status, out, err):
        self.status, self.out, self.err = status, out, err

    def is_bad(self):
        """A signal, or a hang."""
        return self.status is None or self.status >= 125 or self.status < 0

    def key(self):
        return self.status, self.out, self.err

    def __str__(self):
        status = "hangs" if self.status is None else f"status {self.status}"
        return f"{status}, output {shown(self.out)}, error {shown(self.err)}"


def shown(text):
    """Some of a text, for a message."""
    return repr(text) if len(text) <= 160 else f"{text[:80]!r}..{text[-40:]!r} ({len(text)} bytes)"


def limits_of(stack, memory, file_size, processes):
    """What a process does before it becomes the program: it sets its limits."""
    wanted = {resource.RLIMIT_STACK: stack, resource.RLIMIT_AS: memory, resource.RLIMIT_FSIZE: file_size,
              resource.RLIMIT_NPROC: processes}

    def limit():
        for name, value in wanted.items():
            if value is not None:
                resource.setrlimit(name, (value, value))
    return limit if any(value is not None for value in wanted.values()) else None


def run(program, words, stdin=b"", room=None, stdout=subprocess.PIPE, stack=None, memory=None, file_size=None,
        processes=None, limit=None, environment=None, keeps_signals=True, user=None):
    """Runs the program with these words, and waits for its end."""
    setting = dict(cwd=room, stdout=stdout, stderr=subprocess.PIPE, env=environment, restore_signals=keeps_signals,
                   preexec_fn=limits_of(stack, memory, file_size, processes), **(user or {}))
    try:
        done = subprocess.run([program, *map(os.fspath, words)], input=stdin, timeout=limit or LIMIT, **setting)
    except subprocess.TimeoutExpired:
        return Ended(None, b"", b"")
    status = done.returncode if done.returncode >= 0 else 128 - done.returncode
    return Ended(status, done.stdout or b"", done.stderr)


def start(program, words, **more):
    """Starts the program without waiting for it."""
    return subprocess.Popen([program, *map(os.fspath, words)], stdout=subprocess.PIPE, stderr=subprocess.PIPE, **more)


def finish(process, limit=None):
    """Waits for the end of a program that was started."""
    try:
        out, err = process.communicate(timeout=limit or LIMIT)
    except subprocess.TimeoutExpired:
        process.kill()
        process.communicate()
        return Ended(None, b"", b"")
    return Ended(process.returncode if process.returncode >= 0 else 128 - process.returncode, out, err)


class Fast:
    """Runs of one program, thousands of them: their output goes to files, and nothing else is set."""

    def __init__(self, program, room, limit=LIMIT):
        self.program, self.room, self.limit = program, room, limit
        self.outs = [os.path.join(room, name) for name in (".out", ".err")]
        signal.signal(signal.SIGALRM, self.over)
        self.child, self.hangs = None, False

    def over(self, _number, _frame):
        self.hangs = True
        # (the run may have ended in this moment)
        with contextlib.suppress(ProcessLookupError):
            if self.child:
                os.kill(self.child, signal.SIGKILL)

    def run(self, words, environment, stdin=os.devnull):
        new = os.O_WRONLY | os.O_CREAT | os.O_TRUNC
        actions = [(os.POSIX_SPAWN_OPEN, 0, stdin, os.O_RDONLY, 0)]
        actions += [(os.POSIX_SPAWN_OPEN, at, name, new, 0o644) for at, name in zip((1, 2), self.outs)]
        self.child, self.hangs = None, False
        self.child = os.posix_spawn(self.program, [self.program, *words], environment, file_actions=actions)
        signal.setitimer(signal.ITIMER_REAL, self.limit)
        _, ended = os.waitpid(self.child, 0)
        signal.setitimer(signal.ITIMER_REAL, 0)
        self.child = None
        status = os.waitstatus_to_exitcode(ended)
        out, err = (pathlib.Path(name).read_bytes() for name in self.outs)
        return Ended(None if self.hangs else status if status >= 0 else 128 - status, out, err)


class Counts:
    """What passed and what failed, with the lines of the failures."""

    def __init__(self, most=40):
        self.passed, self.failed, self.open, self.most = 0, 0, 0, most

    def judge(self, name, fault):
        """Counts one test: `fault` is what was wrong, or nothing."""
        if fault:
            self.failed += 1
            if self.failed <= self.most:
                print(f"{name}: {fault}", flush=True)
        else:
            self.passed += 1

    def close(self):
        """The last line, and the status of the script."""
        print(f"{self.passed} passed, {self.failed} failed", flush=True)
        return 1 if self.failed else 0


def fail(line):
    """Ends a script that can't begin."""
    print(line, file=sys.stderr)
    sys.exit(2)
