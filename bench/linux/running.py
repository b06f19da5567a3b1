"""Runs many scripts at once, each on a harness and a program of its own, and makes a script smaller that shows a difference."""

import os, selectors, subprocess, tempfile, time

from comparing import LINUX, PROGRAM, Difference, Pair, Tally

AT_ONCE = 8  # so many scripts are under way at once, so that none waits for the scheduler alone
SECONDS = 300  # a side that does not reply for so long hangs, on a machine with other work too


class Setting:
    """What the scripts run on: the two programs, and how Linux is set up."""

    def __init__(self, harness, program, size, has_completed):
        self.harness, self.program, self.size, self.has_completed = harness, program, size, has_completed

    def command(self, side, processors):
        if side == LINUX:
            return [self.harness, "--size", self.size, "--processors", str(processors)]
        return [self.program, "run"]


class Side:
    """One process, to which lines are written, and whose replies are read as they come."""

    def __init__(self, command):
        self.errors = tempfile.TemporaryFile()
        pipes = {"stdin": subprocess.PIPE, "stdout": subprocess.PIPE, "stderr": self.errors}
        self.process = subprocess.Popen(command, bufsize=0, env={}, **pipes)
        self.rest = b""

    def write(self, lines):
        self.process.stdin.write("".join(f"{line}\n" for line in lines).encode())

    def read(self):
        """Returns the lines that have come. None: the process has ended."""
        read = os.read(self.process.stdout.fileno(), 1 << 16)
        if not read:
            return None
        *lines, self.rest = (self.rest + read).split(b"\n")
        return [line.decode() for line in lines]

    def said(self):
        self.errors.seek(0)
        return self.errors.read().decode(errors="replace").strip()

    def close(self):
        self.process.kill()
        self.process.stdin.close()
        self.process.stdout.close()
        self.process.wait()
        self.errors.close()


class Session:
    """A script under way. Its `difference` is None where it ended without one."""

    def __init__(self, setting, tally, key, processors, lines):
        self.key, self.difference = key, None
        self.pair = Pair(setting.size, setting.has_completed, tally)
        self.sides = {side: Side(setting.command(side, processors)) for side in (LINUX, PROGRAM)}
        self.work = self.all_lines(lines(self.pair))
        self.asked = self.wanted = self.since = None
        self.replies = []

    def all_lines(self, lines):
        for line in lines:
            yield from self.pair.perform(line)

    def go_on(self, replies=None):
        """Lets the script go on to its next request. Returns whether there is one."""
        try:
            self.asked, lines = self.work.send(replies)
        except StopIteration:
            return False
        except Difference as difference:
            self.difference = str(difference)
            return False
        try:
            self.sides[self.asked].write(lines)
        except BrokenPipeError:
            pass  # what it said is read next
        self.wanted, self.replies, self.since = len(lines), [], time.monotonic()
        return True

    def hear(self, side):
        """Takes what has come from a side. Returns whether the script is still under way."""
        if side is not self.sides[self.asked]:
            return self.end(f"a side ends before it is asked: {side.said()}")
        lines = side.read()
        if lines is None:
            said = side.said()
            return self.end(f"{self.asked} ends before its reply{said and ': ' + said}")
        self.replies += lines
        return len(self.replies) < self.wanted or self.go_on(self.replies)

    def end(self, why):
        self.difference = why
        self.work.close()
        return False

    def close(self):
        for side in self.sides.values():
            side.close()


class Watch:
    """The sessions that are under way."""

    def __init__(self, selector):
        self.selector, self.sessions = selector, []

    def begin(self, session):
        """Returns whether the session is under way: one may end before its first request."""
        for side in session.sides.values():
            self.selector.register(side.process.stdout, selectors.EVENT_READ, (session, side))
        self.sessions.append(session)
        return session.go_on()

    def leave(self, session):
        for side in session.sides.values():
            self.selector.unregister(side.process.stdout)
        self.sessions.remove(session)
        session.close()
        return session

    def ended(self):
        """Waits until something has come, and returns the sessions that have ended by it."""
        heard = {}
        for key, _ in self.selector.select(timeout=1):
            session, side = key.data
            if session not in heard:
                heard[session] = session.hear(side)
        late = time.monotonic() - SECONDS
        for session in self.sessions:
            if session not in heard and session.since < late:
                heard[session] = session.end(f"{session.asked} doesn't reply")
        return [session for session, is_under_way in heard.items() if not is_under_way]


def run_all(sessions, at_once=AT_ONCE):
    """Runs the sessions that the iterator makes, some at once, and yields each that has ended."""
    sessions = iter(sessions)
    with selectors.DefaultSelector() as selector:
        watch = Watch(selector)
        try:
            while True:
                while len(watch.sessions) < at_once and (session := next(sessions, None)):
                    if not watch.begin(session):
                        yield watch.leave(session)
                if not watch.sessions:
                    return
                for session in watch.ended():
                    yield watch.leave(session)
        finally:
            for session in watch.sessions:
                session.close()


def run_one(setting, processors, lines):
    """Runs one script of these lines, and returns its session."""
    (session,) = run_all([Session(setting, Tally(), "", processors, lambda pair: iter(lines))])
    return session


def smaller(lines, shows, fewest=1):
    """Leaves lines out while the script still shows a difference. `shows` tells which of several scripts do."""
    part = max(1, len(lines) // 2)
    while True:
        cuts = [lines[:at] + lines[at + part :] for at in range(0, len(lines), part)]
        shown = shows([cut for cut in cuts if len(cut) >= fewest])
        if shown:
            lines = min(shown, key=len)
            part = min(part, max(1, len(lines) // 2))
        elif part == 1:
            return lines
        else:
            part = max(1, part // 2)
