"""Runs a script line by line on Linux's code and on the program, and compares the replies.

What differs by intent is translated here and counted (docs/linux.md); any other difference ends the script. A script has the
lines of `srcuctl run`, and `runall D`, which runs what is ready on each processor. The methods that speak with the two are
generators: they yield who is to run which lines, and are sent the replies (running.py)."""

import collections

LINUX, PROGRAM = "Linux", "srcuctl"
HALF = 2**63

# The differences that are intended, as they are counted.
AT_ONCE = "a period starts at once in Linux"
LATER_JOB = "a job runs later here"
LATER_BARRIER = "a barrier is done later here, with such a job"
TURN = "a barrier waits for its turn in Linux"
EIGHT = "a run takes more than one batch of eight here"
NO_COOKIE = "a number that is no cookie is refused here"
FAR = "a number that is far ahead counts as done in Linux"
COMPLETED = "the completed cookie is not known to Linux 6.1"
UNMET = "a cleanup with a need that is not met leaks in Linux"
PERIOD = "a cleanup in a period is refused here"
READY = "a cleanup with jobs that are ready is refused here, and Linux runs them"
SLOTS = "a change of a chain waits for a slot here"
FULL = "a sixteenth handler is refused here"

LOOK, SECTION, HELD = "look", "section", "held"


class Difference(Exception):
    """The replies to a line differ, and are not meant to."""


class Skipped(Exception):
    """The line can't be run here: what it names isn't there (any more)."""


class Jobs:
    """The jobs of a processor in their order, and how many of them each side took out and finished."""

    def __init__(self):
        self.names, self.cookies = [], []
        self.stayed = []  # whether the job had no number after its call
        self.taken = {LINUX: 0, PROGRAM: 0}
        self.finished = {LINUX: 0, PROGRAM: 0}
        self.batch_is_out = False
        self.unnumbered = 0  # how many have no number yet in the program's list

    def take(self, side, names):
        begin = self.taken[side]
        if self.names[begin : begin + len(names)] != names:
            raise Difference(f"{side} takes the jobs out of their order")
        self.taken[side] += len(names)

    def finish(self):
        self.finished = dict(self.taken)


class Ticket:
    def __init__(self, before, is_behind):
        self.before = before  # how many jobs each processor had
        self.is_behind = is_behind


class Domain:
    def __init__(self, name, processors):
        self.name, self.processors = name, processors
        self.number = self.need = self.need_of_start = 0
        self.names = {}  # of looks and sections: the kind, and the processor
        self.tickets = {}
        self.jobs = collections.defaultdict(Jobs)
        self.chain = set()
        self.cookies = []
        self.is_drained = False
        self.last_reply = ""

    def is_open(self):
        return any(kind != LOOK for kind, _ in self.names.values())

    def unfinished(self, side):
        return sum(len(jobs.names) - jobs.finished[side] for jobs in self.jobs.values())

    def are_ready(self):
        """Whether each job that waits in Linux is one that it may run at any time."""
        waiting = [cookie for jobs in self.jobs.values() for cookie in jobs.cookies[jobs.taken[LINUX] :]]
        is_out = any(jobs.batch_is_out for jobs in self.jobs.values())
        return not is_out and all(cookie <= self.number for cookie in waiting)

    def is_at_rest(self):
        has_jobs = self.unfinished(LINUX) or self.unfinished(PROGRAM)
        return self.number % 4 == 0 and self.need <= self.number and not (self.names or has_jobs or self.tickets_wait())

    def tickets_wait(self):
        return any(ticket.is_behind for ticket in self.tickets.values()) and not self.is_drained


def shape_of(words, reply):
    """What kind of line it was, and what it did: the reply without numbers and names."""
    parts = reply.split()
    if words[0] in ("poll", "barrier-poll"):
        return f"{words[0]}: {reply}"
    if parts[0] == "refused":
        return f"{words[0]}: refused {parts[2]}"
    if words[0] in ("run", "runall", "batch"):
        return f"{words[0]}: {'jobs' if len(parts) > 1 else 'none'}"
    if words[0] == "notify":
        return f"notify: {parts[0]}"
    if words[0] == "state":
        return f"state: {parts[4]}"
    return f"{words[0]}: {parts[0]}"


class Pair:
    """A script that is run on both sides: what is there, and what was compared."""

    def __init__(self, size, has_completed, tally):
        self.size, self.has_completed, self.tally = size, has_completed, tally
        self.domains = {}
        self.done = []  # the lines that were run, with both replies
        self.line = self.replies = None

    def count(self, difference, times=1):
        if times:
            self.tally.intended[difference] += times

    def domain_of(self, words):
        if words[1] not in self.domains:
            raise Skipped
        return self.domains[words[1]]

    def perform(self, line):
        """Runs a line on both sides. Returns whether it could be run."""
        words = line.split()
        self.line, self.replies = line, {LINUX: [], PROGRAM: []}
        is_run = True
        try:
            yield from getattr(self, "do_" + words[0].replace("-", "_"))(words)
        except Skipped:
            is_run = False
        finally:
            if is_run:
                self.done.append((line, self.replies))
        return is_run

    # The two sides.

    def ask_side(self, side, *lines):
        replies = yield side, lines
        self.replies[side] += zip(lines, replies)
        for reply in replies:
            self.check(" warned of " not in reply, "Linux warns")
        return replies if len(lines) > 1 else replies[0]

    def ask_linux(self, line):
        return self.ask_side(LINUX, line)

    def ask_program(self, *lines):
        return self.ask_side(PROGRAM, *lines)

    def compared(self, words, reply):
        self.tally.lines[shape_of(words, reply)] += 1

    def expect(self, linux, program):
        self.check(linux == program, f"{linux} in Linux is {program} here")

    def check(self, is_so, why):
        if not is_so:
            raise Difference(why)

    def check_replies(self, linux, program, *wanted):
        """Where the replies are meant to differ, each side has one of its own."""
        self.check((linux, program) == wanted, f"{linux} in Linux and {program} here are not {' and '.join(wanted)}")

    def both(self, words):
        """A line that both sides run alike. Returns the reply."""
        line = " ".join(words)
        linux = yield from self.ask_linux(line)
        program = yield from self.ask_program(line)
        self.expect(linux, program)
        self.compared(words, program)
        return program

    def processor(self, domain, word):
        if int(word) >= domain.processors:
            raise Skipped
        return int(word)

    def note_number(self, domain, reply):
        parts = reply.split()
        if parts[0] in ("started", "ended"):
            domain.number = int(parts[1])
        elif parts[0] == "flipped":
            domain.number += 1

    def begin_if_started(self, domain, processor, reply):
        """Where Linux has started a period at once, the program's engine takes the two steps to its start."""
        given, started, number = reply.partition(" started ")
        if started:
            first, second = yield from self.ask_program(*[f"step {domain.name} {processor}"] * 2)
            self.check((first, second) == ("step", f"started {number}"), f"the start of {number} is {first}, {second} here")
            self.note_number(domain, second)
            self.count(AT_ONCE)
        return given

    # Domains and sections.

    def do_domain(self, words):
        if words[1] in self.domains:
            raise Skipped
        yield from self.both(words)
        self.domains[words[1]] = Domain(words[1], int(words[2]))

    def do_state(self, words):
        domain = self.domain_of(words)
        linux = yield from self.ask_linux(" ".join(words))
        program = yield from self.ask_program(" ".join(words))
        rest, _, need = program.rpartition(" ")
        linux_rest, _, linux_need = linux.rpartition(" ")
        self.expect(linux_rest, rest)
        # A period of `start` is one that nobody asked for here, and in Linux one is asked for.
        wanted = max(int(need), domain.need_of_start)
        self.check(int(linux_need) == wanted, f"the need in Linux is {linux_need}, and not {wanted}")
        self.compared(words, program)

    def begin(self, words, kind):
        domain = self.domain_of(words)
        processor = self.processor(domain, words[2])
        if words[3] in domain.names:
            raise Skipped
        yield from self.both(words)
        domain.names[words[3]] = kind, processor

    def end(self, words, kind, name):
        domain = self.domain_of(words)
        if domain.names.get(name, ("",))[0] != kind:
            raise Skipped
        if kind == HELD:
            self.processor(domain, words[2])
        yield from self.both(words)
        del domain.names[name]

    def do_look(self, words):
        yield from self.begin(words, LOOK)

    def do_enter(self, words):
        domain = self.domain_of(words)
        processor = self.processor(domain, words[2])
        if domain.names.get(words[3], ("",))[0] != LOOK:
            raise Skipped
        yield from self.both(words)
        domain.names[words[3]] = SECTION, processor

    def do_lock(self, words):
        yield from self.begin(words, SECTION)

    def do_unlock(self, words):
        yield from self.end(words, SECTION, words[2])

    def do_down(self, words):
        yield from self.begin(words, HELD)

    def do_up(self, words):
        yield from self.end(words, HELD, words[3])

    # Cookies and periods.

    def do_get(self, words):
        domain = self.domain_of(words)
        reply = yield from self.both(words)
        domain.cookies.append(int(reply.split()[1]))

    def do_ask(self, words):
        domain = self.domain_of(words)
        processor = self.processor(domain, words[2])
        linux = yield from self.ask_linux(" ".join(words))
        program = yield from self.ask_program(" ".join(words))
        given = yield from self.begin_if_started(domain, processor, linux)
        self.expect(given, program)
        self.compared(words, program)
        self.asked(domain, program)

    def asked(self, domain, reply):
        cookie = int(reply.split()[-1])
        domain.cookies.append(cookie)
        domain.need = max(domain.need, cookie)
        domain.is_drained = False

    def do_poll(self, words):
        domain = self.domain_of(words)
        self.processor(domain, words[2])
        cookie = int(words[3])
        linux = yield from self.ask_linux(" ".join(words))
        program = yield from self.ask_program(" ".join(words))
        # As Linux compares: modulo 2^64, so that what is half of it ahead is behind.
        modular = "done" if (domain.number - cookie) % (2 * HALF) < HALF else "not yet"
        if cookie == 1 and not self.has_completed:
            self.check_replies(linux, program, modular, "done")
            if linux != program:
                self.count(COMPLETED)
        elif cookie % 4 and cookie != 1:
            self.check_replies(linux, program, modular, "refused poll not-a-cookie")
            self.count(NO_COOKIE)
        elif linux != program and (linux, program) == ("done", "not yet") and cookie - domain.number >= HALF:
            self.count(FAR)
        else:
            self.expect(linux, program)
        self.compared(words, program)

    def do_start(self, words):
        domain = self.domain_of(words)
        self.processor(domain, words[2])
        reply = yield from self.both(words)
        self.note_number(domain, reply)
        if reply.startswith("started"):
            domain.need_of_start = domain.number + 3
            domain.is_drained = False

    def do_step(self, words):
        domain = self.domain_of(words)
        self.processor(domain, words[2])
        line = " ".join(words)
        linux = yield from self.ask_linux(line)
        if linux.startswith("started"):  # the look at the need and the start are one step there, and two here
            first, program = yield from self.ask_program(line, line)
            self.check(first == "step", f"the look before {linux} is {first} here")
        else:
            program = yield from self.ask_program(line)
        self.expect(linux, program)
        self.compared(words, program)
        self.note_number(domain, program)
        domain.last_reply = program

    def do_advance(self, words):
        domain = self.domain_of(words)
        self.processor(domain, words[2])
        reply = yield from self.both(words)
        self.note_number(domain, reply)
        domain.last_reply = reply

    # Callbacks and barriers.

    def see_list(self, domain, processor, is_called=False):
        """Asks the program how many jobs of the processor have no number. Only a call can leave one without."""
        if not is_called and not domain.jobs[processor].unnumbered:
            return
        reply = yield from self.ask_program(f"segs {domain.name} {processor}")
        domain.jobs[processor].unnumbered = int(reply.split()[-1])

    def do_call(self, words):
        domain = self.domain_of(words)
        processor = self.processor(domain, words[2])
        jobs = domain.jobs[processor]
        linux = yield from self.ask_linux(" ".join(words))
        program = yield from self.ask_program(" ".join(words))
        given = yield from self.begin_if_started(domain, processor, linux)
        self.expect(given, program)
        self.compared(words, program)
        self.asked(domain, program)
        yield from self.see_list(domain, processor, is_called=True)
        jobs.names.append(words[3])
        jobs.cookies.append(domain.cookies[-1])
        jobs.stayed.append(jobs.unnumbered > 0)

    def run_here(self, domain, processor):
        """Lets the program run what is ready on a processor, in batches until one is empty. Returns the names."""
        jobs = domain.jobs[processor]
        waiting = len(jobs.names) - jobs.taken[PROGRAM]
        if not waiting:
            return []
        count = waiting // 8 + 2
        replies = yield from self.ask_program(*[f"run {domain.name} {processor}"] * count)
        batches = [reply.split() for reply in replies]
        self.check(all(batch[0] == "ran" for batch in batches), "a run is refused here")
        if sum(len(batch) > 1 for batch in batches) > 1:
            self.count(EIGHT)
        return [name for batch in batches for name in batch[1:]]

    def compare_list(self, jobs, before):
        """What Linux has run, and the program has not, has to be a job that had no number after its call."""
        here, there = jobs.taken[PROGRAM], jobs.taken[LINUX]
        self.check(here <= there, "a job runs earlier here")
        for i in range(here, there):
            self.check(jobs.stayed[i], f"the job {jobs.names[i]} runs later here")
        self.count(LATER_JOB, max(0, there - max(before, here)))
        jobs.finish()

    def do_run(self, words):
        domain = self.domain_of(words)
        processor = self.processor(domain, words[2])
        if self.size != "big":  # Linux has one list for all processors
            raise Skipped
        jobs = domain.jobs[processor]
        before = jobs.taken[LINUX]
        linux = yield from self.ask_linux(" ".join(words))
        if jobs.batch_is_out:
            program = yield from self.ask_program(" ".join(words))
            self.check_replies(linux, program, "ran", "refused run invoking")
            self.compared(words, program)
            return
        jobs.take(LINUX, linux.split()[1:])
        names = yield from self.run_here(domain, processor)
        jobs.take(PROGRAM, names)
        self.compared(words, linux)
        self.compare_list(jobs, before)
        yield from self.see_list(domain, processor)

    def do_runall(self, words):
        domain = self.domain_of(words)
        names = (yield from self.ask_linux(" ".join(words))).split()[1:]
        self.compared(words, " ".join(["ran", *names]))
        for processor, jobs in sorted(domain.jobs.items()):
            if jobs.batch_is_out:
                continue
            before = jobs.taken[LINUX]
            own = set(jobs.names)
            jobs.take(LINUX, [name for name in names if name in own])
            names = [name for name in names if name not in own]
            here = yield from self.run_here(domain, processor)
            jobs.take(PROGRAM, here)
            self.compare_list(jobs, before)
            yield from self.see_list(domain, processor)
        self.check(not names, f"Linux runs {' '.join(names)}")

    def do_batch(self, words):
        domain = self.domain_of(words)
        processor = self.processor(domain, words[2])
        jobs = domain.jobs[processor]
        waiting = jobs.stayed[min(jobs.taken.values()) :]
        if self.size != "big" or jobs.batch_is_out or any(waiting) or len(waiting) > 8:
            raise Skipped  # both sides have to take the same jobs, since both finish what they took
        reply = yield from self.both(words)
        names = reply.split()[1:]
        for side in (LINUX, PROGRAM):
            jobs.take(side, names)
        jobs.batch_is_out = bool(names)
        yield from self.see_list(domain, processor)

    def do_finish(self, words):
        domain = self.domain_of(words)
        processor = self.processor(domain, words[2])
        jobs = domain.jobs[processor]
        if not jobs.batch_is_out:
            raise Skipped
        yield from self.both(words)
        jobs.batch_is_out = False
        jobs.finish()

    def do_barrier(self, words):
        domain = self.domain_of(words)
        self.processor(domain, words[2])
        if words[3] in domain.tickets:
            raise Skipped
        linux = yield from self.ask_linux(" ".join(words))
        program = yield from self.ask_program(" ".join(words))
        self.expect(linux.removesuffix(" behind"), program)
        self.compared(words, program)
        domain.is_drained = False
        before = {processor: len(jobs.names) for processor, jobs in domain.jobs.items()}
        domain.tickets[words[3]] = Ticket(before, linux.endswith(" behind"))

    def do_barrier_poll(self, words):
        domain = self.domain_of(words)
        self.processor(domain, words[2])
        if words[3] not in domain.tickets:
            raise Skipped
        ticket = domain.tickets[words[3]]
        linux = yield from self.ask_linux(" ".join(words))
        program = yield from self.ask_program(" ".join(words))
        are_finished = {
            side: all(domain.jobs[processor].finished[side] >= count for processor, count in ticket.before.items())
            for side in (LINUX, PROGRAM)
        }
        may_wait = ticket.is_behind and not domain.is_drained
        self.check((program == "done") == are_finished[PROGRAM], "the ticket here says otherwise than the jobs")
        self.check(linux != "done" or are_finished[LINUX], "the barrier in Linux is over before its jobs")
        self.check(linux == "done" or may_wait or not are_finished[LINUX], "the barrier in Linux is not over after its jobs")
        if linux != program:
            self.count(TURN if linux == "not yet" else LATER_BARRIER)
        self.compared(words, program)

    def do_segs(self, words):
        """For an example: how jobs wait is not compared."""
        domain = self.domain_of(words)
        self.processor(domain, words[2])
        yield from self.ask_linux(" ".join(words))
        yield from self.ask_program(" ".join(words))

    def do_settled(self, words):
        """A line of ours alone: no job and no barrier may be late any more, on either side, where nothing is due or open."""
        domain = self.domain_of(words)
        if domain.names or domain.number % 4 or domain.need > domain.number:
            raise Skipped
        for side in (LINUX, PROGRAM):
            self.check(not domain.unfinished(side), f"{side} keeps jobs though nothing is due or open")
        domain.is_drained = True
        yield from ()

    # Taking down.

    def do_cleanup(self, words):
        domain = self.domain_of(words)
        is_at_rest, is_running = domain.is_at_rest(), domain.number % 4
        if self.size == "grow":
            self.tally.sizes[(yield from self.ask_linux(f"size {domain.name}"))] += 1
        linux = yield from self.ask_linux(" ".join(words))
        program = yield from self.ask_program(" ".join(words))
        del self.domains[domain.name]
        self.compared(words, program)
        outcome = " ".join(program.split()[:3] if program.startswith("refused") else program.split()[:1])
        if is_at_rest:
            self.check_replies(linux, outcome, "cleaned", "cleaned")
        elif domain.is_open():
            self.check_replies(linux, outcome, "leaked", "refused cleanup sections")
        elif is_running:
            self.check_replies("", outcome, "", "refused cleanup period")
            self.count(PERIOD)
        elif domain.unfinished(PROGRAM):
            may_run = domain.unfinished(LINUX) and domain.are_ready()
            wanted = linux if may_run or not domain.unfinished(LINUX) else "leaked"
            self.check_replies(linux, outcome, wanted, "refused cleanup callbacks")
            self.count(READY, may_run and linux == "cleaned")
        else:
            self.check_replies("", outcome, "", "cleaned")
            if linux == "leaked":
                self.count(UNMET)

    # Chains. Each change asks for a period here, so one is asked for in Linux too.

    def drive(self, domain, processor):
        """Carries periods on both sides until one has ended, or none gets on."""
        for _ in range(8):
            yield from self.do_advance(["advance", domain.name, str(processor)])
            if domain.last_reply.split()[0] in ("ended", "waiting", "idle"):
                return

    def change(self, words, done):
        """A change of the chain: first here, since it may have to wait for a slot."""
        domain = self.domain_of(words)
        processor = self.processor(domain, words[2])
        line = " ".join(words)
        program = yield from self.ask_program(line)
        for _ in range(3):
            if not program.endswith(" noslot"):
                break
            self.count(SLOTS)
            yield from self.drive(domain, processor)
            program = yield from self.ask_program(line)
        if program.endswith(" full"):
            self.count(FULL)
        if program.endswith((" noslot", " full")):
            return None
        linux = yield from self.ask_linux(line)
        self.expect(linux, program)
        self.compared(words, program)
        if program.startswith(done):
            reply = yield from self.ask_linux(f"ask {domain.name} {processor}")
            self.asked(domain, (yield from self.begin_if_started(domain, processor, reply)))
            return domain
        return None

    def do_register(self, words):
        domain = yield from self.change(words, "registered")
        if domain:
            domain.chain.add(words[3])

    def do_unregister(self, words):
        domain = yield from self.change(words, "unregistered")
        if domain:
            domain.chain.discard(words[3])

    def do_chain(self, words):
        self.processor(self.domain_of(words), words[2])
        yield from self.both(words)

    def do_notify(self, words):
        self.processor(self.domain_of(words), words[2])
        yield from self.both(words)


class Tally:
    """How many lines of which kind were compared, and which intended differences came how often."""

    def __init__(self):
        self.scripts = 0
        self.lines, self.intended = collections.Counter(), collections.Counter()
        self.sizes = collections.Counter()  # how far Linux's domains have grown when they are taken down
