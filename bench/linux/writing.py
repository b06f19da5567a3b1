"""Writes random scripts line by line, guided by what is there and what was replied, so that most lines do something."""

import random

from comparing import HELD, LOOK, PROGRAM, SECTION

LINES = 70  # of a script, before its end

# How often each kind of line is tried. A script stresses some of them, so that scripts differ from each other.
WEIGHTS = {
    "look": 4,
    "enter": 5,
    "lock": 5,
    "unlock": 9,
    "down": 4,
    "up": 8,
    "get": 2,
    "ask": 5,
    "poll": 6,
    "start": 1,
    "step": 16,
    "advance": 12,
    "state": 4,
    "call": 10,
    "run": 6,
    "runall": 3,
    "batch": 6,
    "finish": 4,
    "barrier": 3,
    "barrier-poll": 4,
    "register": 4,
    "unregister": 2,
    "chain": 2,
    "notify": 4,
}
STRESSES = [
    (),
    ("look", "enter", "lock", "unlock", "down", "up", "step"),
    ("look", "enter", "unlock", "advance"),
    ("call", "run", "advance"),
    ("call", "advance", "unlock", "up"),
    ("call", "batch", "finish", "barrier", "barrier-poll", "run"),
    ("ask", "poll", "get", "start", "advance"),
    ("register", "unregister", "chain", "notify"),
]
SIZES = [1, 1, 2, 2, 3, 4, 5, 6, 8, 15, 16, 17, 31, 33, 48, 63, 64]
ODD_COOKIES = [1, 1, 2, 3, 5, 7, 2**63 - 1, 2**63, 2**63 + 8, 2**64 - 4, 2**64 - 1]
PRIORITIES = [-5, -1, 0, 0, 0, 5, 5, 9, -(2**31), 2**31 - 1]
ANSWERS = ["done", "ok", "ok", "stop", "bad"]


class Writer:
    """One script: the seed and the replies decide all of it."""

    def __init__(self, seed, size):
        self.random = random.Random(seed)
        count = self.random.choice([1, 1, 1, 2, 2, 3])
        self.sizes = [self.random.choice(SIZES) for _ in range(count)]
        if self.random.random() < 0.03:
            self.sizes[0] = 256
        self.machine = max(self.sizes)
        if self.machine < 200 and self.random.random() < 0.2:
            self.machine += self.random.randrange(1, 40)  # the machine may have more processors than any domain
        self.used = {}  # the processors of each domain that its lines are about
        self.names = 0
        self.crowd = self.random.choice([0, 1, 1, 2, 4])  # so many sections are open, or a few more
        self.weights = dict(WEIGHTS)
        for kind in self.random.choice(STRESSES):
            self.weights[kind] *= 4
        self.count = LINES
        if size == "grow":  # a domain has grown after eight periods
            self.count, self.crowd = 2 * LINES, min(self.crowd, 1)
            self.weights["advance"] *= 3

    def lines(self, pair):
        for at, size in enumerate(self.sizes):
            yield self.domain("abc"[at], size)
        kinds, weights = list(self.weights), list(self.weights.values())
        for _ in range(self.count):
            domain = self.random.choice(list(pair.domains.values()))
            for _ in range(20):
                kind = self.random.choices(kinds, weights)[0]
                line = self.line(kind, domain, pair)
                if line:
                    yield line
                    break
        for domain in list(pair.domains.values()):
            yield from self.end(domain, pair)

    def domain(self, name, size):
        count = min(size, self.random.choice([1, 2, 3, 3, 4, 6]))
        self.used[name] = sorted(self.random.sample(range(size), count))
        if self.random.random() < 0.5:
            self.used[name][-1] = size - 1
        return f"domain {name} {size}"

    def processor(self, domain):
        return self.random.choice(self.used[domain.name])

    def name(self, first):
        self.names += 1
        return f"{first}{self.names}"

    def named(self, domain, kind):
        names = [name for name, (its, _) in domain.names.items() if its == kind]
        return self.random.choice(names) if names else None

    def line(self, kind, domain, pair):
        """A line of this kind, or None where none would do anything."""
        words = getattr(self, "write_" + kind.replace("-", "_"), self.write_plain)(domain, pair)
        return None if words is None else " ".join([kind, domain.name, *map(str, words)])

    def write_plain(self, domain, pair):
        return [self.processor(domain)]

    def write_state(self, domain, pair):
        return []

    # Sections: a few at a time, so that periods end.

    def begin(self, domain, first):
        if len(domain.names) > self.crowd and self.random.random() < 0.8:
            return None
        return [self.processor(domain), self.name(first)]

    def write_look(self, domain, pair):
        return self.begin(domain, "r")

    def write_lock(self, domain, pair):
        return self.begin(domain, "s")

    def write_down(self, domain, pair):
        return self.begin(domain, "h")

    def write_enter(self, domain, pair):
        name = self.named(domain, LOOK)
        if name is None:
            return None
        own = domain.names[name][1]
        return [own if self.random.random() < 0.5 else self.processor(domain), name]

    def write_unlock(self, domain, pair):
        name = self.named(domain, SECTION)
        return name and [name]

    def write_up(self, domain, pair):
        name = self.named(domain, HELD)
        return name and [self.processor(domain), name]

    # Periods and cookies.

    def is_due(self, domain):
        return domain.number % 4 or domain.need > domain.number

    def write_step(self, domain, pair):
        if domain.processors > 8 and self.random.random() < 0.8:
            return None  # a scan of many processors takes more steps than a script has
        return self.write_advance(domain, pair)

    def write_advance(self, domain, pair):
        return [self.processor(domain)] if self.is_due(domain) or self.random.random() < 0.05 else None

    def write_start(self, domain, pair):
        return [self.processor(domain)] if domain.number % 4 == 0 or self.random.random() < 0.2 else None

    def write_poll(self, domain, pair):
        if self.random.random() < 0.06:
            return [self.processor(domain), self.random.choice(ODD_COOKIES)]
        if not domain.cookies:
            return None
        latest = 4 if self.random.random() < 0.5 else 12
        return [self.processor(domain), self.random.choice(domain.cookies[-latest:])]

    # Callbacks.

    def waiting(self, domain):
        """Processors with jobs that were not taken, mostly such as have one that is ready."""
        waiting = {at: jobs for at, jobs in domain.jobs.items() if jobs.taken[PROGRAM] < len(jobs.names)}
        if self.random.random() < 0.1:
            return list(waiting)
        return [at for at, jobs in waiting.items() if jobs.cookies[jobs.taken[PROGRAM]] <= domain.number]

    def write_call(self, domain, pair):
        return [self.processor(domain), self.name("j")]

    def write_run(self, domain, pair):
        waiting = self.waiting(domain)
        if pair.size != "big" or not waiting:
            return None
        return [self.random.choice(waiting)]

    def write_runall(self, domain, pair):
        often = 1 if pair.size != "big" else 0.3
        return [] if self.random.random() < often and self.waiting(domain) else None

    def write_batch(self, domain, pair):
        processors = [at for at in self.waiting(domain) if not domain.jobs[at].batch_is_out]
        if pair.size != "big" or not processors:
            return None
        return [self.random.choice(processors)]

    def write_finish(self, domain, pair):
        processors = [at for at, jobs in domain.jobs.items() if jobs.batch_is_out]
        return [self.random.choice(processors)] if processors else None

    def write_barrier(self, domain, pair):
        return [self.processor(domain), self.name("b")]

    def write_barrier_poll(self, domain, pair):
        if not domain.tickets:
            return None
        return [self.processor(domain), self.random.choice(list(domain.tickets)[-4:])]

    # Chains.

    def handler(self, domain):
        return self.random.randrange(4 if self.random.random() < 0.6 else 16)

    def write_register(self, domain, pair):
        return [self.processor(domain), self.handler(domain), self.random.choice(PRIORITIES)]

    def write_unregister(self, domain, pair):
        if domain.chain and self.random.random() < 0.8:
            return [self.processor(domain), self.random.choice(sorted(domain.chain))]
        return [self.processor(domain), self.handler(domain)]

    def write_notify(self, domain, pair):
        ids = sorted(domain.chain) or ["0"]
        named = [at for at in ids if self.random.random() < 0.6]
        return [self.processor(domain), *(f"{at}:{self.random.choice(ANSWERS)}" for at in named)]

    # The end of a domain: most are brought to rest, where nothing may be late any more; the others go as they are.

    def end(self, domain, pair):
        if self.random.random() < 0.8:
            yield from self.drain(domain)
        if self.random.random() < 0.9:
            yield f"cleanup {domain.name}"

    def drain(self, domain):
        processor = self.processor(domain)
        for name in [name for name, (kind, _) in domain.names.items() if kind == LOOK]:
            yield f"enter {domain.name} {processor} {name}"
        for name, (kind, _) in list(domain.names.items()):
            yield f"unlock {domain.name} {name}" if kind == SECTION else f"up {domain.name} {processor} {name}"
        for at in [at for at, jobs in domain.jobs.items() if jobs.batch_is_out]:
            yield f"finish {domain.name} {at}"
        domain.last_reply = ""
        for _ in range(30):
            if domain.last_reply == "idle":
                break
            yield f"advance {domain.name} {processor}"
        yield f"runall {domain.name}"
        yield f"runall {domain.name}"
        yield f"settled {domain.name}"
        for ticket in list(domain.tickets):
            yield f"barrier-poll {domain.name} {processor} {ticket}"
        yield f"state {domain.name}"
