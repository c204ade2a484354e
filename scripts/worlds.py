"""Makes random scripts of mode world that a site can say, and what `txcache` replies to them: for scripts/boundary.py.

A site has up to eight transactions open here, of the actors 0 to 7, and one node. bindings/c/tests/play_site.c plays a script, in which `call N`
makes the first act of a call, each `go N` the next one, and any other line of that actor has the call end first; `rw! N` begins over the stamp of the
newest state, and `commit! N` is a commit in mid-call. It prints the lines of the world, each with its reply. An act of a call is as many lines
`step` as it makes requests, whose replies are left out, and the last one is `finish`, whose reply is what the call gave.

In the world the node takes events by lines `advance`: a site's node takes all of them as it commits, begins a transaction that reads, or keeps itself,
so they are put in here, and their replies left out. What a site does not say are the mark of the present among the pins, and the numbers of a
refusal; what the world does not say is the moment of a pin, which is that of the line that pinned it."""

import re
import subprocess

ACTORS = 8
# How many arguments each function has, of those that are computed; the last two are refused.
FUNCTIONS = {0: 1, 1: 1, 2: 2, 3: 0, 6: 2}
REFUSED = {4: 0, 5: 1}
MOMENTS = [0, 1, 100, 1000, 6000]
AGES = [0, 1, 500, 1500, 9000]
# A function of one that reads and of one that writes asks more often than a script's may, so that the player gives its call up; and one calls itself.
TOO_MANY_ASKS = """put 1 1 0 a
pin 1000
ro 0 1000 500 0
rw 1
call 0 f5(1)
go 0
call 1 f5(1)
go 1
put 1 1 0 b
go 0
commit! 0
ask 1 all 1
call 0 f4()
call 1 f4()
go 0
write 1 put 1 2 0 c
call 0 f0(1)
commit 0
commit 1
abort 1
"""


def change(rng):
    table = rng.choice([1, 1, 1, 1, 2, 15])
    if rng.random() < 0.3:
        return f"remove {table} {rng.randrange(4)}"
    return f"put {table} {rng.randrange(4)} {rng.randrange(3)} {''.join(rng.choice('abc0;,~!') for _ in range(rng.choice([1, 2, 4])))}"


def query(rng):
    table = rng.choice([1, 1, 1, 2])
    return rng.choice([f"by-id {table} {rng.randrange(4)}", f"by-group {table} {rng.randrange(3)}", f"all {table}",
                       f"range {table} {rng.randrange(4)} {rng.randrange(4)}"])


def call(rng, actor):
    functions = FUNCTIONS if rng.random() < 0.99 else REFUSED
    function = rng.choice(list(functions))
    return f"call {actor} f{function}({','.join(str(rng.randrange(4)) for _ in range(functions[function]))})"


def beginning(rng, actor, now):
    kind = rng.random()
    if kind < 0.3:
        return f"rw{'!' * (rng.random() < 0.3)} {actor}"
    return f"session {actor} {now} {rng.choice(AGES)}" if kind < 0.55 else f"ro {actor} {now} {rng.choice(AGES)} {rng.choice([0, 0, 0, 1])}"


def ending(rng, actor, is_writing):
    """The end of a transaction. The commit of one that writes may be refused, and then it is open still."""
    if rng.random() < 0.15:
        return [f"abort {actor}"]
    return [f"commit {actor}", f"abort {actor}"] if is_writing else [f"commit {actor}"]


def keepers(rng, now, has_unheld):
    """A line of the keeper. He keeps nothing while a state is read that nobody holds."""
    kind = rng.random()
    return change(rng) if kind < 0.6 or has_unheld and kind >= 0.8 else f"pin {now}" if kind < 0.8 else f"tidy {now} {rng.choice(AGES)}"


def acting(rng, actor, is_writing):
    kind = rng.random()
    if kind < 0.35:
        return [call(rng, actor)]
    if kind < 0.75:
        return [f"go {actor}"]
    if kind < 0.8 and not is_writing:
        return [f"commit! {actor}"]
    if kind < 0.9:
        return [rng.choice([f"ask {actor} {query(rng)}", f"write {actor} {change(rng)}"]) if is_writing else f"pins {actor}"]
    return ending(rng, actor, is_writing)


def script(rng):
    """Lines of the keeper and of up to eight actors, with a moment that goes on."""
    now, lines, begun, actors = 1000, ["put 1 0 0 a"], {}, rng.choice([1, 2, 3, 5, ACTORS])
    for _ in range(rng.randrange(20, 160)):
        now += rng.choice(MOMENTS) if rng.random() < 0.2 else 0
        actor = rng.randrange(actors)
        if rng.random() < 0.12:
            lines.append(keepers(rng, now, any(it.startswith("rw! ") for it in begun.values())))
        elif actor not in begun:
            begun[actor] = beginning(rng, actor, now)
            lines.append(begun[actor])
        else:
            lines += acting(rng, actor, begun[actor].startswith("rw"))
            if lines[-1].startswith(("commit ", "abort ")):
                del begun[actor]
    return lines


def plays(room, count, rng):
    """What is played, each a room for events, a capacity, a number of events whose tags are kept, an age of pins and a file. With the room 0 no
    event is stored."""
    found = []
    for number in range(count):
        file = f"{room}/world{number:05}"
        with open(file, "w", encoding="utf-8") as it:
            it.write(TOO_MANY_ASKS if number < 2 else "\n".join(script(rng)) + "\n")
        events = 4096 * number if number < 2 else rng.choice([0, 4096])
        found.append((events, rng.choice([1, 2, 3, 8, 65536]), rng.choice([1, 2, 4, 4096]), rng.choice([0, 500, 5000]), file))
    return found


class Told:
    """The lines for a world, each with the reply that a site had, or with None if the site has no reply of it."""

    def __init__(self, said):
        self.lines, self.newest, self.taken, self.steps = [], 0, 0, {}
        for line in said.splitlines():
            self.add(*line.partition("\t")[::2])

    def add(self, line, reply):
        word, _, rest = line.partition(" ")
        actor = rest.partition(" ")[0]
        if word in ("ro", "session", "tidy"):
            self.advance()
        if word == "finish" and actor in self.steps:
            # what the last request of the call came to
            self.lines[self.steps.pop(actor)] = (line, reply)
            return
        if word == "call":
            self.steps.pop(actor, None)
        if word == "step":
            self.steps[actor] = len(self.lines)
        self.lines.append((line, None if reply.startswith("?") else reply))
        stamp = re.fullmatch(r"at (\d+)", reply)
        self.newest = max(self.newest + (reply == "?pinned"), int(stamp[1]) if stamp else 0)
        if stamp and word != "pin":
            self.advance()

    def advance(self):
        """Has the node take the events that there are."""
        self.lines += [("advance 0", None)] * (self.newest - self.taken)
        self.taken = self.newest


def with_moments(lines, replies):
    """The replies of `txcache`, as a site says them: with the moments of pins, and without the numbers of refusals."""
    nows, moments = {}, {}
    for (line, _), reply in zip(lines, replies):
        word, rest = line.partition(" ")[::2]
        number, moment = (rest.split() + ["", ""])[:2]
        if word in ("ro", "session"):
            nows[number] = moment
        if word == "pin" or word == "step" and reply.startswith("pinned "):
            moments[reply.split()[1]] = number if word == "pin" else nows[number]
        if word == "pins":
            reply = " ".join(["pins", *(f"{it}@{moments[it]}" for it in reply.split()[1:] if it != "*")])
        yield re.sub(r"^refused K\d.*$", "refused", re.sub(r"^(refused B2) \d+$", r"\1", reply))


def unlike(program, play, said):
    """Where the replies of `txcache` to what a site said are others than the site's: the first such line, with both replies."""
    _, capacity, recent, renew, _ = play
    lines = Told(said).lines
    settings = f"capacity = {capacity}\nrecent = {recent}\nrenew_after = {renew}\nnodes = 1"
    ran = subprocess.run([program, "world", "--settings", settings], input="".join(f"{line}\n" for line, _ in lines), capture_output=True, text=True)
    replies = ran.stdout.splitlines()
    for (line, wanted), other in zip(lines, with_moments(lines, replies)):
        if wanted is not None and wanted != other:
            return f"{line}: the site {wanted}, txcache {other}"
    status = int("refused " in ran.stdout)
    return "" if len(replies) == len(lines) and ran.returncode == status else f"{len(lines)} lines, {len(replies)} replies, status {ran.returncode}"
