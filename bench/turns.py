"""A script's machine in plain Python, by docs/FORMATS.md, docs/MODEL.md and the specs of lwkt_plain, and all orders of its turns; for
bench/claims.

A state is bytes, so that equal states are equal bytes. Lanes and queues have no limits here, for the scripts are too small to meet them,
messages no priority, and threads no variables, conditions and loops.
"""
import marshal

LAST_GENERATION, LAST_ROUND, LOG, PORTS = 2**46 - 1, 2**51 - 1, 32, 16


class Refused(Exception):
    """A step is refused, with this number."""


def need(holds, number):
    if not holds:
        raise Refused(number)


def obeys(law, param, row):
    *cells, record = row
    return {"sum": sum(cells) == param, "order": cells == sorted(cells), "cap": all(cell <= param for cell in cells),
            "len": record is not None and cells[:1] == [len(record) // 2]}.get(law, True)


def at_rest(number):
    return {"at": "rest", "round": number, "to": 0, "flags": 0, "sync": False, "aborted": False, "op": 0, "arg": 0, "error": 0,
            "result": 0, "hands": None}


def is_over(thread):
    return thread["phase"] in ("exited", "faulted 19", "faulted 20", "faulted 42")


class Machine:
    """Takes turns, one at a time: c is their processor, k the thread that is looked at, and t that thread."""

    def __init__(self, script):
        self.cpus = range(script["cpus"])
        self.laws = [(token["law"], token["param"]) for token in script["tokens"]]
        self.origins = [message["of"] for message in script["messages"]]
        of_cpu = [[thread for thread in script["threads"] if thread["cpu"] == c] for c in self.cpus]
        self.programs = [[thread["steps"] * thread["repeat"] for thread in threads] for threads in of_cpu]
        self.services = [[thread.get("service", False) for thread in threads] for threads in of_cpu]
        nothing = [0 for _ in self.cpus]
        self.tokens = [{"gen": token["gen"], "mark": 0, "alone": 0, "held": nothing, "added": nothing,
                        "row": token["cells"] + [token.get("record")], "first": token["cells"] + [token.get("record")]}
                       for token in script["tokens"]]
        self.letters = [at_rest(message["round"]) for message in script["messages"]]
        self.threads = [[{"phase": "live", "list": [], "log": [], "made": 0, "answer": "", "busy": None} for _ in threads]
                        for threads in of_cpu]
        self.runs, self.cursors = [None for _ in self.cpus], nothing
        self.lanes = [[[] for _ in self.cpus] for _ in self.cpus]
        self.ports = [[[] for _ in range(PORTS)] for _ in self.cpus]
        self.opening = self.saved()

    def saved(self):
        """The state, without the words that refused a list and can't matter any more."""
        for threads in self.threads:
            for t in threads:
                if t["busy"] and (t["busy"][0] == 0 or self.word(t["list"][t["busy"][0]][0])[0] != t["busy"][1][0]):
                    t["busy"] = None
        # (version 2 of the format tells nothing of which parts are the same object)
        return marshal.dumps([self.tokens, self.letters, self.threads, self.runs, self.cursors, self.lanes, self.ports], 2)

    def load(self, state):
        self.tokens, self.letters, self.threads, self.runs, self.cursors, self.lanes, self.ports = marshal.loads(state)

    def look_at(self, c, k):
        self.c, self.k, self.t = c, k, self.threads[c][k]

    # Tokens.

    def word(self, token):
        token = self.tokens[token]
        return [token["gen"], token["alone"], token["mark"], sum(token["held"])]

    def first(self, token):
        """The mode of the thread's first reference to a token, or None."""
        return next((mode for other, mode in self.t["list"] if other == token), None)

    def missed(self, refs, front, token, mode):
        """The word that refuses a reference of a list while those in front are held, `worn`, or None."""
        state = self.tokens[token]
        if any(other == token for other, _ in front):
            return None
        if mode == "x":
            return "worn" if state["gen"] == LAST_GENERATION else self.word(token) if any(state["held"]) else None
        is_alone = all(other == token for other, _ in refs)
        return self.word(token) if state["alone"] or (state["mark"] and is_alone) else None

    def take(self, token, mode):
        state = self.tokens[token]
        state["held"][self.c] += 1
        if mode == "x" and state["held"][self.c] == 1:
            state["alone"], state["mark"] = 1, 0

    def give(self, token):
        """Gives a reference back; says whether that ended a section that had broken its law."""
        state = self.tokens[token]
        state["held"][self.c] -= 1
        if not state["alone"] or state["held"][self.c]:
            return False
        is_broken = not obeys(*self.laws[token], state["row"])
        if is_broken:
            state["row"] = list(state["first"])
        if state["row"] != state["first"]:
            state["gen"] += 1
            state["first"] = list(state["row"])
        state["alone"] = 0
        return is_broken

    def leave(self, count, phase):
        """The thread gives up its first references, the last of them first, and isn't running any more."""
        broken = [self.give(token) for token, _ in reversed(self.t["list"][:count])]
        self.runs[self.c] = None
        self.become("faulted 19" if any(broken) else phase)
        return ""

    def become(self, phase):
        self.t.update(phase=phase, answer="")
        if is_over(self.t):
            self.t.update(list=[], busy=None)
            for letter in self.letters:
                if self.is_shown(letter):
                    letter["hands"] = -41

    def get(self, token, mode, is_try=False):
        refs = self.t["list"]
        need(token < len(self.tokens), 16)
        need(len(refs) < 32, 10)
        need(mode == "s" or self.first(token) != "s", 11)
        why = self.missed(refs + [[token, mode]], refs, token, mode)
        need(why != "worn", 20)
        need(why is None or not is_try, 23)
        refs.append([token, mode])
        if why is None:
            self.take(token, mode)
            return ""
        if mode == "x":
            self.tokens[token]["mark"] = 1
        return self.leave(len(refs) - 1, "live")

    def ask_get(self, token):
        return self.get(token, "x")

    def ask_gets(self, token):
        return self.get(token, "s")

    def ask_try(self, token):
        return self.get(token, "x", True)

    def ask_rel(self, token):
        need(self.first(token), 13)
        need(self.t["list"][-1][0] == token, 12)
        self.t["list"].pop()
        need(not self.give(token), 19)
        return ""

    def ask_swap(self):
        refs = self.t["list"]
        need(len(refs) > 1, 15)
        need(refs[-1][0] != refs[-2][0], 14)
        refs[-2:] = refs[:-3:-1]
        return ""

    def row(self, token, cell, shared):
        """The cells and record of a token that is held, and not shared if there is a fault for that. Its record is cell -1."""
        need(token < len(self.tokens), 16)
        row = self.tokens[token]["row"]
        need(row[-1] is not None if cell == -1 else cell < len(row) - 1, 17)
        need(self.first(token), 13)
        need(self.first(token) == "x" or not shared, shared)
        return row

    def ask_read(self, token, cell):
        return f"v={self.row(token, cell, None)[cell]}"

    def ask_write(self, token, cell, value):
        row = self.row(token, cell, 18)
        need(self.laws[token][0] != "tally", 22)
        row[cell] = value
        return ""

    def ask_add(self, token, more):
        row = self.row(token, 0, 18)
        need(self.laws[token][0] == "tally", 22)
        need(row[0] + more < 2**64, 21)
        row[0] += more
        self.tokens[token]["added"][self.c] += more
        return ""

    def ask_rrec(self, token):
        return f"b={self.row(token, -1, 37)[-1] or '-'}"

    def ask_wrec(self, token, record):
        row = self.row(token, -1, 37)
        need(len(record) <= 128, 38)
        row[-1] = record
        return ""

    # Messages. A note is a message, its round, a port, and whether it is about the reply.

    def is_shown(self, letter):
        """Whether the thread was given a message, and hasn't answered it."""
        return letter["at"] == "with" and letter["to"] == self.c and letter["hands"] == self.k

    def own(self, message):
        need(message < len(self.letters) and self.origins[message] == [self.c, self.k], 25)
        return self.letters[message]

    def send(self, message, cpu, port, op, arg, flags, sync):
        need(cpu in self.cpus and port < PORTS, 30)
        need(not sync or (cpu, port) != (self.c, self.k), 29)
        letter = self.own(message)
        need(letter["at"] == "rest", 25)
        need(letter["round"] < LAST_ROUND, 36)
        letter.update(at="out", round=letter["round"] + 1, to=cpu, flags=flags, sync=sync, op=op, arg=arg)
        self.lanes[self.c][cpu].append([message, letter["round"], port, False])
        return ""

    def reply(self, message, error, result):
        letter = self.letters[message]
        letter.update(at="back", error=error, result=result, hands=None)
        cpu, port = self.origins[message]
        self.lanes[self.c][cpu].append([message, letter["round"], port, True])
        return ""

    def handle(self, note, thread):
        """Takes the message of a note, or takes it back, for a thread or for nobody; the entry of what the thread is given, or nothing."""
        message, number, _, is_reply = note
        letter = self.letters[message]
        if letter["round"] != number:
            return ""
        if is_reply and letter["at"] == "back":
            self.letters[message] = at_rest(number)
            return f"r={message}:{letter['error']}:{letter['result']}"
        if is_reply or letter["at"] != "out" or letter["to"] != self.c:
            return ""
        letter.update(at="with", hands=-30 if thread is None else -4 if letter["aborted"] else thread)
        return f"q={message}:{letter['op']}:{letter['arg']}" if letter["hands"] == thread else ""

    def poll(self):
        """What the thread finds at its port, or nothing."""
        port = self.ports[self.c][self.k]
        while port:
            entry = self.handle(port.pop(0), self.k)
            if entry:
                return entry
        return ""

    def ask_send(self, message, cpu, port, op, arg, flags):
        return self.send(message, cpu, port, op, arg, flags, False)

    def ask_do(self, message, cpu, port, op, arg):
        self.send(message, cpu, port, op, arg, 0, True)
        return self.leave(len(self.t["list"]), message)

    def ask_reply(self, message, error, result):
        need(message < len(self.letters) and self.is_shown(self.letters[message]), 31)
        return self.reply(message, error, result)

    def ask_isab(self, message):
        need(message < len(self.letters) and self.is_shown(self.letters[message]), 31)
        return f"a={int(self.letters[message]['aborted'])}"

    def ask_abort(self, message):
        letter = self.own(message)
        need(letter["at"] in ("out", "with"), 26)
        need(letter["flags"] & 2, 27)
        letter["aborted"] = True
        return ""

    def ask_drop(self, message):
        letter = self.own(message)
        need(letter["at"] == "out", 26)
        need(letter["flags"] & 1, 28)
        self.letters[message] = at_rest(letter["round"])
        return f"d={message}:{letter['op']}:{letter['arg']}"

    def ask_getport(self):
        return self.poll() or "n"

    def ask_wait(self):
        return self.poll() or self.leave(len(self.t["list"]), "port")

    def ask_yield(self):
        return self.leave(len(self.t["list"]), "live")

    def ask_exit(self):
        return self.leave(len(self.t["list"]), "exited")

    def ask_assert(self, _, number):
        """An assertion that doesn't hold: others aren't made here."""
        self.log(f"x={number}")
        return self.leave(len(self.t["list"]), "faulted 42")

    # Turns.

    def pay(self):
        """The replies that the processor owes go out."""
        for message, letter in enumerate(self.letters):
            if letter["at"] == "with" and letter["to"] == self.c and letter["hands"] < 0:
                self.reply(message, -letter["hands"], 0)

    def take_mail(self):
        self.pay()
        threads = self.threads[self.c]
        for sender in self.cpus:
            notes, self.lanes[sender][self.c] = self.lanes[sender][self.c], []
            for note in notes:
                message, _, port, is_reply = note
                if is_reply and self.letters[message]["sync"]:
                    entry = self.handle(note, port)
                    if threads[port]["phase"] == message:
                        threads[port].update(phase="live", answer=entry)
                else:
                    self.ports[self.c][port].append(note)
        for k, port in enumerate(self.ports[self.c]):
            if k >= len(threads) or is_over(threads[k]):
                for note in port:
                    self.handle(note, None)
                port.clear()
        for k, thread in enumerate(threads):
            if thread["phase"] == "port":
                self.look_at(self.c, k)
                entry = self.poll()
                if entry:
                    thread.update(phase="live", answer=entry)

    def resumes(self):
        """Tries to take the thread's list; says whether it is held now."""
        refs, busy = self.t["list"], self.t["busy"]
        if self.t["phase"] != "live" or (busy and self.word(refs[busy[0]][0]) == busy[1]):
            return False
        for at, (token, mode) in enumerate(refs):
            why = self.missed(refs, refs[:at], token, mode)
            if why:
                for other, _ in reversed(refs[:at]):
                    self.give(other)
                if why == "worn":
                    self.become("faulted 20")
                else:
                    self.t["busy"] = [at, why]
                return False
            self.take(token, mode)
        return True

    def chooses(self):
        """Looks at the thread that runs now, if one can."""
        if self.runs[self.c] is not None:
            self.look_at(self.c, self.runs[self.c])
            return True
        count = len(self.threads[self.c])
        for k in [*range(self.cursors[self.c], count), *range(self.cursors[self.c])]:
            self.look_at(self.c, k)
            if self.resumes():
                self.runs[self.c], self.cursors[self.c] = k, k + 1
                return True
        return False

    def log(self, entry):
        if entry and len(self.t["log"]) < LOG:
            self.t["log"].append(entry)

    def turn(self, state, cpu):
        """The state after a processor's turn."""
        self.load(state)
        self.c = cpu
        self.take_mail()
        self.has_run = self.chooses()
        if self.has_run:
            self.log(self.t["answer"])
            steps, made = self.programs[self.c][self.k], self.t["made"]
            word, *parts = steps[made] if made < len(steps) else ["exit"]
            self.t.update(busy=None, made=made + 1)
            try:
                self.t["answer"] = getattr(self, "ask_" + word)(*parts)
            except Refused as why:
                self.t["answer"] = f"f={why}"
        return self.saved()

    def has_ended(self, state):
        """Whether every thread but services has ended."""
        self.load(state)
        return all(service or is_over(t) for services, threads in zip(self.services, self.threads) for service, t in zip(services, threads))

    def outcome(self, state):
        """What is shown of a run that stops in a state."""
        shown = {"ended": self.has_ended(state), "tokens": self.tokens, "letters": self.letters, "threads": {}}
        for c, threads in enumerate(self.threads):
            for k, t in enumerate(threads):
                phase = t["phase"] if is_over(t) else "running" if self.runs[c] == k else "ready" if t["phase"] == "live" else "waiting"
                shown["threads"][c, k] = phase, t["list"], t["log"]
        for c, threads in enumerate(self.threads):
            running = self.runs[c]
            for k, t in enumerate(threads):
                self.look_at(c, k)
                if not is_over(t):
                    self.leave(len(t["list"]) if k == running else 0, "exited")
            self.c = c
            self.pay()
        return shown

    def report(self, shown):
        """Its lines, as the program writes them."""
        lines = []
        for n, (token, (law, _)) in enumerate(zip(shown["tokens"], self.laws)):
            *cells, record = token["row"]
            lines.append(f"token {n} gen {token['gen']} cells {' '.join(map(str, cells)) or '-'}")
            lines += [f"tally {n} {' '.join(map(str, token['added']))}"] if law == "tally" else []
            lines += [f"record {n} {record or '-'}"] if record is not None else []
        lines += [f"message {n} round {letter['round']} {letter['at']}" for n, letter in enumerate(shown["letters"])]
        for (c, k), (phase, refs, log) in shown["threads"].items():
            refs = " ".join(f"{token}{mode}" for token, mode in refs)
            lines.append(f"thread {c}.{k} {phase} list {refs or '-'} log {' '.join(log) or '-'}")
        return "\n".join(lines)

    def in_rounds(self, rounds):
        """The state at which the run in rounds stops, of at most so many."""
        state = self.opening
        for _ in range(rounds):
            before, ran = state, False
            for c in self.cpus:
                state = self.turn(state, c)
                ran = ran or self.has_run
            if state == before or (not ran and all(is_over(t) for threads in self.threads for t in threads)):
                break
        return state

    def along(self, order):
        """The state after the turns of an order, and whether an outcome is there."""
        state = self.opening
        for c in order:
            state = self.turn(state, c)
        return state, self.has_ended(state) or all(self.turn(state, c) == state for c in self.cpus)

    def outcomes(self, most):
        """Each outcome over all orders by its report, with the fewest turns to it; None if there are more states than this."""
        turns, found, todo = {self.opening: 0}, {}, [self.opening]
        for state in todo:
            after = [self.turn(state, c) for c in self.cpus]
            if self.has_ended(state) or all(other == state for other in after):
                shown = self.outcome(state)
                found.setdefault(self.report(shown), (shown, turns[state]))
            for other in after:
                if other not in turns:
                    turns[other] = turns[state] + 1
                    todo.append(other)
            if len(todo) > most:
                return None
        return found
