"""What bench/rebalance and bench/picture share: a table whose rows are to move, and the program, driven line by line."""
import pathlib
import queue
import subprocess
import sys
import tempfile
import threading
import time

TOP = pathlib.Path(__file__).resolve().parent.parent
PROGRAM = TOP / "crates/hb_pdcon/out/hb_pdcon"
BATCH = 50

# The groups that move where a third area is added to two, by their old area: each keeps its lowest up to its new share.
OLD = {**{group: 0 for group in range(342, 512)}, **{group: 1 for group in range(853, 1024)}}


def group_of(key):
    return key % 2**32 * 2654435761 % 2**32 >> 22


def first_area(key):
    """Which of two areas a key's row goes to first."""
    return group_of(key) * 2 // 1024


def moves(key):
    return group_of(key) in OLD


def keys_of(group, count):
    """The first keys of a group."""
    keys, key = [], 0
    while len(keys) < count:
        if group_of(key) == group:
            keys.append(key)
        key += 1
    return keys


def creation():
    yield "s1: CREATE RDAREA A1 ON bes1"
    yield "s1: CREATE RDAREA A2 ON bes2"
    yield "s1: CREATE TABLE STOCK (ITEM INTEGER, NAME VARCHAR(20), QTY INTEGER) HASH HASHA BY ITEM IN (A1, A2)"
    yield "s1: COMMIT"


def inserts(keys):
    for i, key in enumerate(keys, 1):
        yield f"s1: INSERT INTO STOCK VALUES ({key}, 'N{key}', 10)"
        if i % BATCH == 0 or i == len(keys):
            yield "s1: COMMIT"


def addition():
    yield "s1: CREATE RDAREA A3 ON bes1"
    yield "s1: ALTER TABLE STOCK ADD RDAREA A3"
    yield "s1: COMMIT"


class Run:
    """A run of the program in a new folder, which is told lines and heard answer by answer."""

    def __init__(self, program, before=()):
        self.folder = tempfile.TemporaryDirectory(dir=TOP, prefix=".bench-")
        self.process = subprocess.Popen([*before, str(program), "run", "-b", "2"], stdin=subprocess.PIPE, stdout=subprocess.PIPE,
                                        cwd=self.folder.name, bufsize=0)
        self.answers = queue.SimpleQueue()
        self.heard = []
        self.talk = []
        threading.Thread(target=self.listen, daemon=True).start()

    def listen(self):
        for line in self.process.stdout:
            self.answers.put((time.perf_counter(), line.decode().rstrip("\n")))
        self.answers.put((time.perf_counter(), None))

    def hear(self):
        """The next answer and its moment."""
        moment, answer = self.answers.get(timeout=600)
        if answer is None:
            sys.exit(f"the run ended with status {self.process.wait()} behind {self.heard[-3:]}")
        self.heard.append(answer)
        return moment, answer

    def tell(self, line, *ends):
        """Says a line, and hears up to an answer that begins with one of these; all that was heard, with its moments."""
        self.process.stdin.write(f"{line}\n".encode())
        found = []
        while not found or not found[-1][1].startswith(ends):
            found.append(self.hear())
        self.talk.append((line, [answer for _, answer in found]))
        return found

    def tell_all(self, lines):
        """Says lines that have one answer each, and hears them."""
        lines = list(lines)
        threading.Thread(target=self.process.stdin.write, args=("".join(f"{line}\n" for line in lines).encode(),)).start()
        self.talk.extend((line, [self.hear()[1]]) for line in lines)

    def processor(self):
        """Seconds of the processor so far."""
        return int(pathlib.Path(f"/proc/{self.process.pid}/schedstat").read_text().split()[0]) / 1e9

    def peak(self):
        """The most memory so far, in MiB."""
        status = pathlib.Path(f"/proc/{self.process.pid}/status").read_text()
        return int(status[status.index("VmHWM:"):].split()[1]) / 1024

    def end(self):
        """The script's end; all answers."""
        self.process.stdin.close()
        while not self.heard or not self.heard[-1].startswith("LINES "):
            self.hear()
        if self.process.wait() != 0:
            sys.exit(f"the run ended with status {self.process.returncode}")
        self.folder.cleanup()
        return self.heard


class Session:
    """A session beside a held line of pdrbal: it says one statement at a time, and nothing while one waits."""

    def __init__(self, run, name):
        self.run = run
        self.name = name
        self.times = []
        self.replies = []
        self.began = None

    def waits(self):
        return self.began is not None

    def say(self, statement):
        """Gives a statement, which is answered now, or waits; nothing is given while another waits."""
        if self.waits():
            return
        start = time.perf_counter()
        moment, answer = self.run.tell(f"{self.name}: {statement}", f"{self.name} ")[-1]
        if answer.startswith(f"{self.name} WAITS"):
            self.began = start
        else:
            self.note(start, moment, answer)

    def note(self, start, moment, answer):
        self.times.append(moment - start)
        self.replies.append(answer)
        self.began = None

    def listen(self, answers):
        """Of what was heard, the end of a statement that waited."""
        for moment, answer in answers:
            if self.waits() and answer.startswith(f"{self.name} ") and " WAITS " not in answer and " STEPPED " not in answer:
                self.note(self.began, moment, answer)

    def close(self):
        """Hears what is still to come, and commits."""
        self.listen(self.run.tell(f"STEP {self.name} 1", f"{self.name} NOTHING GIVEN", f"{self.name} STEPPED"))
        self.say("COMMIT")


def step(run, steps, sessions):
    """Makes steps of the held line, and lets sessions hear of it; whether it is complete."""
    answers = run.tell(f"STEP mover {steps}", "mover STEPPED", "mover NOTHING GIVEN")
    for session in sessions:
        session.listen(answers)
    if answers[-1][1] == "mover NOTHING GIVEN":
        sys.exit(f"pdrbal ended otherwise than it should: {run.heard[-20:]}")
    return any(answer.startswith("mover COMPLETE ") for _, answer in answers)


def requests_of(rows):
    """About how many steps a line makes: two checks, a batch and a finish of each group, and its rows."""
    return 22 + len(OLD) * 32 + 5 * rows // 3
