#!/usr/bin/env python3
"""A year of an operator, with a follower and a bridge, each killed now and then; each answer is compared with a desk in memory.

    checks/year.py [--program FILE] [--days 365] [--devices 400] [--seed 1] [--folder FOLDER]

The town has 12 gateways and 400 devices of two owners, and each device sends six data frames a day, which one to three gateways hear:
some 2,000,000 messages. Every twentieth frame is answered. One message in a hundred is sent twice, since its answer was lost, and one
copy in a hundred comes hours late. Each month some devices change hands, and twice in the year the limit of every gateway is set.

A month has three runs. Two are of `hear`, which gets a line when it has answered the one before; one of four is killed, and the next
one gets the same lines again. The third is of `serve`, with a connection for each message, while examples/follow.py follows the desk into
a standby file. When the month's messages are answered, examples/bridge/bridge.py works for a minute between this desk and the town of
examples/bridge/simulate.py: its gateways and devices are registered by the same office, each month some more, and its frames have the
time of the real clock. Meanwhile the desk, the bridge, the follower and the program that the follower runs are killed and started again.
The run ends when the bridge has all its answers, both owners' reports have each uplink of the month once, and the follower has asked
for what comes after the last message.

All answers have to be those of `desk lines`, which hears the same without an end. What the bridge sent is read by `desk log`, and has to have
the same answers there, by `desk log --answers`, and in the bridge's journal. While the next month begins, `desk audit` checks a copy of the file.

At the end the last lines are delivered once more and get their answers, and `desk hear` makes a new file of what `desk log` prints, with the
answers that the standby has. Then the desk's file has as many replies as messages were heard, and all three files have the same rows in
each of the eleven tables, in the same order, and pass an audit.

It prints two lines for each month: messages, answers a second, the slowest answer, the size of the file, how long an opening takes, and
how long the reports; then what the bridge sent, and how long the follower took. At the end it prints how often each program was killed.
With fewer --devices it takes less time, and kills as often. --folder names where the files are meanwhile: in memory there are
no waits for the disk. The program is `./desk`, which is proved and built first if it isn't current, or with --program the built one in FILE.
"""

import argparse
import datetime
import itertools
import json
import os
import random
import re
import signal
import subprocess
import sys
import tempfile
import threading
import time
from collections import Counter
from contextlib import closing, suppress
from pathlib import Path

from bridge import EXAMPLE, Journal, SecurityModule, free_udp_port, is_settled, simulate
from common import ROOT, Running, add_program, copy_to, reading, ready, removed, same_rows, text_of, wants
from follow import changed, child_of, words_to_follow, words_to_serve
from http_client import answer_of, asked, body, get, lasting_port

sys.path.insert(0, str(ROOT / "bench"))
from normal_operation import FIRST_DEV_EUI, JOIN_EUI, SECOND, Stream

GATEWAYS, FRAMES_A_DAY = 12, 6
OWNERS = ["town", "harbour"]
FIRST = datetime.datetime(2024, 1, 1, tzinfo=datetime.timezone.utc)
DAY = 86_400 * SECOND
# between two frames: no downlink then collides with another
SLOT = 3 * SECOND
FRAMES_AN_ANSWER = 20
# a month's runs have these days; the last one is served
DAYS_OF_RUNS = [slice(0, 10), slice(10, 20), slice(20, None)]
RUNS_A_KILL = 4
LINES_AT_ONCE = 64
MOVED_A_MONTH = 5
# on which day of the year the limit of each gateway's band is set
LIMITS = {100: 18_000_000, 250: 36_000_000}
# the simulated town: its bridge's name, what it has in the first month, how many devices come in each month, and its frames
BRIDGE, RADIO_GATEWAYS, RADIO_DEVICES, MORE_DEVICES, RADIO_FRAMES = "bridge-2", 4, 12, 2, 60
FIRST_RADIO_EUI = FIRST_DEV_EUI + 0x1_0000
# what is killed together: while messages are posted, and while the bridge works; `hear` is the program that the follower runs
POSTING_TURNS = [["desk"], ["follower"], ["desk", "follower"], ["desk", "hear"]]
BRIDGE_TURNS = [["bridge"], ["desk", "bridge"], ["follower"], ["bridge"], ["desk"], ["hear", "follower", "bridge"]]
KILLS_WHILE_POSTING, KILLS_WHILE_BRIDGING = 2, 3
LONGEST_WAIT = 0.06
SESSION_SECONDS = 40
# how long something may take on a busy machine
PATIENCE_SECONDS = 3600


class Town(Stream):
    """The messages of a day."""

    def __init__(self, seed, devices):
        super().__init__(seed, devices)
        self.counters, self.downlinks, self.frames = [0] * devices, [0] * devices, 0

    @property
    def messages(self):
        """How many there are so far, repeats not counted."""
        return sum(self.transactions.values())

    def hearing(self):
        return self.random.sample(range(GATEWAYS), self.random.randint(1, 3))

    def register(self):
        self.say("office", "SenderAdd", Sender="bridge", Role="radio")
        for owner in OWNERS:
            self.say("office", "OwnerAdd", Owner=owner)
        for n in range(GATEWAYS):
            self.say("office", "GatewayAdd", Gateway=f"gw-{n}")
        for n in range(self.devices):
            self.say("office", "DeviceAdd", DevEUI=f"{FIRST_DEV_EUI + n:016x}", JoinEUI=f"{JOIN_EUI:016x}", Owner=OWNERS[n % 2])

    def registered(self, messages):
        """The lines by which the office sends these messages."""
        self.lines = []
        for kind, members in messages:
            self.say("office", kind, **members)
        return self.lines

    def move(self):
        for _ in range(MOVED_A_MONTH):
            device = FIRST_DEV_EUI + self.random.randrange(self.devices)
            self.say("office", "DeviceMove", DevEUI=f"{device:016x}", Owner=self.random.choice(OWNERS))

    def set_limits(self, most):
        for n in range(GATEWAYS):
            self.say("office", "LimitSet", Gateway=f"gw-{n}", Band="B3", Limit=most)

    def day(self, number):
        """The lines of this day of the year, counted from 0."""
        begin = round(FIRST.timestamp()) * SECOND + number * DAY
        self.lines = []
        if number == 0:
            self.register()
            for device in range(self.devices):
                self.now = begin + device * SLOT
                self.join(device)
            begin += self.devices * SLOT + SLOT
        if date_of(number).day == 1:
            self.move()
        if number in LIMITS:
            self.set_limits(LIMITS[number])
        slots = self.random.sample(range((DAY - self.devices * SLOT) // SLOT - 2), FRAMES_A_DAY * self.devices)
        devices = [device for device in range(self.devices) for _ in range(FRAMES_A_DAY)]
        self.random.shuffle(devices)
        late = []
        for slot, device in zip(sorted(slots), devices):
            self.now = begin + slot * SLOT
            self.frame(device, late)
        self.lines += late
        return self.with_repeats()

    def frame(self, device, late):
        at = len(self.lines)
        gateway = self.data(device, self.counters[device])
        self.counters[device] += 1
        self.frames += 1
        if len(self.lines) > at + 1 and self.random.random() < 0.01:
            late.append(self.lines.pop())
        if self.frames % FRAMES_AN_ANSWER == 0:
            self.answer(device, self.downlinks[device], gateway)
            self.downlinks[device] += 1

    def with_repeats(self):
        return [line for line in self.lines for _ in range(1 + (self.random.random() < 0.01))]


class Memory:
    """`desk lines`, which hears all of them without an end."""

    def __init__(self, program):
        self.program = subprocess.Popen([program, "lines"], stdin=subprocess.PIPE, stdout=subprocess.PIPE)

    def answers(self, lines):
        """Its answers. It gets as many lines at once as the pipes have room for."""
        found = []
        for place in range(0, len(lines), LINES_AT_ONCE):
            part = lines[place : place + LINES_AT_ONCE]
            self.program.stdin.write(text_of(part).encode())
            self.program.stdin.flush()
            found += [self.program.stdout.readline().decode().rstrip("\n") for _ in part]
        return found

    def end(self):
        self.program.stdin.close()
        wants(self.program.wait() == 0, f"lines ends with {self.program.returncode}")


class Radio:
    """The simulated town and the bridge's folder. Both go on from month to month."""

    def __init__(self, folder, seed):
        self.folder = folder
        folder.mkdir(mode=0o700)
        self.town = simulate.Town(seed, RADIO_DEVICES, RADIO_GATEWAYS, free_udp_port())
        for number, device in enumerate(self.town.devices):
            device.dev_eui = radio_eui(number)
        self.messages, self.answers = 0, {}

    def what_is_new(self):
        """The messages that register what comes in this month. New devices get their keys and each device a payload."""
        town, devices = self.town, self.town.devices
        new = devices
        if not self.messages:
            yield "SenderAdd", {"Sender": BRIDGE, "Role": "radio"}
            for gateway in town.gateways:
                yield "GatewayAdd", {"Gateway": gateway.eui}
        else:
            new = [simulate.Device(radio_eui(len(devices) + n), town.chance.randbytes(16)) for n in range(MORE_DEVICES)]
            devices += new
        with closing(SecurityModule(self.folder / "security.db")) as module:
            for device in new:
                module.add_device(device.dev_eui, town.module_key(device))
        for device in new:
            owner = OWNERS[int(device.dev_eui, 16) % 2]
            yield "DeviceAdd", {"DevEUI": device.dev_eui, "JoinEUI": simulate.JOIN_EUI, "Owner": owner}
        journal = Journal(self.folder / "journal.db")
        for device in devices:
            journal.put_waiting(device.dev_eui, 7, b"a payload")
        journal.store.close()

    def words(self, port):
        """The bridge between the town and the desk at this port."""
        listen = f"127.0.0.1:{self.town.bridge[1]}"
        return [sys.executable, EXAMPLE / "bridge.py", self.folder, "run", "--desk", f"127.0.0.1:{port}", "--listen", listen, "--sender", BRIDGE]

    def send_frames(self):
        """Until the desk has answered each."""
        self.town.events.clear()
        self.town.run(RADIO_FRAMES, PATIENCE_SECONDS)
        wants(not self.town.errors, "\n".join(self.town.errors))
        waits_until(lambda: is_settled(self.folder), "the bridge has all answers")

    def compare(self, answers):
        """Wants the journal's answers to be those of the desk."""
        self.messages += len(answers)
        self.answers.update((answer["TransactionID"], answer) for answer in answers)
        with reading(self.folder / "journal.db") as journal:
            found = {number: json.loads(answer) for number, answer in journal.execute("SELECT transaction_id, answer FROM message")}
        other = [number for number in found.keys() | self.answers.keys() if found.get(number) != self.answers.get(number)]
        wants(not other, f"the bridge's messages {sorted(other)[:5]} have another answer in its journal")


def radio_eui(number):
    return f"{FIRST_RADIO_EUI + number:016x}"


class Month:
    def __init__(self, name, days):
        self.name, self.days = name, days
        self.begun = time.monotonic()
        self.answers, self.seconds, self.slowest, self.openings = 0, 0.0, 0.0, []
        self.uplinks = 0

    def timed(self, tell, line):
        """The answer, None if none came. Then the time isn't counted."""
        begun = time.monotonic()
        answer = tell(line)
        took = time.monotonic() - begun
        if answer is not None:
            self.answers += 1
            self.seconds += took
            self.slowest = max(self.slowest, took)
        return answer


class Audit:
    """`desk audit` of a file, while something else runs."""

    def __init__(self, program, file):
        self.file, self.begun = file, time.monotonic()
        self.thread = threading.Thread(target=self.run, args=(program,))
        self.thread.start()

    def run(self, program):
        self.ran = subprocess.run([program, "audit", self.file], capture_output=True, text=True)
        self.seconds = time.monotonic() - self.begun

    def passes(self, heard):
        """Waits for its end, and returns how many seconds it took."""
        self.thread.join()
        found = self.ran.returncode, self.ran.stdout, self.ran.stderr
        wants(found == (0, f"heard: {heard}\nin order\n", ""), f"an audit of {self.file.name} with {heard} messages ends with {found}")
        return self.seconds


def date_of(day):
    return FIRST + datetime.timedelta(days=day)


def months(days):
    """The months of the first days of the year, each with its days."""
    for name, group in itertools.groupby(range(days), lambda day: f"{date_of(day):%Y-%m}"):
        yield Month(name, list(group))


def waits_until(holds, what, running=()):
    end = time.monotonic() + PATIENCE_SECONDS
    while not holds():
        wants(time.monotonic() < end, f"{what}: not within {PATIENCE_SECONDS} seconds")
        for program in running:
            wants(program.is_running(), f"{program.name} ended by itself:\n{end_of(program.log)}")
        time.sleep(0.1)


def runs(process):
    """Whether the process with this number runs. One that ended may wait for its parent."""
    with suppress(OSError):
        return Path(f"/proc/{process}/stat").read_text().rpartition(")")[2].split()[0] != "Z"
    return False


def end_of(file, length=2000):
    with suppress(OSError), file.open("rb") as text:
        text.seek(max(0, file.stat().st_size - length))
        return text.read().decode(errors="replace")
    return ""


def printed(program, *words):
    ran = subprocess.run([program, *map(str, words)], capture_output=True, text=True)
    wants((ran.returncode, ran.stderr) == (0, ""), f"{words}: {ran.returncode} {ran.stderr}")
    return ran.stdout


# ---- a run that is served


class Served:
    """A run of `serve`, its follower and its bridge."""

    def __init__(self, year):
        self.year, self.chance, self.port = year, year.chance, lasting_port()
        desk = [*words_to_serve(year.program, year.file, self.port), "--log"]
        follower = words_to_follow(year.program, self.port, "--init", "--every", "0.2", year.standby)
        words = {"desk": desk, "follower": follower, "bridge": year.radio.words(self.port)}
        self.running = {name: Running(f"the {name}", words[name], year.folder / f"{name}.errors") for name in words}
        self.desk, self.follower, self.bridge = self.running.values()
        self.desk.log.unlink(missing_ok=True)
        self.killers, self.one_turn, self.wrong, self.is_over = [], threading.Lock(), [], False

    def post(self, lines, wanted, month):
        """Posts the lines, each until it is answered. Some programs are killed meanwhile."""
        begun, places = time.monotonic(), self.chance.sample(range(len(lines)), KILLS_WHILE_POSTING)
        self.desk.start()
        self.follower.start()
        for place, (line, told) in enumerate(zip(lines, wanted)):
            if place in places:
                self.kill_after(self.chance.uniform(0, LONGEST_WAIT), next(self.year.posting_turns))
            since = time.monotonic()
            while (answer := month.timed(lambda line: answer_of(self.port, line), line)) is None:
                wants(time.monotonic() < since + PATIENCE_SECONDS, f"{line} gets no answer\n{end_of(self.desk.log)}")
                time.sleep(0.1)
            if place == 0:
                month.openings.append(time.monotonic() - begun)
            wants(answer == told, f"{line}\n{answer}\n{told}")

    def bridges(self):
        """Lets the bridge work, and kills programs meanwhile. Returns when none is to be killed any more and the desk answers."""
        self.bridge.start()
        for _ in range(KILLS_WHILE_BRIDGING):
            self.kill_after(self.chance.uniform(0, SESSION_SECONDS), next(self.year.bridge_turns))
        self.year.radio.send_frames()
        for killer in self.killers:
            killer.join()
        wants(not self.wrong, "\n".join(self.wrong))
        waits_until(self.answers, "the desk answers", [self.desk])

    def answers(self):
        with suppress(OSError):
            return body(asked(self.port, get("/v1/senders")))
        return None

    def kill_after(self, seconds, names):
        killer = threading.Thread(target=self.kill_turn, args=(seconds, names), daemon=True)
        self.killers.append(killer)
        killer.start()

    def kill_turn(self, seconds, names):
        if "follower" in names or "hear" in names:
            self.waits_for_standby()
        time.sleep(seconds)
        with self.one_turn:
            if self.is_over:
                return
            for name in names:
                self.kill(name)
                time.sleep(self.chance.uniform(0, LONGEST_WAIT))
            for name in names:
                if name != "hear":
                    self.running[name].start()

    def waits_for_standby(self):
        """Until the standby hears something new, or for a minute."""
        since, end = changed(self.year.standby), time.monotonic() + 60
        while changed(self.year.standby) == since and time.monotonic() < end:
            time.sleep(0.01)

    def kill(self, name):
        if name == "hear":
            child = child_of(self.follower.process)
            if child is None:
                return
            with suppress(ProcessLookupError):
                os.kill(child, signal.SIGKILL)
        elif (status := self.running[name].kill()) != -signal.SIGKILL:
            self.wrong.append(f"{self.running[name].name} ended by itself, with {status}:\n{end_of(self.running[name].log)}")
        self.year.kills[name] += 1

    def heard(self, least):
        """How many messages the desk has. It has at least these."""
        while more := body(asked(self.port, get(f"/v1/answers/{least + 1}"))).count("\n"):
            least += more
        return least

    def standby_has(self, heard):
        """Whether the follower asked for the messages from this one on."""
        asked_for = re.findall(r"^200 GET /v1/log/(\d+) ", end_of(self.desk.log, 20_000), re.M)
        return asked_for and int(asked_for[-1]) == heard

    def waits_for_follower(self, least):
        heard = self.heard(least)
        waits_until(lambda: self.standby_has(heard), f"the follower has {heard} messages", [self.desk, self.follower])

    def end(self):
        """Ends all of them. What was answered is in the files."""
        with self.one_turn:
            self.is_over = True
        child = child_of(self.follower.process) if self.follower.process else None
        for running in self.running.values():
            if running.process:
                running.kill()
        if child:
            with suppress(ProcessLookupError):
                os.kill(child, signal.SIGKILL)
            waits_until(lambda: not runs(child), "the follower's program ends")


# ---- the year


class Year:
    def __init__(self, program, folder, devices, seed):
        self.program, self.folder = program, folder
        self.file, self.standby, self.copy = folder / "town.db", folder / "standby.db", folder / "copy.db"
        self.town, self.memory, self.radio = Town(seed, devices), Memory(program), Radio(folder / "bridge", seed)
        self.chance = random.Random(seed)
        self.posting_turns, self.bridge_turns = itertools.cycle(POSTING_TURNS), itertools.cycle(BRIDGE_TURNS)
        self.kills, self.runs = Counter(), 0
        self.audit = None
        printed(program, "init", self.file)

    @property
    def heard(self):
        return self.town.messages + self.radio.messages

    def run(self, days):
        for month in months(days):
            *first, last = [part for days in DAYS_OF_RUNS if (part := month.days[days])]
            uplinks = self.town.uplinks
            for part in first:
                self.hear(*self.lines_of(part), month)
            self.end_audit()
            lines, wanted = self.lines_of(last, self.radio.what_is_new())
            month.uplinks = self.town.uplinks - uplinks
            self.serve(lines, wanted, month)
            if month.days[-1] + 1 < days:
                copy_to(self.file, self.copy)
                self.audit = month.name, self.heard, Audit(self.program, self.copy)
        return lines, wanted, month

    def lines_of(self, days, messages=()):
        """The lines of the days, then those by which the office sends the messages, and their answers."""
        lines = [*(line for day in days for line in self.town.day(day)), *self.town.registered(messages)]
        return lines, self.memory.answers(lines)

    def hear(self, lines, wanted, month):
        """A run of `hear`. If it is killed the next one gets its lines again."""
        self.runs += 1
        if self.runs % RUNS_A_KILL == 2:
            self.hear_once(lines, wanted, month, self.chance.randrange(1, len(lines)))
        self.hear_once(lines, wanted, month)

    def hear_once(self, lines, wanted, month, killed_at=None):
        """Hands the lines to `hear`, each once the one before is answered, and kills it while it has the line at this place."""
        begun = time.monotonic()
        with subprocess.Popen([self.program, "hear", self.file], stdin=subprocess.PIPE, stdout=subprocess.PIPE) as ran:

            def answer_of_hear(line):
                ran.stdin.write(line.encode() + b"\n")
                ran.stdin.flush()
                if place == killed_at:
                    time.sleep(self.chance.uniform(0, 0.0005))
                    ran.kill()
                return ran.stdout.readline().decode().rstrip("\n")

            for place, (line, told) in enumerate(zip(lines, wanted)):
                answer = month.timed(answer_of_hear, line) if place else answer_of_hear(line)
                if place == 0:
                    month.openings.append(time.monotonic() - begun)
                if place == killed_at:
                    self.kills["desk"] += 1
                    return
                wants(answer == told, f"{line}\n{answer}\n{told}")
            ran.stdin.close()
            wants(ran.wait() == 0, f"hear ends with {ran.returncode}")

    def serve(self, lines, wanted, month):
        """The month's last run: the rest of its messages, then the bridge, then the reports; all the while the follower."""
        self.runs += 1
        served, before = Served(self), self.heard
        try:
            served.post(lines, wanted, month)
            posted = time.monotonic()
            served.bridges()
            bridged = time.monotonic()
            self.report(served.port, month)
            served.waits_for_follower(before)
            followed = time.monotonic()
        finally:
            served.end()
        count = self.compare_bridge(before)
        print(
            f"    the bridge sent {count} messages in {bridged - posted:.0f} s; the follower had all {followed - bridged:.0f} s later;"
            f" killed so far: {self.counts()}; the month took {(time.monotonic() - month.begun) / 60:.1f} minutes",
            flush=True,
        )

    def counts(self):
        return ", ".join(f"{name} {self.kills[name]}" for name in ("desk", "bridge", "follower", "hear"))

    def compare_bridge(self, before):
        """Has the desk in memory hear what the bridge sent. Returns how many messages that were."""
        words = [self.program, "log", self.file, "--from", before + 1]
        messages, answers = printed(*words).splitlines(), printed(*words, "--answers").splitlines()
        wants(len(messages) == len(answers), f"log prints {len(messages)} messages and {len(answers)} answers")
        for message, answer, wanted in zip(messages, answers, self.memory.answers(messages)):
            wants(json.loads(message)["SenderID"] == BRIDGE, f"{message} isn't the bridge's")
            wants(answer == wanted, f"{message}\n{answer}\n{wanted}")
        answers = [json.loads(answer) for answer in answers]
        self.radio.compare(answers)
        self.town.uplinks = max([self.town.uplinks, *(answer.get("Uplink", 0) for answer in answers)])
        self.town.bookings = max([self.town.bookings, *(answer.get("Booking", 0) for answer in answers)])
        return len(messages)

    def report(self, port, month):
        """Prints what the month was, with the reports of the desk that serves."""
        texts, took = [], []
        for target in (*(f"/v1/reports/{owner}/{month.name}" for owner in OWNERS), "/v1/bands/gw-0"):
            begun = time.monotonic()
            texts.append(body(asked(port, get(target))))
            took.append(time.monotonic() - begun)
        uplinks = sum(int(line.split(",")[1]) for text in texts[:2] for line in text.splitlines()[1:])
        wants(uplinks == month.uplinks, f"the reports of {month.name} have {uplinks} uplinks, and {month.uplinks} were sent")
        size = self.file.stat().st_size / 1e6
        print(
            f"{month.name}: {month.answers} messages, {month.answers / month.seconds:.0f} a second, the slowest {1000 * month.slowest:.1f} ms;"
            f" {size:.0f} MB, opened in {max(month.openings):.2f} s; both reports have {uplinks} uplinks, in {took[0]:.2f} and {took[1]:.2f} s;"
            f" bands in {took[2]:.2f} s",
            flush=True,
        )

    def end_audit(self):
        """Of the month before."""
        if self.audit:
            name, heard, audit = self.audit
            print(f"    {name}: an audit of {heard} messages passed in {audit.passes(heard):.0f} s", flush=True)
            removed(self.copy)
            self.audit = None

    def end(self, lines, wanted, month):
        """Compares the desk, the standby and a file made of the log."""
        self.hear_once(lines, wanted, month)
        self.memory.end()
        made = self.folder / "made.db"
        self.make(made)
        rows = same_rows(self.standby, self.file), same_rows(made, self.file)
        with reading(self.file) as conn:
            (replies,) = conn.execute("SELECT count(*) FROM reply").fetchone()
        wants(replies == self.heard, f"the file has {replies} replies, and {self.heard} messages were heard")
        audits = [Audit(self.program, file) for file in (self.file, self.standby)]
        took = [audit.passes(self.heard) for audit in audits]
        took.append(Audit(self.program, made).passes(self.heard))
        print(
            f"{self.heard} messages, {self.radio.messages} of them the bridge's, in {self.runs} runs: each answer is that of the desk in memory\n"
            f"the desk, the standby and a file made of the log have the same {rows[0]} rows, and pass audits in {', '.join(f'{it:.0f}' for it in took)} s\n"
            f"killed: {self.counts()}"
        )

    def make(self, made):
        """A new file of what `log` prints. Its answers are compared with those of the standby while they come."""
        printed(self.program, "init", made)
        log = subprocess.Popen([self.program, "log", self.file], stdout=subprocess.PIPE)
        hear = subprocess.Popen([self.program, "hear", made], stdin=log.stdout, stdout=subprocess.PIPE)
        answers = subprocess.Popen([self.program, "log", self.standby, "--answers"], stdout=subprocess.PIPE)
        log.stdout.close()
        for number, (answer, told) in enumerate(itertools.zip_longest(hear.stdout, answers.stdout), 1):
            wants(answer == told, f"message {number} gets {answer} by a file made of the log, and {told} by the standby")
        statuses = [it.wait() for it in (log, hear, answers)]
        wants(statuses == [0, 0, 0], f"log, hear and log --answers end with {statuses}")


def main():
    words = argparse.ArgumentParser(description=__doc__, formatter_class=argparse.RawDescriptionHelpFormatter)
    add_program(words)
    words.add_argument("--days", type=int, default=365)
    words.add_argument("--devices", type=int, default=400)
    words.add_argument("--seed", type=int, default=1)
    words.add_argument("--folder", type=Path, help="where the files are meanwhile")
    given = words.parse_args()
    program = ready(given.program)
    begun = time.monotonic()
    with tempfile.TemporaryDirectory(dir=given.folder) as folder:
        year = Year(program, Path(folder), given.devices, given.seed)
        year.end(*year.run(given.days))
    print(f"in {(time.monotonic() - begun) / 60:.0f} minutes")


if __name__ == "__main__":
    main()
