#!/usr/bin/env python3
"""Follows a desk that serves: a second file, the standby, hears every message that the desk heard.

    examples/follow.py [--desk http://127.0.0.1:8080] [--program ./desk] [--once | --every SECONDS] FILE
    examples/follow.py --init [--receiver NAME] [--operator NAME] [--base HEX8] [--addresses COUNT] ... FILE

`desk check FILE` counts the messages that FILE has. The desk gives those from the last of them on (GET /v1/log/N) with its answers
(GET /v1/answers/N), `desk hear FILE` hears them, and each answer has to be the desk's. A message that is heard again gets its first
answer and changes nothing. So this program may be killed at any moment and run again.

With --once it ends when FILE has all messages; else it asks again after some seconds, until it is killed. With --init it makes
FILE if there is none. The four options are those of `desk init`, and FILE has to have the same values as the desk's own file: they
are compared with those given here, and with --init also with the defaults.

If the desk doesn't answer, answers 503, or another program has FILE, it waits and tries again, and writes one line to standard
error. It ends with status 1 and one line on standard error if an answer of FILE isn't the desk's, if FILE was made with other
options, or if the desk lacks messages that FILE has.
"""

import argparse
import http.client
import subprocess
import sys
import time
from contextlib import suppress
from pathlib import Path
from urllib.parse import urlsplit

# with these `desk init` makes a file
DEFAULTS = {"receiver": "desk", "operator": "office", "base": "01a00000", "addresses": 65_536}
# above the ten seconds that the desk gives a request, for us and one client before us
DESK_TIMEOUT_SECONDS = 25
FIRST_PAUSE_SECONDS, LONGEST_PAUSE_SECONDS = 0.1, 5.0
UNAVAILABLE = 3  # the status of a command whose file can't be used now


class Away(Exception):
    """The desk or the standby can't be asked now. The same is to be tried again."""


class FollowError(Exception):
    """The standby can't follow the desk."""


def log(text):
    print(f"follow: {text}", file=sys.stderr, flush=True)


class Desk:
    """The desk that serves. A connection has one request."""

    def __init__(self, address):
        self.address = address

    def messages(self, number):
        """The messages that it heard, from this number on: at most 1,000, and none past the last one."""
        return self.lines(f"/v1/log/{number}")

    def answers(self, number):
        """Its answers to them."""
        return self.lines(f"/v1/answers/{number}")

    def lines(self, target):
        """The lines of the response. If it is cut, those that came whole."""
        try:
            status, body, is_whole = self.get(target)
        except (OSError, http.client.HTTPException) as error:
            raise Away(f"the desk doesn't answer: {error or type(error).__name__}") from None
        if status == 503:
            raise Away("the desk answers 503")
        if status != 200:
            raise FollowError(f"the desk answers {status} to {target}")
        *lines, _ = body.split(b"\n")
        # the first one is mostly a message that the standby has
        if not is_whole and len(lines) < 2:
            raise Away("the desk's response is cut")
        return lines

    def get(self, target):
        connection = http.client.HTTPConnection(*self.address, timeout=DESK_TIMEOUT_SECONDS)
        try:
            connection.request("GET", target)
            response = connection.getresponse()
            try:
                return response.status, response.read(), True
            except http.client.IncompleteRead as error:
                return response.status, error.partial, False
        finally:
            connection.close()


class Standby:
    """The file that follows. While it is open, `desk hear` runs on it."""

    def __init__(self, program, file, options, may_be_made):
        self.program, self.file, self.options, self.may_be_made = program, file, options, may_be_made
        self.hearing = None
        self.heard = 0  # how many messages it has
        self.last = None  # the last of them, if that is known

    def open(self):
        """Opens it, if it isn't open. It is made first, if it may be."""
        if self.hearing:
            return
        if self.may_be_made:
            self.run("init", *(f"--{name}={value}" for name, value in self.options.items()), may_fail_with="desk: exists")
        elif not Path(self.file).exists():
            raise FollowError(f"there is no {self.file}: --init makes it")
        found = dict(line.split(": ", 1) for line in self.run("check").splitlines())
        for name, value in self.options.items():
            if found[name] != str(value):
                raise FollowError(f"{self.file} was made with --{name} {found[name]}, and not {value}")
        self.heard, self.last = int(found["replies"]), None
        words = [self.program, "hear", "--", self.file]
        self.hearing = subprocess.Popen(words, stdin=subprocess.PIPE, stdout=subprocess.PIPE, stderr=subprocess.PIPE)

    def run(self, command, *options, may_fail_with=None):
        """What a command on the file prints."""
        words = [self.program, command, *options, "--", self.file]
        ran = subprocess.run(words, stdin=subprocess.DEVNULL, capture_output=True, text=True)
        if ran.stderr.strip() != may_fail_with:
            self.check_end(ran.returncode, ran.stderr)
        return ran.stdout

    def check_end(self, status, error):
        """Raises an error unless a command ended well."""
        why = f"{self.file}: {error.splitlines()[0] if error else f'the program ended with status {status}'}"
        # below 0 it was killed
        if status == UNAVAILABLE or status < 0:
            raise Away(why)
        if status:
            raise FollowError(why)

    def hear(self, number, message, answer):
        """It hears the desk's message with this number. Its answer has to be the desk's."""
        try:
            self.hearing.stdin.write(message + b"\n")
            self.hearing.stdin.flush()
        except BrokenPipeError:
            pass  # then no answer comes
        given, lf = self.hearing.stdout.readline().rpartition(b"\n")[:2]
        if not lf:
            self.close()
            raise Away(f"{self.file}: the program ended")
        if given != answer:
            texts = f"{answer.decode()} by the desk, {given.decode()} by {self.file}"
            raise FollowError(f"message {number} has two answers, {texts}: were they made with the same options?")
        self.heard, self.last = max(self.heard, number), message

    def close(self):
        """Ends `desk hear`, if it runs. What it answered is on the disk."""
        if not self.hearing:
            return
        hearing, self.hearing = self.hearing, None
        _, error = hearing.communicate()
        self.check_end(hearing.returncode, error.decode())


def catch_up(desk, standby):
    """The standby hears the desk's messages, until it has all. The first is the last one that it has: does the desk have it too?"""
    while True:
        first = max(1, standby.heard)
        messages = desk.messages(first)
        if standby.heard and (not messages or standby.last not in (None, messages[0])):
            raise FollowError(f"{standby.file} has {standby.heard} messages, and the desk lacks the last of them")
        if messages == [standby.last] or not messages:
            return
        for number, (message, answer) in enumerate(zip(messages, desk.answers(first)), first):
            standby.hear(number, message, answer)


def follow(desk, standby, every):
    """Catches up once, or again and again with as many seconds between as `every`."""
    pause = FIRST_PAUSE_SECONDS
    while True:
        try:
            standby.open()
            catch_up(desk, standby)
            if every is None:
                standby.close()
                return
        except Away as why:
            if pause == FIRST_PAUSE_SECONDS:
                log(f"waiting: {why}")
            time.sleep(pause)
            pause = min(2 * pause, LONGEST_PAUSE_SECONDS)
            continue
        if pause > FIRST_PAUSE_SECONDS:
            log("it goes on")
            pause = FIRST_PAUSE_SECONDS
        time.sleep(every)


# ---- the command line


def address(text):
    url = urlsplit(text if "//" in text else f"//{text}")
    if url.scheme not in ("", "http") or not url.hostname or url.path.strip("/") or url.query:
        raise argparse.ArgumentTypeError("a URL has the form http://HOST:PORT")
    return url.hostname, url.port or 80


def seconds(text):
    number = float(text)
    if not 0 < number < 1e6:
        raise argparse.ArgumentTypeError("seconds are a number above 0")
    return number


def main():
    words = argparse.ArgumentParser(description=__doc__, formatter_class=argparse.RawDescriptionHelpFormatter)
    words.add_argument("file", metavar="FILE", help="the standby")
    words.add_argument("--desk", type=address, default="http://127.0.0.1:8080", metavar="URL", help="where the desk serves (default: %(default)s)")
    words.add_argument("--program", default="./desk", metavar="FILE", help="the desk's program (default: %(default)s)")
    how = words.add_mutually_exclusive_group()
    how.add_argument("--once", action="store_true", help="end when the standby has all messages")
    how.add_argument("--every", type=seconds, default=1.0, metavar="SECONDS", help="how long it waits before it asks again (default: 1)")
    words.add_argument("--init", action="store_true", help="make the standby if it isn't there")
    words.add_argument("--receiver", metavar="NAME", help="the desk's own name")
    words.add_argument("--operator", metavar="NAME", help="the first operator")
    words.add_argument("--base", type=str.lower, metavar="HEX8", help="the first device address")
    words.add_argument("--addresses", type=int, metavar="COUNT", help="how many device addresses")
    given = words.parse_args()
    options = {name: value for name in DEFAULTS if (value := getattr(given, name)) is not None}
    standby = Standby(given.program, given.file, {**DEFAULTS, **options} if given.init else options, given.init)
    try:
        follow(Desk(given.desk), standby, None if given.once else given.every)
    except (FollowError, OSError) as error:
        log(error)
        with suppress(Away, FollowError):
            standby.close()
        sys.exit(1)
    except KeyboardInterrupt:
        sys.exit(130)


if __name__ == "__main__":
    main()
