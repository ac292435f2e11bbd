#!/usr/bin/env python3
"""Compares the lists of a desk, its devices, their receptions and the downlinks of gateways with what a plain Python program computes.

    checks/lists.py [--program FILE] [--messages 20000] [--questions 40] [--seed 1]

A desk serves a new file, and a client posts messages of mixed operation (mixed_operation.py). The plain program
(bench/dictionaries.py) hears each of them too. At random moments between two messages the client asks for the four lists, for some devices and
their receptions of a month, and for downlinks of gateways in a month, there and not there. Each response has to be the text that follows from the plain program's own tables at that moment. Some are asked for by
curl. At the end the commands print the same from the file at rest, and end with the statuses that they should. The program is `./desk`,
which is proved and built first if it isn't current, or with --program the built one in FILE.
"""

import argparse
import random
import subprocess
import sys
import tempfile
from datetime import datetime, timezone
from pathlib import Path

from common import add_program, ready, text_of, wants
from http_client import asked, body, free_port, get, post
from mixed_operation import NO_MESSAGE, mixed_operation

sys.path.insert(0, str(Path(__file__).resolve().parent.parent / "bench"))
from dictionaries import BANDS, BASE, BOOKED, DROPPED, SENT  # noqa: E402

LISTS = ["senders", "owners", "gateways", "devices"]
DEVICES_PRINTED = 20
STATES = {BOOKED: "booked", SENT: "sent", DROPPED: "dropped"}
RECEPTION_FIELDS = "uplink,session,kind,counter,gateway,end_us,freq_hz,dr,start_us,airtime_us,band,phy"
DOWNLINK_FIELDS = "booking,uplink,kind,band,start_us,airtime_us,state"
# a month in which nothing is heard
EMPTY_MONTH = "2099-12"
DEVICE_FIELDS = "dev_eui,join_eui,owner,sessions,dev_addr,last_nonce,last_counter,next_downlink_counter,last_start_us"


# ---- the texts, by the plain program's tables


def line_of(*fields):
    return ",".join("" if field is None else str(field) for field in fields)


def senders(desk):
    last = {}
    for sender, number in desk.heard:
        last[sender] = max(number, last.get(sender, 0))
    lines = [line_of(name, desk.senders[name], last.get(name)) for name in sorted(desk.senders)]
    return text_of(["sender,role,last_transaction", *lines])


def owners(desk):
    counts = dict.fromkeys(desk.owners, 0)
    for device in desk.devices.values():
        counts[device["owner"]] += 1
    return text_of(["owner,devices", *(line_of(name, counts[name]) for name in sorted(counts))])


def gateways(desk):
    header = line_of("gateway", *(f"{band.lower()}_limit_us" for band in BANDS))
    return text_of([header, *(line_of(name, *(desk.limits.get((name, band), most) for band, (*_, most) in BANDS.items())) for name in sorted(desk.gateways))])


def start_of(uplink):
    """When it began: by the first report of it."""
    end, *_ = next(iter(uplink["copies"].values()))
    return end - uplink["airtime"]


def device_line(desk, name, sessions, last_starts):
    device = desk.devices[name]
    numbers = sessions.get(name, [])
    if not numbers:
        return line_of(name, device["join"], device["owner"], 0, None, None, None, None, None)
    latest = numbers[-1]
    session = desk.sessions[latest - 1]
    counter = None if session["last"] < 0 else session["last"]
    return line_of(
        name, device["join"], device["owner"], len(numbers), f"{BASE + latest - 1:08x}", device["last"], counter, session["downlinks"], last_starts[latest]
    )


def device_lines(desk):
    sessions, last_starts = {}, {}
    for number, session in enumerate(desk.sessions, 1):
        sessions.setdefault(session["device"], []).append(number)
    for uplink in desk.uplinks:
        number = uplink["session"]
        last_starts[number] = max(start_of(uplink), last_starts.get(number, 0))
    return {name: device_line(desk, name, sessions, last_starts) for name in sorted(desk.devices)}


def devices(desk):
    return text_of([DEVICE_FIELDS, *device_lines(desk).values()])


def month_of(time):
    return f"{datetime.fromtimestamp(time // 1_000_000, timezone.utc):%Y-%m}"


def uplinks_of(desk, name):
    return [uplink for uplink in desk.uplinks if desk.sessions[uplink["session"] - 1]["device"] == name]


def reception_lines(uplink, counter):
    for gateway, (end, frequency, rate) in sorted(uplink["copies"].items()):
        yield line_of(
            *(uplink["number"], uplink["session"], uplink["kind"], counter),
            *(gateway, end, frequency, rate),
            *(start_of(uplink), uplink["airtime"], uplink["band"], uplink["octets"].hex()),
        )


def receptions(desk, name, month):
    counters = {uplink["number"]: counter for known in (desk.joins, desk.frames) for (_, counter), uplink in known.items()}
    heard = [uplink for uplink in uplinks_of(desk, name) if month_of(start_of(uplink)) == month]
    heard.sort(key=lambda uplink: (start_of(uplink), uplink["number"]))
    return text_of([RECEPTION_FIELDS, *(line for uplink in heard for line in reception_lines(uplink, counters[uplink["number"]]))])


def downlink_line(number, booking):
    uplink, start = booking["uplink"], booking["start"]
    return line_of(number, uplink["number"], uplink["kind"], booking["band"], start, booking["end"] - start, STATES[booking["state"]])


def downlinks(desk, gateway, month):
    booked = [number for start, number in sorted(desk.starts.get(gateway, [])) if month_of(start) == month]
    return text_of([DOWNLINK_FIELDS, *(downlink_line(number, desk.bookings[number - 1]) for number in booked)])


def months_of_device(desk, name):
    return sorted({month_of(start_of(uplink)) for uplink in uplinks_of(desk, name)})


def months_of_gateway(desk, name):
    return sorted({month_of(start) for start, _ in desk.starts.get(name, [])})


TEXTS = {"senders": senders, "owners": owners, "gateways": gateways, "devices": devices}


# ---- the desk's


def response_of(port, target):
    response = asked(port, get(target))
    return int(response.split(b" ", 2)[1]), body(response)


def by_curl(port, target):
    words = ["curl", "-sS", "-w", "\n%{http_code} %{content_type}", f"http://127.0.0.1:{port}{target}"]
    ran = subprocess.run(words, capture_output=True, text=True, check=True)
    text, _, told = ran.stdout.rpartition("\n")
    status, kind = told.split()
    wants(kind == ("text/csv" if status == "200" else "text/plain"), f"{target} is {kind}")
    return int(status), text


def compares(what, given, wanted):
    wants(given == wanted, f"{what} is\n{given}\nand not\n{wanted}")


def some(chosen, items, most):
    return chosen.sample(items, min(most, len(items)))


def asks(desk, port, chosen, ask):
    """Asks for each list, a device, one in upper case, one that isn't there, two texts that are none's, and months. Returns how many were asked for."""
    for name in LISTS:
        compares(f"/v1/{name}", ask(port, f"/v1/{name}"), (200, TEXTS[name](desk)))
    lines = device_lines(desk)
    names = some(chosen, sorted(lines), 2)
    for name, text in [*zip(names, names), *((name, name.upper()) for name in names[:1])]:
        compares(f"device {text}", ask(port, f"/v1/devices/{text}"), (200, text_of([DEVICE_FIELDS, lines[name]])))
    others = ["ffffffffffffffff", "0004a30b001a000", "0x0004a30b001a0000"]
    for text in others:
        compares(f"device {text}", ask(port, f"/v1/devices/{text}"), (404, "device\n"))
    return len(LISTS) + len(names) + len(names[:1]) + len(others) + asks_for_months(desk, port, chosen, ask, names)


def asks_for_months(desk, port, chosen, ask, names):
    """Asks for a month of each device and of some gateways, and for an empty one; and for what there isn't."""
    targets = {
        "receptions/ffffffffffffffff/2024-13": (400, "time\n"),
        "receptions/ffffffffffffffff/2024-02": (404, "device\n"),
        "receptions/town/2024-02": (404, "device\n"),
        "downlinks/town/2024-2": (400, "time\n"),
        "downlinks/town/2024-02": (404, "gateway\n"),
    }
    for name in names:
        for month in [*some(chosen, months_of_device(desk, name), 1), EMPTY_MONTH]:
            targets[f"receptions/{name}/{month}"] = 200, receptions(desk, name, month)
    for name in some(chosen, sorted(desk.gateways), 2):
        for month in [*some(chosen, months_of_gateway(desk, name), 1), EMPTY_MONTH]:
            targets[f"downlinks/{name}/{month}"] = 200, downlinks(desk, name, month)
    for target, wanted in targets.items():
        compares(target, ask(port, f"/v1/{target}"), wanted)
    return len(targets)


def printed(program, *words):
    ran = subprocess.run([program, *words], capture_output=True, text=True)
    return ran.returncode, ran.stdout, ran.stderr


def prints(program, file, desk, chosen):
    """The commands, on the file at rest."""
    for name in LISTS:
        compares(f"desk list {name}", printed(program, "list", file, name), (0, TEXTS[name](desk), ""))
    lines = device_lines(desk)
    names = some(chosen, sorted(lines), DEVICES_PRINTED)
    for name in names:
        compares(f"desk device {name}", printed(program, "device", file, name), (0, text_of([DEVICE_FIELDS, lines[name]]), ""))
    for text in ["ffffffffffffffff", "1", "town"]:
        compares(f"desk device {text}", printed(program, "device", file, text), (1, "", "desk: device\n"))
    prints_months(program, file, desk, names)
    for words in [("list", file), ("list", file, "sessions"), ("device", file), ("receptions", file, "2024-02"), ("downlinks", file, "gw-1")]:
        wants(printed(program, *words)[0] == 2, f"{words} doesn't end with status 2")


def prints_months(program, file, desk, names):
    for name in names:
        for month in [*months_of_device(desk, name), EMPTY_MONTH]:
            compares(f"desk receptions {name} {month}", printed(program, "receptions", file, name, month), (0, receptions(desk, name, month), ""))
    for name in sorted(desk.gateways):
        for month in [*months_of_gateway(desk, name), EMPTY_MONTH]:
            compares(f"desk downlinks {name} {month}", printed(program, "downlinks", file, name, month), (0, downlinks(desk, name, month), ""))
    for what in ["receptions", "downlinks"]:
        compares(f"desk {what} town 2024-13", printed(program, what, file, "town", "2024-13"), (1, "", "desk: month\n"))
    compares("desk receptions town 2024-02", printed(program, "receptions", file, "town", "2024-02"), (1, "", "desk: device\n"))
    compares("desk downlinks town 2024-02", printed(program, "downlinks", file, "town", "2024-02"), (1, "", "desk: gateway\n"))


def main():
    words = argparse.ArgumentParser(description=__doc__.splitlines()[0])
    add_program(words)
    words.add_argument("--messages", type=int, default=20_000)
    words.add_argument("--questions", type=int, default=40, help="how many times all lists are asked for")
    words.add_argument("--seed", type=int, default=1)
    given = words.parse_args()
    program, chosen = ready(given.program), random.Random(given.seed)
    lines = mixed_operation(given.messages, given.seed)
    # the plain program again, message by message
    desk = type(lines.desk)()
    moments = {*chosen.sample(range(len(lines)), given.questions), 0, len(lines) - 1}
    with tempfile.TemporaryDirectory() as folder:
        file, port, count = Path(folder) / "town.db", free_port(), 0
        subprocess.run([program, "init", file], check=True)
        serving = subprocess.Popen([program, "serve", file, "--port", str(port), "--count", "1000000"], stdout=subprocess.PIPE, text=True)
        try:
            serving.stdout.readline()
            for place, line in enumerate(lines):
                if place in moments:
                    count += asks(desk, port, chosen, by_curl if place % 4 == 0 else response_of)
                asked(port, post(line))
                if line != NO_MESSAGE:
                    desk.deliver(line)
            count += asks(desk, port, chosen, by_curl)
            refused = asked(port, b"POST /v1/devices HTTP/1.1\r\nhost: a\r\ncontent-length: 0\r\n\r\n")
            wants(refused.startswith(b"HTTP/1.1 405 ") and b"allow: GET\r\n" in refused, f"a POST gets\n{refused}")
            refused = asked(port, b"DELETE /v1/downlinks/gw-1/2024-02 HTTP/1.1\r\nhost: a\r\n\r\n")
            wants(refused.startswith(b"HTTP/1.1 405 ") and b"allow: GET\r\n" in refused, f"a DELETE gets\n{refused}")
        finally:
            serving.kill()
            serving.wait()
        prints(program, file, desk, chosen)
    print(f"lists.py: {len(lines)} messages, {count} texts while they came in, all as the plain program has them")


if __name__ == "__main__":
    main()
