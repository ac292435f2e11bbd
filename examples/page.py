#!/usr/bin/env python3
"""Makes a page to look at of a desk that serves: one HTML file, complete in itself, with no script.

    examples/page.py [--desk http://127.0.0.1:8080] [--now MICROSECONDS] PAGE.html
    examples/page.py [--desk http://127.0.0.1:8080] --day GATEWAY YYYY-MM-DD CHART.svg

The page has the owners with their devices and when each was last heard; the gateways with a bar for each sub-band: the use of the hour
that ends now, its limit and what is left; and the last fifty messages with what became of them. With --day the file is a chart of
one gateway and one day (UTC) instead: for each sub-band the use of the hour that ends, every ten minutes, against the limit.

It asks the desk by its routes, one request after another, and writes the file once it has all answers. If the desk doesn't answer or
answers an error, it writes one line to standard error, ends with status 1, and leaves the file as it is.
"""

import argparse
import csv
import http.client
import io
import json
import os
import sys
import tempfile
import time
from datetime import datetime, timedelta, timezone
from html import escape
from itertools import groupby
from pathlib import Path
from urllib.parse import quote, urlsplit

# above the ten seconds that the desk gives a request, for us and one client before us
DESK_TIMEOUT_SECONDS = 25
MESSAGES_SHOWN = 50
LINES_OF_A_RESPONSE = 1_000
STEP_OF_A_CHART = timedelta(minutes=10)
MICROSECONDS = 1_000_000


class PageError(Exception):
    """The page can't be made."""


# ---- what the desk answers


class Desk:
    """The desk that serves. A connection has one request."""

    def __init__(self, address):
        self.address = address

    def __str__(self):
        return f"{self.address[0]}:{self.address[1]}"

    def text(self, *parts):
        target = "/v1/" + "/".join(quote(str(part), safe="") for part in parts)
        connection = http.client.HTTPConnection(*self.address, timeout=DESK_TIMEOUT_SECONDS)
        try:
            connection.request("GET", target)
            response = connection.getresponse()
            body = response.read().decode()
        except (OSError, http.client.HTTPException) as error:
            raise PageError(f"the desk doesn't answer: {error or type(error).__name__}") from None
        finally:
            connection.close()
        if response.status != 200:
            raise PageError(f"the desk answers {response.status} to {target}: {body.strip()}")
        return body

    def table(self, *parts):
        return list(csv.DictReader(io.StringIO(self.text(*parts))))

    def part_of_log(self, part):
        """The answers of a part of the log, of 1,000 messages. The first part has the number 0."""
        return self.text("answers", LINES_OF_A_RESPONSE * part + 1).splitlines()

    def last_messages(self, count):
        """The numbers, the messages and the answers of the last ones, the last first."""
        above = 1
        while self.part_of_log(above):
            above *= 2
        # the first part without messages is above `low` and at most `above`
        low = above // 2
        while low + 1 < above:
            middle = (low + above) // 2
            if self.part_of_log(middle):
                low = middle
            else:
                above = middle
        heard = LINES_OF_A_RESPONSE * low + len(self.part_of_log(low))
        first = max(1, heard - count + 1)
        messages = self.text("log", first).splitlines()
        answers = self.text("answers", first).splitlines()
        both = [(json.loads(message), json.loads(answer)) for message, answer in zip(messages, answers)]
        return [(number, *pair) for number, pair in enumerate(both, first)][-count:][::-1]

    def room(self, gateway, now):
        return [{name: value if name == "band" else int(value) for name, value in row.items()} for row in self.table("room", gateway, now)]


# ---- texts


def moment(microseconds):
    return datetime.fromtimestamp(microseconds / MICROSECONDS, timezone.utc)


def day_and_time(microseconds):
    return moment(microseconds).strftime("%Y-%m-%d %H:%M:%S")


def ago(microseconds, now):
    minutes = (now - microseconds) // (60 * MICROSECONDS)
    if minutes < 1:
        return "now"
    size, name = next(unit for unit in ((24 * 60, "d"), (60, "h"), (1, "min")) if minutes >= unit[0])
    return f"{minutes // size} {name} ago"


def seconds(microseconds):
    return f"{microseconds / MICROSECONDS:,.2f} s"


def about(message):
    """What a message is about."""
    names = ("Sender", "Role", "Owner", "DevEUI", "Gateway", "Band", "Limit", "Uplink", "Window", "Booking", "Sent")
    return " ".join(f"{name} {message[name]}" for name in names if name in message)


def outcome(answer):
    """Whether the message was accepted, and what became of it."""
    result = answer["Result"]
    if result["ResultCode"] != "Success":
        return False, " ".join(part for part in (result["ResultCode"], result["Description"]) if part)
    names = ("Uplink", "DevAddr", "DevEUI", "Counter", "Booking", "Band")
    parts = [f"{name} {answer[name]}" for name in names if name in answer]
    if answer.get("Copy"):
        parts.insert(0, "copy")
    return True, " ".join(parts) or "accepted"


# ---- the page

STYLE = """
:root { color-scheme: light; --line: #d5d9e0; --soft: #f3f5f8; --text: #1b2430; --weak: #5a6675; --used: #2563a8; --full: #b3401f; }
* { box-sizing: border-box; }
body { margin: 0 auto; max-width: 76rem; padding: 1rem; font: 15px/1.45 system-ui, sans-serif; color: var(--text); background: #fff; }
h1 { font-size: 1.5rem; margin: .2rem 0; }
h2 { font-size: 1.15rem; margin: 1.8rem 0 .6rem; }
h3 { font-size: 1rem; margin: 0 0 .4rem; overflow-wrap: anywhere; }
p.when, .weak { color: var(--weak); }
.cards { display: grid; grid-template-columns: repeat(auto-fill, minmax(min(22rem, 100%), 1fr)); gap: .8rem; }
.card { border: 1px solid var(--line); border-radius: .4rem; padding: .7rem .8rem; min-width: 0; }
.wide { overflow-x: auto; }
table { border-collapse: collapse; width: 100%; }
th, td { text-align: left; padding: .2rem .6rem .2rem 0; vertical-align: top; border-bottom: 1px solid var(--soft); }
th { color: var(--weak); font-weight: 600; white-space: nowrap; }
td.number { text-align: right; white-space: nowrap; }
code { font: .9em ui-monospace, monospace; white-space: nowrap; }
.band { display: grid; grid-template-columns: 2rem 1fr; gap: .1rem .4rem; margin-bottom: .45rem; }
.bar { background: var(--soft); border: 1px solid var(--line); border-radius: .2rem; height: 1rem; align-self: center; }
.bar div { background: var(--used); height: 100%; border-radius: .15rem; }
.bar div.full { background: var(--full); }
.bar.closed { background: repeating-linear-gradient(135deg, var(--line) 0 4px, var(--soft) 4px 8px); }
.band .weak { grid-column: 2; font-size: .85rem; }
.refused { color: var(--full); }
@media (max-width: 40rem) {
  .messages thead { display: none; }
  .messages tr { display: block; padding: .35rem 0; border-bottom: 1px solid var(--line); }
  .messages td { display: inline; border: 0; padding: 0 .3rem 0 0; }
  .messages td:last-child { display: block; }
}
"""


def cell(text, name="td", kind=""):
    return f'<{name}{f" class={kind}" if kind else ""}>{text}</{name}>'


def row(cells):
    return f"<tr>{''.join(cells)}</tr>"


def table_of(header, rows, kind=""):
    head = row(cell(escape(name), "th") for name in header)
    return f'<div class="wide"><table{f" class={kind}" if kind else ""}><thead>{head}</thead><tbody>{"".join(rows)}</tbody></table></div>'


def device_row(device, now):
    heard = device["last_start_us"]
    when = f"{day_and_time(int(heard))}<br><span class=weak>{ago(int(heard), now)}</span>" if heard else "<span class=weak>never</span>"
    address = f"<br><code class=weak>{escape(device['dev_addr'])}</code>" if device["dev_addr"] else ""
    return row([cell(f"<code>{escape(device['dev_eui'])}</code>{address}"), cell(when)])


def owner_card(owner, devices, now):
    rows = [device_row(device, now) for device in devices]
    body = table_of(["device", "last heard (UTC)"], rows) if rows else "<p class=weak>no devices</p>"
    return f'<div class="card"><h3>{escape(owner)}</h3>{body}</div>'


def band_bar(band):
    used, limit = band["used_us"], band["limit_us"]
    part = min(100, 100 * used / limit) if limit else 0
    full = " class=full" if part > 90 else ""
    if limit:
        left = f"{seconds(used)} of {seconds(limit)} used, {seconds(max(0, limit - used))} left"
        told = f"{left}; a downlink now: {'up to ' + seconds(band['room_us']) if band['room_us'] else 'none'}"
    else:
        told = "closed: the limit is 0"
    return (
        f'<div class="band"><strong>{escape(band["band"])}</strong>'
        f'<div class="bar{"" if limit else " closed"}"><div{full} style="width:{part:.1f}%"></div></div><span class="weak">{told}</span></div>'
    )


def gateway_card(gateway, bands):
    return f'<div class="card"><h3>{escape(gateway)}</h3>{"".join(band_bar(band) for band in bands)}</div>'


def message_row(number, message, answer):
    accepted, became = outcome(answer)
    became = cell(escape(became)) if accepted else cell(escape(f"refused: {became}"), kind="refused")
    return row(
        [
            cell(str(number), kind="number"),
            cell(escape(message["SenderID"])),
            cell(f"<strong>{escape(message['MessageType'])}</strong>"),
            cell(escape(about(message))),
            became,
        ]
    )


def counted(things, name):
    return f"{len(things)} {name}{'' if len(things) == 1 else 's'}"


def page(desk, now):
    owners = [line["owner"] for line in desk.table("owners")]
    devices = sorted(desk.table("devices"), key=lambda device: device["owner"])
    owned = {owner: list(group) for owner, group in groupby(devices, key=lambda device: device["owner"])}
    gateways = [line["gateway"] for line in desk.table("gateways")]
    rooms = [(gateway, desk.room(gateway, now)) for gateway in gateways]
    messages = desk.last_messages(MESSAGES_SHOWN)
    cards = "".join(owner_card(owner, owned.get(owner, []), now) for owner in owners)
    bars = "".join(gateway_card(*it) for it in rooms)
    rows = [message_row(*it) for it in messages]
    counts = ", ".join((counted(devices, "device"), counted(owners, "owner"), counted(gateways, "gateway")))
    return f"""<!DOCTYPE html>
<html lang="en">
<head>
<meta charset="utf-8">
<meta name="viewport" content="width=device-width, initial-scale=1">
<title>The desk at {escape(str(desk))}</title>
<style>{STYLE}</style>
</head>
<body>
<h1>The desk at {escape(str(desk))}</h1>
<p class="when">as of {day_and_time(now)} UTC: {counts}</p>
<h2>Gateways</h2>
<p class="weak">The use of each sub-band in the hour that ends now, against its limit.</p>
<div class="cards">{bars or "<p class=weak>none</p>"}</div>
<h2>Owners and their devices</h2>
<div class="cards">{cards or "<p class=weak>none</p>"}</div>
<h2>The last messages</h2>
{table_of(["", "sender", "message", "about", "answer"], rows, "messages") if rows else "<p class=weak>none</p>"}
</body>
</html>
"""


# ---- the chart of a day

CHART_WIDTH, BAND_HEIGHT, LEFT, RIGHT, TOP, GAP = 960, 90, 78, 20, 46, 26


def chart(desk, gateway, day):
    start = datetime.strptime(day, "%Y-%m-%d").replace(tzinfo=timezone.utc)
    times = [start + STEP_OF_A_CHART * number for number in range(int(timedelta(days=1) / STEP_OF_A_CHART) + 1)]
    rooms = [desk.room(gateway, int(at.timestamp()) * MICROSECONDS) for at in times]
    bands = [[room[place] for room in rooms] for place in range(len(rooms[0]))]
    height = TOP + len(bands) * (BAND_HEIGHT + GAP)
    parts = [band_chart(band, TOP + place * (BAND_HEIGHT + GAP)) for place, band in enumerate(bands)]
    title = f"{gateway}, {day} (UTC): use of the hour that ends, against the limit"
    return (
        f'<svg xmlns="http://www.w3.org/2000/svg" viewBox="0 0 {CHART_WIDTH} {height}" font-family="system-ui, sans-serif" font-size="12">'
        f'<title>{escape(title)}</title><rect width="100%" height="100%" fill="#fff"/>'
        f'<text x="{LEFT}" y="24" font-size="16" fill="#1b2430">{escape(title)}</text>{"".join(parts)}</svg>\n'
    )


def band_chart(band, top):
    """One sub-band's chart, from its room at each time. Its height is the greater of the limit and the greatest use."""
    limit = band[-1]["limit_us"]
    most = max(1, limit, *(at["used_us"] for at in band))
    width = CHART_WIDTH - LEFT - RIGHT
    bottom = top + BAND_HEIGHT

    def x(place):
        return LEFT + width * place / (len(band) - 1)

    def y(used):
        return bottom - BAND_HEIGHT * used / most

    hours = "".join(
        f'<line x1="{x(place):.1f}" y1="{top}" x2="{x(place):.1f}" y2="{bottom}" stroke="#e6e9ee"/>'
        f'<text x="{x(place):.1f}" y="{bottom + 13}" text-anchor="middle" fill="#5a6675">{hour:02}</text>'
        for hour, place in ((hour, hour * (len(band) - 1) / 24) for hour in range(0, 25, 3))
    )
    line = " ".join(f"{x(place):.1f},{y(at['used_us']):.1f}" for place, at in enumerate(band))
    area = f"{LEFT},{bottom} {line} {LEFT + width},{bottom}"
    return (
        f'<g>{hours}<polygon points="{area}" fill="#2563a8" fill-opacity=".18"/><polyline points="{line}" fill="none" stroke="#2563a8" stroke-width="1.5"/>'
        f'<line x1="{LEFT}" y1="{y(limit):.1f}" x2="{LEFT + width}" y2="{y(limit):.1f}" stroke="#b3401f" stroke-dasharray="5 3"/>'
        f'<line x1="{LEFT}" y1="{bottom}" x2="{LEFT + width}" y2="{bottom}" stroke="#9aa4b1"/>'
        f'<text x="{LEFT - 8}" y="{top + 14}" text-anchor="end" font-weight="600" fill="#1b2430">{escape(band[0]["band"])}</text>'
        f'<text x="{LEFT - 8}" y="{top + 30}" text-anchor="end" fill="#b3401f">{limit / MICROSECONDS:g} s</text>'
        f'<text x="{LEFT - 8}" y="{bottom}" text-anchor="end" fill="#5a6675">0</text></g>'
    )


# ---- the command line


def address(text):
    url = urlsplit(text if "//" in text else f"//{text}")
    if url.scheme not in ("", "http") or not url.hostname or url.path.strip("/") or url.query:
        raise argparse.ArgumentTypeError("a URL has the form http://HOST:PORT")
    try:
        return url.hostname, url.port or 80
    except ValueError:
        raise argparse.ArgumentTypeError("a port is 1 to 65535") from None


def write(file, text):
    """Writes a new file in the same folder and renames it, so that a reader sees the whole of the old one or of the new one."""
    file = Path(file)
    with tempfile.NamedTemporaryFile("w", dir=file.absolute().parent, prefix=f".{file.name}.", delete=False, encoding="utf-8") as made:
        made.write(text)
    # as readable as a file that open() makes
    mask = os.umask(0)
    os.umask(mask)
    os.chmod(made.name, 0o666 & ~mask)
    os.replace(made.name, file)


def main():
    words = argparse.ArgumentParser(description=__doc__.splitlines()[0])
    words.add_argument("file", metavar="FILE", help="the file to write")
    words.add_argument("--desk", type=address, default=("127.0.0.1", 8080), metavar="URL", help="where the desk serves, http://127.0.0.1:8080 by default")
    words.add_argument("--now", type=int, metavar="MICROSECONDS", help="the time of the page, in microseconds since 1970 UTC, in place of the clock's")
    words.add_argument("--day", nargs=2, metavar=("GATEWAY", "YYYY-MM-DD"), help="a chart of this gateway and this day, in place of the page")
    given = words.parse_args()
    desk = Desk(given.desk)
    try:
        if given.day:
            write(given.file, chart(desk, *given.day))
        else:
            write(given.file, page(desk, int(time.time() * MICROSECONDS) if given.now is None else given.now))
    except ValueError as error:
        words.error(str(error))
    except (PageError, OSError) as error:
        sys.exit(f"page: {error}")


if __name__ == "__main__":
    main()
