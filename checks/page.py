#!/usr/bin/env python3
"""Makes the page and the chart of examples/page.py over a generated day, and opens both in a headless Chromium.

    checks/page.py [--program FILE] [--messages 4000] [--keep FOLDER]

A desk serves a new file that has heard messages of mixed operation (mixed_operation.py). The page has to have no script and to load
nothing, to name each owner, each device and each gateway, and to show the last fifty messages with what became of them. At 1,200 and at
400 pixels of width nothing in it is wider than the window. The chart has a line for each of the six sub-bands. A desk that doesn't
answer leaves the file as it is. With --keep the page, the chart and pictures of them stay in FOLDER, to be looked at; else nothing
is kept. The browser is the program `chromium` (Debian's package of that name). The program is `./desk`, which is proved and built
first if it isn't current, or with --program the built one in FILE.
"""

import argparse
import re
import shutil
import subprocess
import sys
import tempfile
from pathlib import Path

from common import ROOT, add_program, ready, text_of, wants
from http_client import free_port
from mixed_operation import NO_MESSAGE, mixed_operation

PAGE = ROOT / "examples" / "page.py"
WIDTHS = [1_200, 400]
# a page around it, whose title is how wide it is
MEASURE = """<!DOCTYPE html><title>not measured</title><iframe src="page.html" style="border:0;width:{width}px;height:2000px"></iframe><script>
onload = () => {{ document.title = "width " + document.querySelector("iframe").contentDocument.documentElement.scrollWidth; }};
</script>"""


def chromium(*words):
    program = shutil.which("chromium") or sys.exit("page.py: there is no chromium: apt-get install chromium")
    options = ["--headless", "--no-sandbox", "--disable-gpu", "--hide-scrollbars", "--allow-file-access-from-files", "--virtual-time-budget=5000"]
    return subprocess.run([program, *options, *words], capture_output=True, text=True, timeout=120).stdout


def width_of(folder, width):
    (folder / "measure.html").write_text(MEASURE.format(width=width))
    dom = chromium(f"--window-size={width + 50},2000", "--dump-dom", (folder / "measure.html").as_uri())
    found = re.search(r"<title>width (\d+)</title>", dom)
    wants(found, f"the browser shows\n{dom[:500]}")
    return int(found[1])


def picture(file, page, width, height):
    chromium(f"--window-size={width},{height}", f"--screenshot={file}", page.as_uri())
    # the width and the height that a PNG file names
    given = tuple(int.from_bytes(file.read_bytes()[place : place + 4], "big") for place in (16, 20))
    wants(given == (width, height), f"{file.name} is {given}")


def makes(port, *words):
    return subprocess.run([sys.executable, PAGE, "--desk", f"127.0.0.1:{port}", *words], capture_output=True, text=True)


def checks_page(text, lines):
    desk = lines.desk
    wants(not re.search(r"<script|<link|<img|<iframe|src=|href=|url\(|@import|javascript:", text, re.I), "the page loads something, or has a script")
    for name in [*desk.owners, *desk.gateways]:
        wants(f"<h3>{name}</h3>" in text, f"the page lacks {name}")
    for name in desk.devices:
        wants(text.count(f"<code>{name}</code>") == 1, f"the page lacks {name}")
    shown = re.findall(r"<td class=number>(\d+)</td>", text)
    last = len(desk.heard)
    wants(shown == [str(number) for number in range(last, last - 50, -1)], f"the page shows the messages {shown}")
    refused = sum('"ResultCode":"Success"' not in answer for _, answer in list(desk.heard.values())[-50:])
    wants(text.count("<td class=refused>") == refused, f"of the last fifty messages {refused} were refused")


def main():
    words = argparse.ArgumentParser(description=__doc__.splitlines()[0])
    add_program(words)
    words.add_argument("--messages", type=int, default=4_000)
    words.add_argument("--keep", type=Path, metavar="FOLDER")
    given = words.parse_args()
    program = ready(given.program)
    lines = mixed_operation(given.messages, 1, devices=30)
    with tempfile.TemporaryDirectory() as made:
        folder, port = given.keep or Path(made), free_port()
        folder.mkdir(exist_ok=True)
        file, page, chart = Path(made) / "town.db", folder / "page.html", folder / "chart.svg"
        subprocess.run([program, "init", file], check=True)
        heard = [line for line in lines if line != NO_MESSAGE]
        subprocess.run([program, "hear", file], input=text_of(heard), text=True, stdout=subprocess.DEVNULL, check=True)
        now = max(booking["end"] for booking in lines.desk.bookings)
        serving = subprocess.Popen([program, "serve", file, "--port", str(port), "--count", "1000000"], stdout=subprocess.PIPE, text=True)
        try:
            serving.stdout.readline()
            for told in [makes(port, "--now", str(now), page), makes(port, "--day", "gw-0", "2024-02-01", chart)]:
                wants((told.returncode, told.stdout, told.stderr) == (0, "", ""), f"page.py ends with {told}")
        finally:
            serving.kill()
            serving.wait()
        text = page.read_text()
        checks_page(text, lines)
        wants(chart.read_text().count("<polyline ") == 6, "the chart lacks a sub-band")
        told = makes(port, page)
        wants(told.returncode == 1 and told.stderr.startswith("page: the desk doesn't answer") and page.read_text() == text, f"without a desk page.py ends with {told}")
        for width in WIDTHS:
            found = width_of(folder, width)
            wants(found <= width, f"at {width} pixels the page is {found} wide")
            picture(folder / f"page_{width}.png", page, width, 2_400)
        picture(folder / "chart.png", chart, 1_000, 800)
        (folder / "measure.html").unlink()
    print(f"page.py: {len(heard)} messages, the page at {WIDTHS[0]} and {WIDTHS[1]} pixels, and a day's chart")


if __name__ == "__main__":
    main()
