#!/usr/bin/env python3
"""page.py MODULE SOCKDIAG [LISTER SSLIST]: makes the page of tools/page, opens it in headless
Chromium with replies and invalid ones, and compares what it shows with the answers of the program
sockdiag: the canonical form, or the code of the first error. If the file LISTER exists, it also
drops a capture on the page, and compares what is listed with what the program sslist writes.
Without Chromium it is skipped. The gate runs this script."""

import base64
import html
import re
import shutil
import subprocess
import sys
import tempfile
from pathlib import Path

TOP = Path(__file__).resolve().parent.parent
UNIX = "01010a000e4f0000a002000000000000"
INET = "02010200d9040050" + 64 * "00"
# Replies, of which some are invalid, and what the page has to show of them in addition.
REPLIES = {
    UNIX + "0500068002000000": ("shutdown", "16"), UNIX + "09000000006100626300000": (),
    UNIX + "0c0004000000000080000000": ("send_queue", "128"), INET + "0500080003000000": ("55556",),
    INET + "0a000400637562696300": ("cubic",), UNIX[:20]: (), UNIX + "0300": (),
    UNIX + "0c00040000000000": (), UNIX + "0500020001000000": (), "0302" + INET[4:]: (),
}
# A capture, the options that it is listed with, and a script that enters them and drops the file.
CAPTURE = TOP / "examples/capture.pcap"
OPTIONS = ("", "--json -- state listening", "--no-option")
DROP = """
<script>
const bytes = Uint8Array.from(atob("%s"), (it) => it.charCodeAt(0)), dropped = new DataTransfer();
dropped.items.add(new File([bytes], "capture.pcap"));
document.getElementById("options").value = "%s";
document.body.dispatchEvent(new DragEvent("drop", {dataTransfer: dropped, bubbles: true}));
</script>
"""


def opened(page, digits=""):
    """Returns the elements of a page, after its scripts have run."""
    words = "--headless --no-sandbox --disable-gpu --virtual-time-budget=5000 --dump-dom".split()
    run = subprocess.run([CHROMIUM, *words, f"file://{page}#{digits}"], capture_output=True,
                         text=True, timeout=120, check=True)
    return run.stdout


def shown(page, digits):
    """Returns the text of the page for a reply."""
    answer = opened(page, digits).partition('<div id="answer">')[2].partition("<script>")[0]
    return html.unescape(re.sub(r"<[^>]+>", " ", answer))


def wrong_lists(page, program):
    """Returns the number of lists on the page that are not those of the program."""
    wrong = 0
    for options in OPTIONS:
        copy = page.with_name("dropped.html")
        copy.write_text(page.read_text() + DROP % (base64.b64encode(CAPTURE.read_bytes()).decode(),
                                                   options))
        with CAPTURE.open() as file:
            run = subprocess.run([program, *options.split()], stdin=file, capture_output=True,
                                 text=True, check=False)
        text = opened(copy)
        found = [html.unescape(it) for it in re.findall(r'<pre id="[^>]*>([^<]*)</pre>', text)]
        if found != [run.stderr, run.stdout]:
            wrong += 1
            print(f"page: sslist {options}: {[it[:300] for it in found]}")
    return wrong


def expected(answer):
    """Returns what the page has to show for an answer of sockdiag."""
    verdict, _, value = answer.partition(" ")
    if verdict == "bad":
        return "not pairs of hex digits"
    if verdict == "ok":
        return value
    return "is not known" if value == "5" else f"rror {value}: "


def main():
    module, program, *lister = sys.argv[1:]
    if lister and not Path(lister[0]).exists():
        print(f"page: skipped: the lister: no {lister[0]}")
        lister = []
    lines = "".join(f"message {it}\n" for it in REPLIES)
    answers = subprocess.run([program], input=lines, capture_output=True, text=True, check=True)
    wrong = 0
    with tempfile.TemporaryDirectory() as folder:
        page = Path(folder, "sockdiag.html")
        with page.open("w") as file:
            subprocess.run([TOP / "tools/page", module, *lister[:1]], stdout=file, check=True)
        found = answers.stdout.splitlines()
        for (digits, more), answer in zip(REPLIES.items(), found, strict=True):
            text = shown(page, digits)
            lacking = [it for it in (expected(answer), *more) if it not in text]
            # No reply has these.
            absent = [it for it in ("has_", "legacy_memory", "cgroup_id") if it in text]
            if lacking or absent:
                wrong += 1
                print(f"page: {digits}: {answer}: the page lacks {lacking}, and has {absent}:"
                      f" {text[:300]}")
        print(f"page: {len(REPLIES)} replies, {wrong} wrong")
        if lister:
            unlike = wrong_lists(page, lister[1])
            print(f"page: {len(OPTIONS)} lists, {unlike} wrong")
            wrong += unlike
    return 1 if wrong else 0


CHROMIUM = shutil.which("chromium") or shutil.which("google-chrome")
if __name__ == "__main__":
    if CHROMIUM is None:
        print("page: skipped: no chromium")
    else:
        sys.exit(main())
