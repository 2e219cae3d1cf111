#!/usr/bin/env python3
"""bench/table.py [COMMAND..]: prints the Markdown table on standard input, as docs/SPEED.md has it,
and then the date, the machine, the kit and the versions of programs, the first line that each
COMMAND prints."""
import datetime
import os
import shutil
import subprocess
import sys
from pathlib import Path


def machine():
    """Returns the version of Linux, the number of processors and their model."""
    lines = Path("/proc/cpuinfo").read_text(encoding="utf-8").splitlines()
    model = next((line.partition(": ")[2] for line in lines if line.startswith("model name")), "")
    return f"Linux {os.uname().release.partition('-')[0]}, {os.cpu_count()} processors, {model}"


def version(command):
    """Returns the first line that a command prints, or an empty text if it is not installed."""
    words = command.split()
    if not shutil.which(words[0]):
        return ""
    done = subprocess.run(words, stdout=subprocess.PIPE, check=True, text=True)
    return done.stdout.partition("\n")[0]


def table(text):
    """Returns the rows of a Markdown table, the heading first."""
    lines = [line for line in text.splitlines() if line.startswith("|")]
    return [line.strip("| ").split(" | ") for line in lines if not line.startswith("|---")]


def print_table(rows, *commands):
    """Prints the rows, the heading first, as a Markdown table, and what was measured. The commands
    print the versions of the programs that were measured."""
    for row in (rows[0], ("---",) * len(rows[0]), *rows[1:]):
        print("|", " | ".join(row), "|")
    about = {
        "date": datetime.date.today().isoformat(), "machine": machine(),
        "with": ", ".join(filter(None, map(version, commands))),
        "kit": version("rt version").partition(" ")[0],
    }
    print(*(f"{key}: {value}" for key, value in about.items()), sep="\n")


if __name__ == "__main__":
    print_table(table(sys.stdin.read()), *sys.argv[1:])
