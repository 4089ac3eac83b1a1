#!/usr/bin/env python3
"""Writes what a script measured to docs/measured/NAME.md, over what the script wrote there before.

usage: COMMAND .. | scripts/measured.py NAME TITLE MADE_BY LOAD      (for a script of the shell: standard input has the
                    tables, and LOAD is the load when the measuring began)

Such a page is of one machine and one date. Its first lines say which, and the command that makes it.
"""
import datetime
import os
import re
import subprocess
import sys
import tempfile

TOP = os.path.dirname(os.path.dirname(os.path.abspath(__file__)))
COMMAND = " ".join([os.path.relpath(os.path.abspath(sys.argv[0]), TOP), *sys.argv[1:]])
# When the measuring begins.
LOAD = os.getloadavg()[0]


def is_asked():
    """Takes the word --write out of the arguments, and returns whether it was there."""
    asked = "--write" in sys.argv
    sys.argv = [it for it in sys.argv if it != "--write"]
    return asked


def table(head, rows):
    """Returns a table. A cell of 0 or nothing is left empty; thousands of numbers are separated."""

    def line(cells):
        texts = (f"{it:,}" if it and isinstance(it, int) else str(it or "") for it in cells)
        return "|" + "|".join(f" {it} " if it else " " for it in texts) + "|\n"

    return line(head) + "|" + "---|" * len(head) + "\n" + "".join(map(line, rows))


def cost(words, text):
    """Returns what a run over this text prints, its processor seconds and its most megabytes. GNU time measures them: the
    memory of a process counts what the process that began it had, and GNU time is small."""
    with tempfile.NamedTemporaryFile("r") as took:
        timed = ["/usr/bin/time", "-q", "-o", took.name, "-f", "%U %S %M", *words]
        printed = subprocess.run(timed, input=text, stdout=subprocess.PIPE, text=True, check=True).stdout
        user, system, most = map(float, took.read().split())
    return printed, user + system, most / 1024


def machine():
    """Returns the processors, their pace, and the load when the measuring began and now."""
    with open("/proc/cpuinfo", encoding="utf-8") as file:
        text = file.read()
    named, clock = re.search(r"@ ([\d.]+)GHz", text), re.search(r"cpu MHz\s*: ([\d.]+)", text)
    pace = float(named[1]) if named else float(clock[1]) / 1000 if clock else 0.0
    count, now = len(os.sched_getaffinity(0)), os.getloadavg()[0]
    return f"{count} processors of {pace:.1f} GHz, load {LOAD:.0f} to {now:.0f}"


def page(title, made_by, body, when, where):
    return f"# {title}\n\nMade by `{made_by}` on {when}, {where}.\n\n{body}"


def write(name, title, body, program="", made_by=COMMAND):
    """Writes the page. It names the program that was run, if one is given."""
    where = machine() + (f", of `{os.path.relpath(program, TOP)}`" if program else "")
    path = f"{TOP}/docs/measured/{name}.md"
    with open(path, "w", encoding="utf-8") as file:
        file.write(page(title, made_by, body, datetime.date.today().isoformat(), where))
    print(f"written: {os.path.relpath(path)}", file=sys.stderr)


if __name__ == "__main__":
    if len(sys.argv) != 5:
        sys.exit(__doc__.strip())
    LOAD = float(sys.argv[4])
    write(sys.argv[1], sys.argv[2], sys.stdin.read(), made_by=sys.argv[3])
