"""The tables of docs/linux.md: scripts that show each intended difference, with the replies of both sides."""

import re

import comparing, running
from building import Trouble, text_of

HEADING = "| lines | Linux | here |\n|---|---|---|\n"
BEGINNING = "domain a 1"


def tables(page):
    """The rows of each table: the lines, and what both sides reply to the last one."""
    for table in text_of(page).split(HEADING)[1:]:
        rows = table.split("\n\n")[0].splitlines()
        cells = [[re.findall(r"`([^`]*)`", cell) for cell in row.strip("|").split("|")] for row in rows]
        yield [(lines, {comparing.LINUX: linux, comparing.PROGRAM: here}) for lines, (linux,), (here,) in cells]


def replies_to(session, rows):
    """What both sides replied to the last line of each row, as far as the script came."""
    done = iter(session.pair.done[1:])
    for lines, _ in rows:
        replies = [next(done, None) for _ in lines][-1]
        yield replies and {side: replies[1][side][0][1] for side in replies[1] if replies[1][side]}


def check(setting, page):
    """Runs each table, and fails where a reply is not the one on the page. Returns how many there are."""
    big = running.Setting(setting.harness, setting.program, "big", setting.has_completed)
    count = 0
    for count, rows in enumerate(tables(page), 1):
        script = [BEGINNING, *(line for lines, _ in rows for line in lines)]
        session = running.run_one(big, 1, script)
        for (lines, wanted), found in zip(rows, replies_to(session, rows)):
            if found != wanted:
                raise Trouble(f"{page}: `{lines[-1]}` has the replies {found}, and not {wanted} {session.difference or ''}")
    return count
