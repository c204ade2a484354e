"""Copies a test crate so that its tests say where each row of a table begins, by a call of libc's getppid.

A row has nothing in common with the others: once it is played, and once more where it was refused memory, it is done with.
So what is refused in it needs no play of the rows after it. scripts/refuse.c ends a process where it hears of the next row.
"""

import with_tests

# The loops over rows, by crate and file. Each judges a row before the next one begins, and hands it nothing.
LOOPS = {
    "txc_tests": {
        "client/clients/boxes.rt": ["for script in scripts {"],
        "client/clients/quiet.rt": ["for script in SCRIPTS {"],
        "client/clients/refusals.rt": ["for (place, script) in scripts.iter().enumerate() {", "for count in 0..=CALLS.lines().count() {"],
        "client/clients/sessions.rt": ["for (script, receipts) in SCRIPTS {"],
        "client/updates.rt": ["for script in SCRIPTS {"],
        "run/faults.rt": ["for (script, text) in &LINES {", "for (script, word, expected, found) in &WORDS {"],
        "run/run.rt": [
            "for (name, settings, script, replies, end) in rows {",
            "for (name, mode, script, output, exit) in &EXAMPLES {",
            "for (start, byte, count, replies, end) in lines {",
            "for len in 0..=script.len() {",
            "for (write_fails, len) in (1usize..).zip(0..=output.len()) {",
        ],
        "batch/batch.rt": ["for (name, settings, script, replies, status) in &SCRIPTS {"],
        "batch/batch/faults.rt": ["for (script, text) in &FAULTS {"],
        "batch/batch/streams.rt": [
            "for end in 0..SCRIPT.len() {",
            "for read in 1..SCRIPT.len().saturating_add(2) {",
            "for write in 1..REPLIES.len().saturating_add(3) {",
            "for (count, end, written, status) in &COMMENTS {",
        ],
        "world/world.rt": ["for (name, settings, script, replies, status) in &EXAMPLES {", "for (name, settings, lines) in &REFUSED {"],
        "world/world/faults.rt": ["for (script, text) in &LINES {", "for (script, word, expected, found) in &WORDS {"],
        "world/world/steps.rt": ["for script in SCRIPTS {"],
        "world/world/streams.rt": [
            "for len in 0..=SCRIPT.len() {",
            "for (write_fails, len) in (1usize..).zip(0..=replies.len()) {",
            "for (count, end, written, status) in &COMMENTS {",
        ],
        "call/functions.rt": ["for lines in 0..=FUNCTIONS.lines().count() {", "for (boxes, wanted) in BOXES {"],
        "db/carries.rt": ["for case in cases {", "for case in &RENEWALS {"],
        "db/db/alone.rt": ["for script in scripts {"],
        "db/db/locked.rt": ["for script in scripts {"],
        "db/pins/shared.rt": ["for script in scripts {"],
        "db/rows.rt": ["for script in scripts {"],
        "db/stores.rt": ["for number in 0..scripts {"],
        "txn/shared/locked.rt": ["for script in scripts {"],
        "txn/transactions.rt": ["for script in SCRIPTS {", "for row in ALL_REFUSALS {", "for lines in 0..=IN_A_CALL.lines().count() {"],
    },
}

BEGINS = " let _parent = libc::getppid();"


def marked(crate, file, text):
    """The text of the file with a call at the beginning of each loop over rows."""
    for loop in LOOPS.get(crate, {}).get(file, ()):
        if text.count(f"    {loop}\n") != 1:
            raise SystemExit(f"rows.py: tests/{crate}/src/{file}.in has not exactly one line `{loop}`")
        text = text.replace(f"    {loop}\n", f"    {loop}{BEGINS}\n")
    return text


def copy(crate, room):
    """Makes a copy of the repository with its tests and with the calls in this crate, and returns the crate's folder."""
    with_tests.copy(room)
    for file in LOOPS.get(crate, {}):
        path = f"{room}/crates/{crate}/src/{file}"
        with open(path, encoding="utf-8") as it:
            text = it.read()
        with open(path, "w", encoding="utf-8") as it:
            it.write(marked(crate, file, text))
    with open(f"{room}/crates.txt", encoding="utf-8") as it:
        lines = it.read()
    with open(f"{room}/crates.txt", "w", encoding="utf-8") as it:
        it.write(lines.replace(f"\n{crate}:", f"\n{crate}: libc"))
    return f"{room}/crates/{crate}"
