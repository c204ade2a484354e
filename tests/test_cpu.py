"""What scripts/cpu.py makes of the processes that it saw."""

import os
import pathlib
import subprocess
import sys
import tempfile
import time
import unittest

sys.path.insert(0, str(pathlib.Path(__file__).resolve().parent.parent / "scripts"))

import cpu
import processes

MB = 1024


def watched() -> cpu.Watcher:
    """A watcher that saw a proof of two processes, its wrong bodies, and the tag."""
    it = cpu.Watcher(os.getpid())
    it.begun = 1000.0
    it.seen = {
        (1, 0): cpu.Seen(("txc_tags", "proof"), 100 * cpu.TICKS, 1000.0, 1120.0, 1500 * MB),
        (2, 0): cpu.Seen(("txc_node", "proof"), 200 * cpu.TICKS, 1120.0, 1300.0, 5000 * MB),
        (3, 0): cpu.Seen(("txc_node", "proof"), 50 * cpu.TICKS, 1290.0, 1400.0, 800 * MB),
        (4, 0): cpu.Seen(("txc_node", "named"), 25 * cpu.TICKS, 1400.0, 1430.0, 900 * MB),
    }
    return it


class Table(unittest.TestCase):
    def test_processes_of_one_kind_are_one_row(self) -> None:
        found = {(it.crate, it.kind): it for it in watched().rows()}
        self.assertEqual(found["txc_node", "proof"], cpu.Row("txc_node", "proof", 250, 280, 5000, 120))
        self.assertEqual(found["txc_node", "named"], cpu.Row("txc_node", "named", 25, 30, 900, 400))

    def test_seconds_are_told_in_tags(self) -> None:
        rows = watched().rows()
        self.assertEqual(cpu.in_tags(rows, 250), "2.5")
        self.assertIn("a tag is 100 core seconds", cpu.table(rows, 4))

    def test_a_run_that_kept_the_tag_has_none(self) -> None:
        it = watched()
        del it.seen[1, 0]
        self.assertEqual(cpu.in_tags(it.rows(), 250), "-")
        self.assertIn("no tag", cpu.table(it.rows(), 4))

    def test_what_is_written_is_read(self) -> None:
        rows = [cpu.Row("txc_node", "proof", 250, 280, 5000, 120), cpu.Row("", "all", 400, 500)]
        with tempfile.TemporaryDirectory(prefix="cpu-tests-") as room:
            cpu.write(rows, f"{room}/gate.tsv")
            self.assertEqual(cpu.read(f"{room}/gate.tsv"), [*rows, cpu.Row("", "cores", processes.cores(), 0)])

    def test_older_rows_have_no_peak(self) -> None:
        with tempfile.TemporaryDirectory(prefix="cpu-tests-") as room:
            pathlib.Path(f"{room}/gate.tsv").write_text("txc_node\tproof\t250\t280\n", encoding="utf-8")
            self.assertEqual(cpu.read(f"{room}/gate.tsv"), [cpu.Row("txc_node", "proof", 250, 280)])


def weight(pid: int) -> str:
    """The weight of a process's session, or the least where the kernel has none."""
    group = pathlib.Path(f"/proc/{pid}/autogroup")
    return group.read_text(encoding="utf-8").rstrip().rpartition(" ")[2] if group.exists() else "19"


class Processes(unittest.TestCase):
    def test_a_session_below_is_lowered_and_the_own_is_not(self) -> None:
        own, end = weight(os.getpid()), time.monotonic() + 60
        with subprocess.Popen(["sh", "-c", "setsid sleep 60 & echo $!; wait"], stdout=subprocess.PIPE, text=True) as ran:
            below = int(ran.stdout.readline())
            self.assertEqual({*processes.below([ran.pid])}, {ran.pid, below})
            # it has the own session at first, and the kernel takes some changes in a second, and no more
            while (weight(below) != "19" or os.getsid(below) == os.getsid(0)) and time.monotonic() < end:
                processes.lower(below)
                time.sleep(0.1)
            found = weight(below)
            os.kill(below, 9)
        self.assertEqual((found, weight(os.getpid())), ("19", own))

    def test_a_process_that_has_ended_is_let_be(self) -> None:
        with subprocess.Popen(["true"]) as ran:
            ran.wait()
        processes.lower(ran.pid)
        self.assertEqual(processes.peak(ran.pid), 0)


if __name__ == "__main__":
    unittest.main()
