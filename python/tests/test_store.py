"""A shared log: opening, statuses as exceptions, batches, snapshots, changes, threads, processes and lost rows."""

import multiprocessing
import os
import sqlite3
import subprocess
import sys
import tempfile
import threading
import time
import unittest
from pathlib import Path

import cindrolf
from cindrolf import Asked, Kind, Refused, Step

LEADS = [Asked(step, 0) for step in (Step.BECOME, Step.FETCH, Step.CREATE, Step.APPEND)]


class Stores(unittest.TestCase):
    def setUp(self):
        folder = tempfile.TemporaryDirectory()
        self.addCleanup(folder.cleanup)
        self.folder = Path(folder.name)
        self.file = self.folder / "run.db"
        self.log = cindrolf.create(self.file, 2)
        self.addCleanup(self.log.close)
        self.log.take_all(LEADS)

    def other(self):
        log = cindrolf.open(self.file)
        self.addCleanup(log.close)
        return log

    def test_opening(self):
        self.assertRaises(cindrolf.Exists, cindrolf.create, self.file, 2)
        with self.assertRaises(cindrolf.Missing) as raised:
            cindrolf.open(self.folder / "nothing.db")
        self.assertEqual(raised.exception.status, cindrolf.Status.MISSING)
        self.assertIn("no such file", str(raised.exception))
        for clients in (0, 17):
            with self.assertRaises(Refused) as raised:
                cindrolf.create(self.folder / "other.db", clients)
            self.assertEqual(raised.exception.number, 17)
        self.assertRaises(cindrolf.BadArgument, cindrolf.open, "postgresql://localhost/x")
        self.assertRaises(ValueError, cindrolf.open, "a\0b")
        self.assertRaises(TypeError, cindrolf.open, 7)
        text = self.folder / "text.db"
        text.write_text("no log at all, but a text of some length\n")
        self.assertRaises(cindrolf.NoLog, cindrolf.open, text)
        with cindrolf.create(os.fsencode(self.folder / "grö\udcff.db"), 1, small=True) as small:
            self.assertEqual(len(small.snapshot().entry_buffer()), 512)

    def test_a_handover(self):
        self.assertEqual(str(self.log.write(0, 201)), "entry 0 place 0")
        guest = self.other()
        guest.name(1)
        while (step := guest.advise(1)) is not Step.WRITE:
            guest.take(step, 1)
        with self.assertRaises(Refused) as raised:
            self.log.write(0, 202)
        self.assertEqual(raised.exception.number, 12)
        self.assertEqual(raised.exception.sentence, "write of client 0: another leader has fenced the ledger")
        self.assertEqual(str(guest.write(1, 203)), "entry 1 place 0")
        self.assertEqual(str(self.log.total()), "0.000000000404")
        self.assertEqual([cindrolf.client_of(word) for word in self.log.chain()], [0, 1])

    def test_closing(self):
        with cindrolf.open(self.file) as log:
            pass
        log.close()
        self.assertRaises(cindrolf.Closed, log.name, 1)
        self.assertRaises(cindrolf.Closed, log.snapshot)

    def test_reading_only(self):
        with cindrolf.open(self.file, read_only=True) as log:
            self.assertRaises(cindrolf.ReadOnly, log.name, 1)
            self.assertEqual(log.advise(0), Step.WRITE)

    def test_batches(self):
        asked = [
            Asked(Step.WRITE, 0, 201, note="read 7"),
            Asked(Step.WRITE, 1, 202),
            Asked(Kind.WRITE_SCORES, 0, scores=[40, 372]),
            Asked.mark("pre-wash"),
            Asked(Kind.SET_RIGHTS, 1, Step.WRITE.right),
            Asked.mark("wash", drop=True),
        ]
        told = self.log.take_all(asked)
        self.assertEqual([str(answer) for answer in told[:4:2]], ["entry 0 place 0", "entry 1 place 1"])
        self.assertEqual([answer.number for answer in told if isinstance(answer, Refused)], [7, 23])
        self.assertEqual(told[1].sentence, "write of client 1: the client does not lead")
        self.assertEqual(told[5].sentence, "no mark of this name is kept")
        self.assertEqual(self.log.marks(), {"pre-wash": 2})
        self.assertEqual(self.log.rights()[1], Step.WRITE.right)
        refused = self.log.take_all(asked[1:2] + asked[5:])
        self.assertEqual([answer.number for answer in refused], [7, 23])
        self.assertEqual(self.log.take_all([]), [])
        self.assertRaises(cindrolf.BadArgument, self.log.take_all, [Asked(14)])
        self.assertRaises(cindrolf.BadArgument, self.log.take_all, [Asked(Step.NAME, 1, note="n" * 201)])
        self.assertRaises(ValueError, self.log.take_all, [Asked(Step.NAME, 1, note="a\0")])
        # The note is where people look for it.
        with sqlite3.connect(self.file) as file:
            rows = file.execute("SELECT note FROM steps WHERE note IS NOT NULL").fetchall()
        self.assertEqual(rows, [("read 7",)])

    def test_rights_marks_and_plans(self):
        self.log.revoke(0, Step.WRITE)
        with self.assertRaises(Refused) as raised:
            self.log.write(0, 1)
        self.assertEqual(raised.exception.number, 24)
        self.log.grant(0, Step.WRITE)
        self.log.set_rights([cindrolf.ALL_RIGHTS] * 2 + [0] * 14)
        with self.assertRaises(Refused) as raised:
            self.log.set_rights([0] * 15)
        self.assertEqual(raised.exception.number, 1)
        plan = cindrolf.plan([(Step.WRITE, 0, 5), (Step.WRITE, 0, 6), (Step.CLOSE_OWN, 0)])
        forecast = self.log.forecast(plan, 2)
        self.assertEqual((forecast, self.log.run_plan(plan, 2)), ((2, 0, 0), 2))
        self.log.set_mark("wash")
        self.assertTrue(self.log.write_scores(0, [372]).stored)
        self.assertEqual(len(self.log.read_mark("wash")), 2)
        self.log.drop_mark("wash")
        self.assertEqual(self.log.marks(), {})

    def test_snapshots_are_of_one_moment(self):
        self.log.write(0, 201)
        snapshot = self.log.snapshot()
        self.log.write(0, 202)
        self.assertEqual((len(snapshot.chain()), len(self.log.chain())), (1, 2))
        self.assertEqual((snapshot.rows, snapshot.clients), (5, 2))
        again = cindrolf.Log.of_words(snapshot.state(), snapshot.entry_buffer())
        self.assertEqual(str(again.write(0, 202)), "entry 1 place 1")

    def test_changes(self):
        other = self.other()
        self.assertFalse(other.changed(0.05))
        writer = threading.Thread(target=lambda: [time.sleep(0.05) or self.log.write(0, value) for value in (1, 2, 3)])
        writer.start()
        seen = 0
        for snapshot in other.changes(timeout=5):
            seen = len(snapshot.chain())
            if seen == 3:
                break
        writer.join()
        self.assertEqual(seen, 3)
        self.assertEqual(list(other.changes(timeout=0.05)), [])

    def test_threads(self):
        told = []

        def checks():
            for _ in range(200):
                try:
                    told.append(self.log.check().wrong)
                except cindrolf.InUse:
                    told.append("in use")

        threads = [threading.Thread(target=checks) for _ in range(2)]
        for thread in threads:
            thread.start()
        for thread in threads:
            thread.join()
        self.assertEqual((len(told), set(told)), (400, {0, "in use"}))

    def test_busy(self):
        file = sqlite3.connect(self.file, isolation_level=None)
        file.execute("BEGIN IMMEDIATE")
        self.log.set_patience(0.05)
        with self.assertRaises(cindrolf.Busy) as raised:
            self.log.write(0, 7)
        self.assertFalse(raised.exception.may_be_stored)
        file.execute("ROLLBACK")
        file.close()
        self.assertEqual(self.log.write(0, 7).entry, 0)
        for seconds in (-1, float("nan")):
            self.assertRaises(ValueError, self.log.set_patience, seconds)
        self.assertRaises(cindrolf.BadArgument, self.log.set_patience, float("inf"))

    def test_lost_rows(self):
        self.log.keep_witness(self.folder / "witness")
        self.log.copy(self.folder / "copy.db")
        self.log.write(0, 201)
        row = self.log.last_row()
        self.log.has_row(row)
        self.assertEqual(row.split(":")[0], "5")
        with cindrolf.open(self.folder / "copy.db") as copy:
            self.assertRaises(cindrolf.Damaged, copy.has_row, row)
            self.assertRaises(cindrolf.Damaged, copy.keep_witness, self.folder / "witness")
            self.assertRaises(cindrolf.BadArgument, copy.has_row, "5")
        self.assertRaises(cindrolf.Exists, self.log.copy, self.folder / "copy.db")
        self.assertEqual(self.log.check(), (5, 0))
        self.assertIsNone(self.log.settle(12345))
        self.assertTrue(self.log.checkpoint())

    def test_damage(self):
        self.log.close()
        with sqlite3.connect(self.file) as file:
            triggers = [row[0] for row in file.execute("SELECT name FROM sqlite_master WHERE type = 'trigger'")]
            for trigger in triggers:
                file.execute(f"DROP TRIGGER {trigger}")
            file.execute("UPDATE journal SET client = 1 WHERE seq = 2")
        self.assertGreater(len(triggers), 0)
        self.assertRaises(cindrolf.Damaged, cindrolf.open, self.file)

    def test_a_file_that_is_gone(self):
        file = self.folder / "gone.db"
        log = cindrolf.create(file, 2)
        file.unlink()
        self.assertRaises(cindrolf.OpenAgain, log.name, 1)
        self.assertRaises(cindrolf.OpenAgain, log.close)
        log.close()

    @unittest.skipUnless(hasattr(os, "fork"), "there is no fork")
    def test_forks(self):
        def child(log, answers):
            try:
                log.name(1)
            except cindrolf.OpenAgain as error:
                answers.put(str(error))

        context = multiprocessing.get_context("fork")
        answers = context.Queue()
        process = context.Process(target=child, args=(self.log, answers))
        process.start()
        self.assertIn("forked", answers.get(timeout=20))
        process.join()
        self.assertTrue(self.log.name(1).done)

    def test_process_names(self):
        self.log.set_process_name("lane 2")
        self.log.write(0, 5)
        with sqlite3.connect(self.file) as file:
            names = file.execute("SELECT process FROM steps ORDER BY 1").fetchall()
        self.assertIn(("lane 2",), names)
        self.assertRaises(cindrolf.BadArgument, self.log.set_process_name, "n" * 101)

    def test_an_end_of_waiting(self):
        program = "import cindrolf, sys; log = cindrolf.open(sys.argv[1]); cindrolf.end_waiting(); print(log.changed(60))"
        environment = {**os.environ, "PYTHONPATH": str(Path(cindrolf.__file__).parents[1])}
        command = [sys.executable, "-c", program, str(self.file)]
        ran = subprocess.run(command, capture_output=True, text=True, timeout=30, env=environment)
        self.assertEqual((ran.stdout, ran.stderr), ("False\n", ""))


if __name__ == "__main__":
    unittest.main()
