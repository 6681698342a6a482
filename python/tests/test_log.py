"""A log in memory: steps, refusals, marks, rights, plans, words, and wrong numbers."""

import array
import ctypes
import doctest
import pickle
import unittest

import cindrolf
from cindrolf import Log, Refused, Step

HANDOVER = [(Step.BECOME, 0), (Step.FETCH, 0), (Step.CREATE, 0), (Step.APPEND, 0), (Step.WRITE, 0, 201)]


def leads():
    log = Log(2)
    for step in HANDOVER:
        log.take(*step)
    return log


class Logs(unittest.TestCase):
    def refused(self, number, call, *arguments):
        with self.assertRaises(Refused) as raised:
            call(*arguments)
        self.assertEqual(raised.exception.number, number)
        return raised.exception

    def test_the_example_of_the_class(self):
        runner = doctest.DocTestRunner()
        for example in doctest.DocTestFinder(recurse=False).find(Log, "Log", module=False, globs=vars(cindrolf).copy()):
            runner.run(example)
        self.assertEqual((runner.failures, runner.tries > 3), (0, True))

    def test_answers(self):
        log = leads()
        answer = log.write(0, 202)
        self.assertEqual((answer.entry, answer.place, answer.stored, str(answer)), (1, 1, True, "entry 1 place 1"))
        answer = log.name(1)
        self.assertEqual((answer.done, answer.stored, answer.entry, answer.place), (True, False, None, None))
        log.become(1)
        log.fetch(1)
        self.assertTrue(log.close_own(0).done)
        self.assertTrue(log.close_last(1).behind)
        log.fetch(1)
        self.assertTrue(log.close_last(1).was_closed)

    def test_refusals(self):
        log = leads()
        refused = self.refused(7, log.write, 1, 5)
        self.assertEqual(refused.sentence, "write of client 1: the client does not lead")
        self.assertEqual(str(refused), "write of client 1: the client does not lead (refusal 7)")
        self.assertFalse(refused.may_be_stored)
        self.assertEqual(self.refused(25, log.take, 10, 0).sentence, "the step number is above nine")
        self.assertEqual(self.refused(17, Log, 17).sentence, "the client count is not one to sixteen")
        self.assertEqual(str(pickle.loads(pickle.dumps(refused))), str(refused))

    def test_the_adviser(self):
        log = leads()
        self.assertIsNone(log.advise(1))
        self.assertEqual(log.advise(0), Step.WRITE)
        log.name(1)
        steps = []
        while not (answer := log.take(step := log.advise(1), 1, 7)).stored:
            steps.append(step)
        self.assertEqual(steps, [Step.BECOME, Step.FETCH, Step.CLOSE_LAST, Step.FINISH, Step.CREATE, Step.APPEND])
        self.assertEqual(answer.entry, 1)
        self.refused(3, log.advise, 2)

    def test_words_are_sequences_and_memory(self):
        log = leads()
        log.write_scores(0, [40, 372])
        for words in (log.entries(), log.chain(), log.ledger(1)):
            self.assertEqual((len(words), words.format, words.itemsize, words.readonly), (2, "Q", 8, True))
            self.assertEqual([cindrolf.value_of(word) for word in words][0], 201)
            # Memory that anything with the buffer protocol takes at once, as numpy does.
            self.assertEqual(array.array("Q", words).tobytes(), bytes(words))
            self.assertEqual(ctypes.c_uint64.from_buffer_copy(words).value, words[0])
        self.assertEqual([cindrolf.ledger_of(word) for word in log.entries()], [1, 1])
        self.assertEqual([cindrolf.ledger_of(word) for word in log.chain()], [0, 0])
        self.assertEqual(len(Log(1).entries()), 0)

    def test_numpy(self):
        try:
            import numpy
        except ImportError:
            self.skipTest("there is no numpy")
        log = leads()
        words = log.chain()
        given = numpy.asarray(words)
        self.assertEqual((given.dtype, given.tolist()), (numpy.dtype("uint64"), [201]))
        self.assertTrue(numpy.shares_memory(given, numpy.asarray(words)))
        try:
            import pandas
        except ImportError:
            pass
        else:
            self.assertTrue(numpy.shares_memory(pandas.Series(given).to_numpy(), given))
        self.assertTrue(log.write_scores(0, numpy.array([40, 40], dtype="uint16")).stored)
        plan = numpy.array(cindrolf.plan([(Step.WRITE, 0, 5)]))
        self.assertEqual(log.run_plan(plan), 1)

    def test_marks(self):
        log = leads()
        log.set_mark("pre-wash")
        log.write(0, 202)
        log.set_mark("größe")
        self.assertEqual(log.marks(), {"pre-wash": 1, "größe": 2})
        self.assertEqual(list(log.read_mark("pre-wash")), [201])
        self.assertEqual(self.refused(21, log.set_mark, "pre-wash").sentence, "the name of the mark is taken or all zero")
        log.drop_mark("pre-wash")
        self.refused(23, log.read_mark, "pre-wash")
        for name in ("", "pre-wash2", "a\0"):
            self.assertRaises(ValueError, log.set_mark, name)

    def test_rights(self):
        log = leads()
        log.revoke(0, Step.WRITE)
        self.refused(24, log.write, 0, 5)
        self.assertEqual(log.rights()[0], cindrolf.ALL_RIGHTS & ~Step.WRITE.right)
        log.grant(0, Step.WRITE)
        self.assertTrue(log.write(0, 5).stored)
        self.refused(3, log.grant, 2, Step.WRITE)

    def test_plans(self):
        log = leads()
        plan = cindrolf.plan([(Step.WRITE, 0, 5), (Step.WRITE, 1, 6), (Step.CLOSE_OWN, 0), (Step.CREATE, 0)])
        self.assertEqual(log.forecast(plan), (1, 1, 1))
        self.assertEqual(log.forecast(plan, 2), (1, 0, 1))
        self.assertEqual(log.run_plan(plan, 3), 3)
        self.assertEqual(log.advise(0), Step.CREATE)
        self.assertEqual(log.run_plan([]), 0)
        self.assertRaises(ValueError, cindrolf.plan, [(Step.WRITE, 0, 2**52)])

    def test_windows_and_totals(self):
        log = leads()
        log.write(0, 900)
        self.assertEqual(log.first_window(1, 500), 1)
        self.assertIsNone(log.first_window(2, 5000))
        self.refused(20, log.first_window, 0, 1)
        self.assertEqual(str(log.total()), "0.000000001101")
        self.assertEqual(log.ledgers(), [(1, 2, 1101)])

    def test_persisted_words(self):
        log = leads()
        log.set_mark("wash")
        kept = [bytes(words) for words in (log.state(), log.entry_buffer(), log.mark_buffer())]
        again = Log.of_words(*(memoryview(words).cast("Q") for words in kept))
        self.assertEqual(again.write(0, 202).entry, 1)
        self.assertEqual(again.marks(), {"wash": 1})
        self.assertEqual(len(again.rights().tolist()) - again.rights().tolist().count(0), 2)
        self.refused(1, Log.of_words, [0] * 526, log.entry_buffer())
        self.refused(1, Log.of_words, [], [])
        self.refused(2, Log.of_words, [1] * 527, log.entry_buffer())
        self.refused(2, Log.of_words, Log(2).state(), Log(2).entry_buffer(), log.mark_buffer())

    def test_numbers_that_are_none(self):
        log = leads()
        before = bytes(log.state()), bytes(log.entries())
        for client, value in ((-1, 0), (2**64, 0), (0, -1), (0, 2**64)):
            self.assertRaises(ValueError, log.write, client, value)
        self.assertRaises(TypeError, log.write, 0, 1.5)
        self.assertRaises(TypeError, log.write, "0", 1)
        for scores in ([65541], [-1], [1.5], "40", b"ab", array.array("I", [40])):
            self.assertRaises(ValueError, log.write_scores, 0, scores)
        self.refused(11, log.write, 0, 2**52)
        self.refused(18, log.write_scores, 0, [])
        self.refused(19, log.write_scores, 0, [cindrolf.SCORE_LIMIT + 1])
        self.assertEqual((bytes(log.state()), bytes(log.entries())), before)

    def test_a_small_log(self):
        log = Log(1, small=True)
        self.assertEqual(len(log.entry_buffer()), 512)
        self.assertTrue(log.well_formed())


if __name__ == "__main__":
    unittest.main()
