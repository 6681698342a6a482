"""A log on a server: the same steps, a handover, and a request whose result is unknown. tests/languages starts the server."""

import os
import sys
import unittest

import cindrolf
from cindrolf import Asked, Step

CONTROLLERS = os.environ.get("CINDROLF_TEST_CONTROLLERS", "").split()


def network(word):
    """Breaks the network, or heals it."""
    print(word, flush=True)
    if sys.stdin.readline() != "done\n":
        raise RuntimeError("nobody listens")


@unittest.skipUnless(CONTROLLERS, "there is no server")
class Servers(unittest.TestCase):
    def log(self, client, name):
        log = cindrolf.open(f"{CONTROLLERS[client]}/{name}")
        self.addCleanup(log.close)
        return log

    def created(self, name):
        log = cindrolf.create(f"{CONTROLLERS[0]}/{name}", 2)
        self.addCleanup(log.close)
        log.take_all([Asked(step, 0) for step in (Step.BECOME, Step.FETCH, Step.CREATE, Step.APPEND)])
        return log

    def test_a_handover(self):
        self.assertRaises(cindrolf.Missing, self.log, 0, "run")
        host = self.created("run")
        self.assertRaises(cindrolf.Exists, cindrolf.create, f"{CONTROLLERS[0]}/run", 2)
        self.assertEqual(str(host.write(0, 201)), "entry 0 place 0")
        guest = self.log(1, "run")
        self.assertFalse(guest.changed(0))
        guest.name(1)
        while (step := guest.advise(1)) is not Step.WRITE:
            guest.take(step, 1)
        with self.assertRaises(cindrolf.Refused) as raised:
            host.write(0, 202)
        self.assertEqual(raised.exception.number, 12)
        self.assertEqual(str(guest.write(1, 203)), "entry 1 place 0")
        self.assertTrue(host.changed(5))
        self.assertEqual(str(host.total()), "0.000000000404")
        row = host.last_row()
        guest.has_row(row)
        self.assertEqual(host.check().wrong, 0)

    def test_another_client_is_forbidden(self):
        log = self.created("forbidden")
        self.assertRaises(cindrolf.Forbidden, log.name, 1)

    def test_what_is_not_known_is_settled_later(self):
        log = self.created("unknown")
        log.write(0, 201)
        log.set_patience(0.3)
        network("silence")
        with self.assertRaises(cindrolf.Unknown) as raised:
            log.write(0, 202)
        self.assertTrue(raised.exception.may_be_stored)
        self.assertGreater(raised.exception.request, 0)
        self.assertIn(str(raised.exception.request), str(raised.exception))
        network("heal")
        log.set_patience(10)
        self.assertEqual(log.settle(raised.exception.request), 5)
        self.assertIsNone(log.settle(raised.exception.request + 1))
        self.assertEqual(str(log.write(0, 203)), "entry 2 place 2")
        self.assertEqual([cindrolf.value_of(word) for word in log.chain()], [201, 202, 203])


if __name__ == "__main__":
    unittest.main()
