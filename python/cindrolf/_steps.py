"""The ten steps by their names, over the one call that takes any of them."""

from __future__ import annotations

from ._values import Answer, Step


class Steps:
    """The steps of a log in memory and of a shared one. A refusal is raised as `Refused`."""

    def take(self, step: int, client: int, value: int = 0) -> Answer:
        """Takes a step. The value counts only for a write."""
        raise NotImplementedError

    def name(self, client: int) -> Answer:
        """The client becomes the named leader."""
        return self.take(Step.NAME, client)

    def become(self, client: int) -> Answer:
        """The client, which is named, starts to lead."""
        return self.take(Step.BECOME, client)

    def abdicate(self, client: int) -> Answer:
        """The client, which is no longer named, stops leading."""
        return self.take(Step.ABDICATE, client)

    def fetch(self, client: int) -> Answer:
        """The client fetches the list and its last ledger."""
        return self.take(Step.FETCH, client)

    def close_last(self, client: int) -> Answer:
        """The client fences the last ledger: done, was closed, or `behind`."""
        return self.take(Step.CLOSE_LAST, client)

    def finish(self, client: int) -> Answer:
        """The client closes the fenced ledger: done or `behind`."""
        return self.take(Step.FINISH, client)

    def create_ledger(self, client: int) -> Answer:
        """The client creates a ledger."""
        return self.take(Step.CREATE, client)

    def append(self, client: int) -> Answer:
        """The client appends its ledger to the list: done or `behind`."""
        return self.take(Step.APPEND, client)

    def write(self, client: int, value: int) -> Answer:
        """The client stores a read: its expected errors, in parts of 10^-12."""
        return self.take(Step.WRITE, client, value)

    def close_own(self, client: int) -> Answer:
        """The client closes its own ledger: done or `behind`."""
        return self.take(Step.CLOSE_OWN, client)
