"""A refusal: what was wrong, why, and what to do."""


class Refusal(Exception):
    """Words for a person, the status with which `xinu` ends, and what another program said before."""

    def __init__(self, words, status=2, before=""):
        super().__init__(words)
        self.words, self.status, self.before = words, status, before
