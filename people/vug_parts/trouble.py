"""What can go wrong, each with the status with which vug ends then.

| Status | |
|---|---|
| 2 | the words of the command are wrong |
| 3 | something can't be reached or read |
| 4 | nobody is signed in |
| 5 | some rows of an import were not taken |
| 6 | the tracker doesn't know this call |
| 7 | no answer came, and whether the call was made isn't known |
| 20 + N | the tracker refused with number N |
"""
ROWS_LEFT = 5
INTERRUPTED = 130
READER_GONE = 141


class Trouble(Exception):
    """Something that ends the command; its text is told on standard error."""
    status = 3


class Usage(Trouble):
    """The words of the command are wrong."""
    status = 2


class Unreachable(Trouble):
    """A server, a file or a program that can't be reached or read."""


class NotLetIn(Trouble):
    """There is no password, or the front server doesn't take it."""
    status = 4


class UnknownCall(Trouble):
    """The tracker is of a version that doesn't know this call."""
    status = 6

    def __init__(self, call):
        super().__init__(f'this tracker does not know the call {call}')
        self.call = call


class AnswerLost(Trouble):
    """The request was sent, and no answer came: the call may have been made."""
    status = 7


class Refused(Trouble):
    """The tracker refused; its reply stays, and the text is its reason in words."""

    def __init__(self, refusal, words):
        super().__init__(words)
        self.refusal = refusal
        self.number = refusal.get('no', 0)
        self.status = 20 + self.number
