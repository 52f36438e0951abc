"""What stops an answer, in words for the one who asked."""


class Trouble(Exception):
    """A cause that ends a run: words that say what to do, and the exit status."""

    def __init__(self, words: str, status: int = 2, line: int = 0, cause: str = ""):
        super().__init__(words)
        self.words = words
        self.status = status
        self.line = line
        self.cause = cause
