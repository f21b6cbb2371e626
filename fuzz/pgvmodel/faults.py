"""How a file is refused."""


class Fault(Exception):
    """A description, an image or a certificate is refused.

    `line` says why, without the file's name in front and without a line feed.
    """

    def __init__(self, line: str) -> None:
        super().__init__(line)
        self.line = line
