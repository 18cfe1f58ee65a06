"""How the program ends where it can't go on."""

UNEXPLAINED, USAGE, RECORDING, READ, WRITE = 1, 2, 3, 6, 7


class Fault(Exception):
    """One line on standard error, or None where it stands there already, and the exit status."""

    def __init__(self, status, line):
        super().__init__(line)
        self.status = status
        self.line = line
