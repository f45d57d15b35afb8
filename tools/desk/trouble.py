"""What ends a command of the desk: one line on standard error, and a status."""

UNREADABLE = 1  # a file could not be read or written
MISUSED = 2  # the command was not called as it should be
NO_LOG = 8  # a file is no log, or not the log of the recording it is shown with


class Trouble(Exception):
    def __init__(self, status: int, message: str):
        super().__init__(message)
        self.status = status
