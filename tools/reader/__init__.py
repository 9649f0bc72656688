"""The reader: readable sessions, dumps, tables, pictures and reports over the programs `play`, `shed` and `list`. Nothing here
is proved."""

# The exit statuses of every command, of reader and of run.
DONE, REFUSED, MISUSED, FAILED = range(4)
SESSION, DUMP, LISTING = "session", "dump", "listing"  # what a file can be


class Fault(Exception):
    """What a person is told, in one line, when something could not be done; no words where he has been told already."""
    status = FAILED


class Refusal(Fault):
    """The tag or the dock said no."""
    status = REFUSED


class Misuse(Fault):
    """Wrong words, or a file that is not what the command takes."""
    status = MISUSED


def reason(error):
    """An operating system's error in a few words."""
    return (error.strerror or str(error)).lower()
