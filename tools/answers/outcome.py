"""How a run ends that has no answer."""

# The statuses of audb, by what they say.
QUERY, WORDS, READ, WRITE, LIMIT, ABSENT = 1, 2, 5, 6, 8, 9
# That of a shell whose command isn't found.
NO_PROGRAM = 127


class Refused(Exception):
    """What is wrong, as lines of text, and the exit status."""

    def __init__(self, status, *lines):
        super().__init__(*lines)
        self.status, self.lines = status, lines


def of_file(fault, path):
    """What an operating system's refusal to read a file says."""
    status = ABSENT if isinstance(fault, FileNotFoundError) else READ
    return Refused(status, f"{path}: {fault.strerror or fault}")
