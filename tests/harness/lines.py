"""Lines of logs, and of what a tool says about them."""


def is_send(line):
    """Whether a line is a send."""
    return line.startswith('send ')


def message_of(line):
    """The message of a send or of a delivery."""
    return line.rsplit(' ', 1)[1]


def configuration_of(line):
    """The configuration that a line names."""
    return line.split(' ')[1]


def changes_of(lines):
    """The configurations to which lines change, in their order."""
    return [configuration_of(line) for line in lines if line.startswith('conf ')]


def entries_of(file):
    """The whole lines of a file."""
    return file.lines[:-1] if file.is_torn else file.lines


def has_line(errors, *parts):
    """Whether one line of the errors contains all of these."""
    return any(all(part in line for part in parts) for line in errors)


def shortens(errors, *parts):
    """Whether a line with all of these, or what follows such lines, says that there are more than it lists."""
    return has_line(errors, *parts, '..') or any(line.startswith('logs: .. and ') for line in errors)
