"""The text of a run as logs of entries (docs/SPECIFICATIONS.md, "Run text"), and back. The program has accepted the text before."""
from typing import NamedTuple


class Entry(NamedTuple):
    """A line of a log. `message` is that of a send or a delivery, `members` are those of a change."""

    kind: str
    configuration: str
    message: str
    service: str
    members: tuple
    line: str


class Log(NamedTuple):
    """The log of a process. It closes with `failed` if its last entry is a failure."""

    process: str
    entries: tuple
    closing: str


class Run(NamedTuple):
    """The version of a run's text, and its logs."""

    version: int
    logs: tuple

    @property
    def lines(self):
        """How many lines its text has."""
        return 2 + sum(2 + len(log.entries) for log in self.logs)


def change(configuration, members):
    """The entry that changes to a configuration with these members."""
    members = tuple(members)
    return Entry('conf', configuration, '', '', members, 'conf %s %s\n' % (configuration, ' '.join(members)))


def send(configuration, service, message):
    """The entry that sends a message."""
    return Entry('send', configuration, message, service, (), 'send %s %s %s\n' % (configuration, service, message))


def delivery(configuration, message):
    """The entry that delivers a message."""
    return Entry('dlv', configuration, message, '', (), 'dlv %s %s\n' % (configuration, message))


def failure(configuration):
    """The entry of a failure."""
    return Entry('fail', configuration, '', '', (), 'fail %s\n' % configuration)


def _read_entry(words):
    if words[0] == 'conf':
        return change(words[1], words[2:])
    if words[0] == 'send':
        return send(*words[1:])
    return delivery(*words[1:]) if words[0] == 'dlv' else failure(words[1])


def read(text):
    """The run of a text that the program accepts."""
    lines = text.decode('ascii').splitlines()
    known, logs, process, entries = {}, [], '', []
    for line in lines[1:-1]:
        words = line.split(' ')
        if words[0] == 'log':
            process, entries = words[1], []
        elif len(words) == 1:
            logs.append(Log(process, tuple(entries), words[0]))
        else:
            if line not in known:
                known[line] = _read_entry(words)
            entries.append(known[line])
    return Run(int(lines[0].split(' ')[1]), tuple(logs))


def _closing(log):
    if log.entries[-1].kind == 'fail':
        return 'failed'
    return 'quiet' if log.closing == 'quiet' else 'open'


def write(run):
    """The text of a run."""
    parts = ['totem-run %d\n' % run.version]
    for log in run.logs:
        parts.append('log %s\n' % log.process)
        parts.extend(entry.line for entry in log.entries)
        parts.append(_closing(log) + '\n')
    return (''.join(parts) + 'end\n').encode('ascii')


def tidied(run):
    """The run without logs that have no entry, and without members that have no log; the others stay as they were."""
    logs = [log for log in run.logs if log.entries]
    there = {log.process for log in logs}
    known = {}

    def with_logs(entry):
        if entry.kind != 'conf' or there.issuperset(entry.members):
            return entry
        if entry.line not in known:
            known[entry.line] = change(entry.configuration, [member for member in entry.members if member in there])
        return known[entry.line]

    return Run(run.version, tuple(log._replace(entries=tuple(map(with_logs, log.entries))) for log in logs))


def entry_at(run, place):
    """The entry at a place of the run, such as 2@3."""
    process, index = place.split('@')
    return next(log.entries[int(index) - 1] for log in run.logs if log.process == process)
