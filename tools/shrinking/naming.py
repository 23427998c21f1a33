"""Small numbers for the processes, rings and messages of a run. Their order stays the same, so the audit names the same entries."""
import re

from shrinking.leaving_out import ring_order
from shrinking.run_text import Run, change, delivery, failure, send

RING = re.compile(r'([0-9]+\.[0-9]+)')


def _same(name):
    return name


def _process_key(process):
    return tuple(map(int, process.split(':')))


def _small_processes(run):
    """New names for the processes: identifiers from 1 on, and lives from 1 on for each of them."""
    identifiers, lives = {}, {}
    for process in sorted((log.process for log in run.logs), key=_process_key):
        identifier, _, life = process.partition(':')
        small = identifiers.setdefault(identifier, str(len(identifiers) + 1))
        lives[small] = lives.get(small, 0) + 1
        yield process, small + (':%d' % lives[small] if life else '')


def _members(run):
    """The members of each configuration, as its first change lists them."""
    told = {}
    for log in run.logs:
        for entry in log.entries:
            if entry.kind == 'conf':
                told.setdefault(entry.configuration, entry.members)
    return told


def _rings(run):
    """The rings of the run that anything names, in their order."""
    names = {name for log in run.logs for entry in log.entries for name in RING.findall(entry.configuration + ' ' + entry.message)}
    return sorted(names, key=ring_order)


class Names:
    """Functions that give processes, configurations and messages new names."""

    def __init__(self, process=_same, configuration=_same, message=_same):
        self.process = process
        self.configuration = configuration
        self.message = message

    def _renamed(self, entry):
        configuration = self.configuration(entry.configuration)
        if entry.kind == 'conf':
            return change(configuration, map(self.process, entry.members))
        if entry.kind == 'fail':
            return failure(configuration)
        message = self.message(entry.message)
        return delivery(configuration, message) if entry.kind == 'dlv' else send(configuration, entry.service, message)

    def of(self, run):
        """The run with these names."""
        logs = (log._replace(process=self.process(log.process), entries=tuple(map(self._renamed, log.entries))) for log in run.logs)
        return Run(run.version, tuple(logs))


def with_small_processes(run):
    """The run with processes from 1 on."""
    return Names(process=dict(_small_processes(run)).get).of(run)


def with_small_rings(run):
    """The run with rings 4, 8, 12 and so on. Their representatives are their least members, if the run lists members."""
    told = _members(run)

    def least(configuration, otherwise):
        return told[configuration][0].partition(':')[0] if configuration in told else otherwise

    rings = {}
    for index, ring in enumerate(_rings(run), 1):
        rings[ring] = '%d.%s' % (4 * index, least('r' + ring, ring.partition('.')[2]))

    def configuration(name):
        ring, slash, process = name[1:].partition('/')
        return name[0] + rings[ring] + (slash + least(name, process) if slash else '')

    def message(name):
        ring, _, number = name.partition('#')
        return '%s#%s' % (rings[ring], number)
    return Names(configuration=configuration, message=message).of(run)


def with_small_messages(run):
    """The run with messages from 1 on for each ring."""
    small, counts = {}, {}
    names = {entry.message for log in run.logs for entry in log.entries if entry.message}
    for name in sorted(names, key=ring_order):
        ring = name.partition('#')[0]
        counts[ring] = counts.get(ring, 0) + 1
        small[name] = '%s#%d' % (ring, counts[ring])
    return Names(message=small.get).of(run)


def of_least_version(run):
    """The run in the first version whose texts can express it."""
    if any(log.closing == 'quiet' for log in run.logs):
        return run
    if run.version == 1 or any(not log.process.endswith(':1') for log in run.logs):
        return run._replace(version=min(run.version, 2))
    return Names(process=lambda process: process.partition(':')[0]).of(run)._replace(version=1)


def changed(before, run):
    """The names of a run that had others before, each with that other one: first processes, then configurations, then messages."""
    pairs = [('process ' + new.process, 'process ' + old.process) for old, new in zip(before.logs, run.logs)]
    entries = [pair for old, new in zip(before.logs, run.logs) for pair in zip(old.entries, new.entries)]
    pairs += [(new.configuration, old.configuration) for old, new in entries]
    pairs += [(new.message, old.message) for old, new in entries]
    return [(new, old) for new, old in dict.fromkeys(pairs) if new != old]
