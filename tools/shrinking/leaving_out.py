"""What can be left out of a run: processes, configurations, messages, entries, members."""
import re

from shrinking.run_text import Log, change, tidied

RING = re.compile(r'(?:[rt])?([0-9]+)\.([0-9]+)')


def ring_order(name):
    """The order of configurations and messages: by ring, then by number or least member."""
    number, representative = RING.match(name).groups()
    behind = re.split('[#/]', name)
    return int(number), int(representative), int(behind[1]) if len(behind) == 2 else 0, name


def _with_entries(run, entries_of):
    """The run with other entries in each log."""
    return tidied(run._replace(logs=tuple(log._replace(entries=tuple(entries_of(index, log))) for index, log in enumerate(run.logs))))


def processes(run):
    """The processes, and a function that makes a run of some of them."""
    def build(kept):
        there = set(kept)
        return tidied(run._replace(logs=tuple(log for log in run.logs if log.process in there)))
    return [log.process for log in run.logs], build


def _stays(log):
    """The entries of a log in pieces, each from a change to the next one."""
    pieces = []
    for entry in log.entries:
        if entry.kind == 'conf' or not pieces:
            pieces.append([])
        pieces[-1].append(entry)
    return pieces


def _unit_of(pieces, index):
    """The regular configuration with which a piece of a log is left out: its own, or the one after a transitional one."""
    name = pieces[index][0].configuration
    if name.startswith('r') or index + 1 == len(pieces):
        return name
    behind = pieces[index + 1][0].configuration
    return behind if behind.startswith('r') else name


def configurations(run):
    """The regular configurations, each with the transitional one that leads to it, and a function that makes a run of some of them."""
    stays = [_stays(log) for log in run.logs]
    units = [[_unit_of(pieces, index) for index in range(len(pieces))] for pieces in stays]

    def entries_of(index, there):
        pieces = [piece for piece, unit in zip(stays[index], units[index]) if unit in there]
        if pieces and len(pieces) < len(stays[index]) and pieces[0][0].configuration.startswith('t'):
            pieces = pieces[1:]
        return [entry for piece in pieces for entry in piece]

    def build(kept):
        there = set(kept)
        return _with_entries(run, lambda index, log: entries_of(index, there))
    return sorted({unit for of_log in units for unit in of_log}, key=ring_order), build


def messages(run):
    """The messages, and a function that makes a run of some of them: the others have no send and no delivery."""
    def build(kept):
        there = {'', *kept}
        return _with_entries(run, lambda index, log: [entry for entry in log.entries if entry.message in there])
    return sorted({entry.message for log in run.logs for entry in log.entries if entry.message}, key=ring_order), build


def entries(run):
    """The entries, each by the index of its log and its own, and a function that makes a run of some of them."""
    def build(kept):
        there = [set() for _ in run.logs]
        for log, entry in kept:
            there[log].add(entry)
        return _with_entries(run, lambda index, log: [entry for place, entry in enumerate(log.entries) if place in there[index]])
    return [(log, entry) for log, of_log in enumerate(run.logs) for entry in range(len(of_log.entries))], build


def members(run):
    """The members of configurations, and a function that makes a run of some of them. A configuration without members is left out."""
    def build(kept):
        there = set(kept)
        known = {}

        def with_members(entry):
            if entry.kind != 'conf':
                return entry
            if entry.line not in known:
                left = [member for member in entry.members if (entry.configuration, member) in there]
                known[entry.line] = change(entry.configuration, left) if left else None
            return known[entry.line]

        made = [[with_members(entry) for entry in log.entries] for log in run.logs]
        if any(entry is None for of_log in made for entry in of_log):
            return None
        return _with_entries(run, lambda index, log: made[index])
    changes = (entry for log in run.logs for entry in log.entries if entry.kind == 'conf')
    return sorted({(entry.configuration, member) for entry in changes for member in entry.members}), build


def claims(run):
    """The quiet logs, and a function that makes a run in which only some of them are quiet."""
    def build(kept):
        there = set(kept)
        return run._replace(logs=tuple(log if log.process in there else Log(log.process, log.entries, 'open') for log in run.logs))
    return [log.process for log in run.logs if log.closing == 'quiet'], build


def around(run, places):
    """The run of only those processes, configurations and messages that are at these places."""
    at = {tuple(place.split('@')) for place in places}
    there = [(log.process, entry) for log in run.logs for index, entry in enumerate(log.entries, 1) if (log.process, str(index)) in at]
    _, build_messages = messages(run)
    small = build_messages({entry.message for _, entry in there})
    _, build_processes = processes(small)
    return build_processes({process for process, _ in there})
