"""How logs end: what the caller says about processes that failed, and about those that are quiet."""
import re

from joining.entries import MOST_LIFE
from joining.trouble import Refused, tell

NAMED = re.compile(r'([1-9][0-9]{0,19})(?::([1-9][0-9]{0,19})(?:-([1-9][0-9]{0,19}))?)?')


def read_list(words, may_be_ranges=False):
    """The processes, and their lives, that arguments such as 2,3:1 name; with ranges also 2:1-6."""
    named = []
    for word in ','.join(words).split(','):
        found = NAMED.fullmatch(word)
        if not found or (found[3] and not may_be_ranges):
            raise Refused('%r is not a process: say 2, or 2:1 for life 1 of 2' % word)
        process, life = int(found[1]), int(found[2]) if found[2] else None
        last = int(found[3] or found[2] or 0)
        if last > MOST_LIFE:
            raise Refused('%r: life %d is past %d' % (word, last, MOST_LIFE))
        named += [(process, number) for number in range(life, last + 1)] if life else [(process, None)]
    return named


def logs_of(words, logs):
    """The logs that arguments name. A process without a life names its only log."""
    found = []
    for process, life in read_list(words):
        those = [log for log in logs if log.process == process and (life is None or (log.life or 1) == life)]
        who = str(process) if life is None else '%d:%d' % (process, life)
        if not those:
            raise Refused('there is no log of process %s' % who)
        if len(those) > 1:
            raise Refused('process %s has %d lives with a log: say which, such as %s' % (who, len(those), those[-1].who))
        found += those
    return found


def fail(logs, words, changes):
    """Adds `fail` as the last entry of the logs of processes that are known to have failed."""
    for log in logs_of(words, logs):
        if log.ending == 'failed':
            tell('%s ends with fail already' % log.name)
            continue
        if log.ending == 'quiet':
            raise Refused('%s says that it is quiet, and the call says that it failed' % log.name)
        if not log.last:
            raise Refused('%s changes to no configuration, so it can have failed in none' % log.name)
        log.added = b'fail %s\n' % log.last
        tell('%s: fail %s is added' % (log.name, log.last.decode()))
        changes.add('%s, end: fail %s is added' % (log.name, log.last.decode()))
        log.end_as('failed', changes)


def be_quiet(logs, words, changes):
    """Closes the logs that are known to be quiet; `all` are those that have not failed."""
    named = [word for word in words if word != 'all']
    chosen = logs_of(named, logs) if named else []
    if 'all' in words:
        chosen += [log for log in logs if log.ending != 'failed']
    for log in chosen:
        if log.ending == 'failed':
            raise Refused('%s ends with fail, and the call says that it is quiet' % log.name)
        if log.ending == 'open':
            tell('%s: is closed as quiet' % log.name)
            log.end_as('quiet', changes)
