"""A folder of logs joined by `tools/logs join`, and what the auditor says of the run."""
import os
import re
import sys
from typing import NamedTuple

from harness import process
from parts.children import Broken
from parts.watching import logs_in

REPOSITORY = os.path.dirname(os.path.dirname(os.path.dirname(os.path.dirname(os.path.abspath(__file__)))))
JOIN = os.path.join(REPOSITORY, 'tools', 'logs')
# How long joining and judging may take, on a machine that does other work.
SECONDS = 300
VERDICTS = {0: 'yes', 1: 'no', 2: 'refused'}
# Of what `explain --counts` says, what is told of each recording.
TOLD = (('partition', 'partitions'), ('merge', 'merges'), ('returned', 'returned'))


class Judged(NamedTuple):
    """What came of a recording: the verdict, the broken specifications, the counts of the run, the whole explanation, and what joining said."""

    verdict: str
    faults: tuple
    counts: dict
    explanation: str
    joining: str

    def in_words(self):
        """The verdict, and the specifications that are broken."""
        broken = ' '.join(dict.fromkeys(fault.split(' ')[1] for fault in self.faults))
        return '%s (%s)' % (self.verdict, broken) if broken else self.verdict


def _ask(words, given=b''):
    return process.run(words, given, seconds=SECONDS)[0]


def _keep(folder, name, content):
    with open(os.path.join(folder, name), 'wb') as it:
        it.write(content)


def judge(program, folder, name='logs', words=()):
    """Joins the logs of a folder, without an option if none is given, and has the run judged. What comes is kept beside the logs."""
    joined = _ask([sys.executable, '-B', JOIN, 'join', *words, os.path.join(folder, name)])
    _keep(folder, name + '.joining', joined.errors)
    if joined.status != 0:
        return Judged('not joined', (), {}, '', joined.errors.decode())
    _keep(folder, name + '.run', joined.output)
    explained = _ask([program, 'explain'], joined.output)
    _keep(folder, name + '.explained', explained.output + explained.errors)
    text = explained.output.decode() + explained.errors.decode()
    counted = _ask([program, 'explain', '--counts'], joined.output).output.decode()
    counts = {count: int(number) for count, number in re.findall(r'(?m)^count (\S+) ([0-9]+)$', counted)}
    faults = tuple(re.findall(r'(?m)^fault .*$', text))
    return Judged(VERDICTS.get(explained.status, 'status %s' % explained.status), faults, counts, text, joined.errors.decode())


def told(judged, folder):
    """The verdict, and how much it is about."""
    logs = logs_in(os.path.join(folder, 'logs'))
    sends, deliveries = (sum(len(log.of_kind(kind)) for log in logs) for kind in ('send', 'dlv'))
    counts = ', '.join('%s %s' % (name, judged.counts.get(count, '?')) for count, name in TOLD)
    return '%s: %s, sends %d, deliveries %d' % (judged.in_words(), counts, sends, deliveries)


def without_a_delivery(logs, place):
    """Copies logs into a folder, all but one line: of a delivery, in the middle of a log, of a message that another node sent. The file and
    the message."""
    found = logs_in(logs)
    log = max(found, key=lambda it: len(it.of_kind('dlv')))
    own = {line.words[2] for other in found if other.node == log.node for line in other.of_kind('send')}
    others = [line for line in log.of_kind('dlv') if line.words[1] not in own]
    if not others:
        raise Broken('%s has no delivery of what another node sent' % log.name)
    left_out = others[len(others) // 2]
    os.makedirs(place)
    for it in found:
        rows = [row for number, row in enumerate(it.rows) if it is not log or number != left_out.number]
        _keep(place, it.name, '\n'.join([*rows, '']).encode())
    return log.name, left_out.words[1]
