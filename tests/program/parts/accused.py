"""Whom explanations of 7.1 accuse, and why, compared with plain loops: random runs that lack deliveries of safe messages, many of which were delivered
in transitional configurations, with members that are open, failed or gone on."""
import random
import re
from functools import partial

from harness import process
from harness.counted import Counting
from harness.recordings import Entry, Run, good_run, is_regular, text_of
from parts.counts import logs_of

RUNS = 600
# How many random runs are one case, and how often each of these has to come in the runs of a case.
TOGETHER = 200
LEAST = {'accused': 20, 'accused in a transitional configuration': 10, 'excused as open': 1, 'excused as failed': 1}
WIDE = ('--columns', '400')
FAULT = re.compile(r'(?ms)^fault 7\.1 ([0-9]+:[0-9]+)@([0-9]+)\n.*?^Why it is broken:\n(.*?)^The logs there')
ACCUSED = re.compile(r'  Process(?:es)? (.*) did not deliver (\S+): (?:it|they) (.*)\.')


def end_before(log, at, word):
    """Lets a log end before one of its entries, open or with a failure."""
    del log.entries[at:]
    log.ending = 'open'
    if word == 'fail':
        log.entries.append(Entry('fail', log.entries[-1].configuration))
        log.ending = 'failed'


def lacking_run(draw, run):
    """The run without some deliveries of one safe message: where one is missing, the log may also end there."""
    logs = [log.copy() for log in run.logs]
    safe = sorted({entry.message for log in logs for entry in log.entries if entry.service == 's'})
    message = draw.choice(safe) if safe else None
    places = [(log, at) for log in logs for at, entry in enumerate(log.entries) if entry.word == 'dlv' and entry.message == message]
    draw.shuffle(places)
    for log, at in places[1:]:
        way = draw.choice(('', 'drop', 'drop', 'open', 'fail'))
        if way == 'drop':
            del log.entries[at]
        elif way:
            end_before(log, at, way)
    return Run(logs, run.times)


def name(who):
    """A process with its life."""
    return '%d:%d' % who


class Judging:
    """Who owes a safe message that a place delivers."""

    def __init__(self, logs, seen):
        self.counting, self.logs, self.seen = Counting(logs), {log.who: log for log in logs}, seen

    def why(self, who, origin):
        """What happened to a process at the configuration in which a message was sent, or None if that excuses it."""
        log = self.logs.get(who)
        if log is None:
            return 'has no log'
        changes = self.counting.changes(log)
        if origin not in changes:
            return 'never came to %s' % origin
        excuse = self.counting.excuse(log, origin)
        if excuse:
            self.seen['excused as %s' % excuse] += 1
            return None
        behind = [it for it in changes[changes.index(origin) + 1:] if it not in self.counting.com(log, origin)]
        if behind:
            at = next(at for at, entry in enumerate(log.entries, 1) if entry.word == 'conf' and entry.configuration == behind[0])
            return 'went on to %s (%s@%d)' % (behind[0], name(who), at)
        return 'ended in %s, and is quiet' % changes[-1]

    def accused(self, who, at):
        """The processes that lack the message of a delivery, each with the reason."""
        entries = self.logs[who].entries
        message, there = entries[at - 1].message, entries[at - 1].configuration
        members = [entry for entry in entries[:at] if entry.word == 'conf'][-1].members
        origin = self.counting.sent_in[message]
        found = {}
        for other in members:
            if not any(entry.word == 'dlv' and entry.message == message for entry in getattr(self.logs.get(other), 'entries', ())):
                why = self.why(other, origin)
                if why:
                    found[name(other)] = why
                    self.seen['accused'] += 1
                    self.seen['accused in a transitional configuration'] += not is_regular(there)
        return message, found


def told(reasons):
    """Whom the lines of an explanation accuse of what: the message, and each process with the reason."""
    message, found = None, {}
    for line in reasons.splitlines():
        words = ACCUSED.fullmatch(line)
        if not words:
            return None, line
        message = words[2]
        processes = re.findall('[0-9]+:[0-9]+', words[1])
        why, _, places = words[3].partition(' (')
        for one in processes:
            place = re.search(r'\b%s@[0-9]+' % one, places)
            found[one] = why.replace('have no', 'has no').replace('and are', 'and is') + (' (%s)' % place[0] if place else '')
    return message, found


def is_same(came, wanted):
    """Whether two reasons agree. Where a process went that never came is told by the numbers of rings, and not looked at here."""
    return came == wanted or wanted.startswith('never came to ') and came.startswith(wanted + ', but ')


def flaw(program, text, seen):
    """What is wrong with the explanation of a run, as far as it is one of 7.1."""
    came, _ = process.run([program, 'explain', *WIDE], text)
    judging = Judging(logs_of(text), seen)
    for who, at, reasons in FAULT.findall(came.output.decode()):
        wanted = judging.accused(tuple(map(int, who.split(':'))), int(at))
        found = told(reasons)
        is_right = found[0] == wanted[0] and found[1].keys() == wanted[1].keys() and \
            all(is_same(found[1][one], wanted[1][one]) for one in wanted[1])
        if not is_right:
            return '%s@%s: came %r, wanted %r, for: %r' % (who, at, found, wanted, text)
    return None


def try_random(first, program):
    """The explanations of random runs."""
    seen = dict.fromkeys(LEAST, 0)
    for seed in range(first, first + TOGETHER):
        draw = random.Random('accused %d' % seed)
        wrong = flaw(program, text_of(lacking_run(draw, good_run(draw)).logs, True), seen)
        if wrong:
            return 'seed %d: %s' % (seed, wrong)
    rare = ['%s %d' % (what, seen[what]) for what in LEAST if seen[what] < LEAST[what]]
    return 'the runs had too little of: %s' % ', '.join(rare) if rare else None


def accused():
    """Whom explanations accuse."""
    for first in range(0, RUNS, TOGETHER):
        yield 'random runs from %d' % first, partial(try_random, first)
