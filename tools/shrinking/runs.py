"""Broken runs made small."""
import hashlib
import re

from shrinking import leaving_out, naming
from shrinking.program import Refused
from shrinking.reducing import Trials, fewest
from shrinking.run_text import entry_at, read, write

# The order in which parts are left out: large ones first.
KINDS = (leaving_out.processes, leaving_out.configurations, leaving_out.messages, leaving_out.claims, leaving_out.entries,
         leaving_out.members)
NAME = re.compile(r'[rt]?[0-9][0-9.:#/@]*')
# What an explanation says of a fault below this heading, up to the next one; in lines so long that no reason is broken where a name is longer.
REASONS = re.compile(r'\nWhy it is broken[^\n:]*:\n((?:  .*\n)*)')
COLUMNS = 400
NAMINGS = (naming.of_least_version, naming.with_small_processes, naming.with_small_rings, naming.with_small_messages)


def digest(text):
    """Tells texts apart."""
    return hashlib.blake2b(text, digest_size=16).digest()


def kind_of(entry):
    """The kind of an event: a change and to which kind of configuration, a send or a delivery, or a failure."""
    return entry.kind + ' ' + entry.configuration[0] if entry.kind == 'conf' else entry.kind


def kinds_of(run, verdict):
    """For each broken specification, the kinds of the events of its first fault."""
    told = {}
    for specification, places in verdict.faults:
        told.setdefault(specification, tuple(kind_of(entry_at(run, place)) for place in places))
    return told


def reasons_of(explanation):
    """For each broken specification, the sentences that explain why its first fault breaks it, without names; each once, in no order."""
    told = {}
    for section in explanation.split('\nfault ')[1:]:
        why = REASONS.search(section)
        told.setdefault(section.split(' ')[0], frozenset(NAME.sub('..', why[1]).splitlines()) if why else None)
    return told


def is_sent(run, place):
    """Whether any log sends the message that is delivered at a place."""
    message = entry_at(run, place).message
    return any(entry.kind == 'send' and entry.message == message for log in run.logs for entry in log.entries)


class Aim:
    """What has to stay the same: the broken specifications, or only that this one is among them; whether a message that breaks 1.3 was sent
    elsewhere or nowhere; and, if asked for, the kinds of the events that the first fault of each names, and the kinds of reasons that
    `explain` gives."""

    def __init__(self, run, verdict, explain, specification=None, same_places=False):
        self.broken = (specification,) if specification else verdict.broken
        self.is_among = bool(specification)
        self.explain = explain
        self.kinds = self._kinds(run, verdict) if same_places else None
        self.sent = self._sent(run, verdict)

    def _sent(self, run, verdict):
        places = [places[0] for specification, places in verdict.faults if specification == '1.3' and specification in self.broken]
        return is_sent(run, places[0]) if places else None

    def _kinds(self, run, verdict):
        told, reasons = kinds_of(run, verdict), reasons_of(self.explain(write(run), COLUMNS))
        return {specification: (told[specification], reasons.get(specification)) for specification in self.broken}

    def is_met_by(self, run, verdict):
        """Whether a run with this verdict is acceptable."""
        if not verdict or not verdict.is_no:
            return False
        if not (set(self.broken) <= set(verdict.broken) if self.is_among else self.broken == verdict.broken):
            return False
        if self.sent != self._sent(run, verdict):
            return False
        return self.kinds is None or self.kinds == self._kinds(run, verdict)


class RunShrinker:
    """Makes a broken run small. `tell` is called with the progress."""

    def __init__(self, program, text, jobs=1, tell=None, keep_names=False, **asked):
        verdict = program.audit(text)
        if verdict is None:
            raise Refused(program.flaw(text, is_script=False))
        if not verdict.is_no:
            raise Refused('the verdict on this run is yes: nothing is broken that could be made small')
        if asked.get('specification') not in (None, *verdict.broken):
            raise Refused('this run does not break %s, but %s' % (asked['specification'], ', '.join(verdict.broken)))
        self.program = program
        self.run = read(text)
        self.verdict = verdict
        self.aim = Aim(self.run, verdict, program.explain, **asked)
        self.keep_names = keep_names
        # The run with the names that it had, if it has new ones.
        self.before = None
        self.trials = Trials(self._holds, lambda run: digest(write(run)), jobs, self._take)
        self.tell = tell or (lambda lines, tried: None)

    def _holds(self, run):
        return bool(run.logs) and self.aim.is_met_by(run, self.program.audit(write(run)))

    def _take(self, candidate):
        self.run = candidate
        self.tell(candidate.lines, len(self.trials.known))

    @property
    def text(self):
        """The text of the smallest run that was found so far."""
        return write(self.run)

    def _begin(self):
        """First tries only what the faults name: the first fault of each specification that has to stay broken."""
        first = {specification: places for specification, places in reversed(self.verdict.faults)}
        places = [place for name in self.aim.broken for place in first[name]]
        self.trials.first([lambda: leaving_out.around(self.run, places)])

    def shrink(self):
        """Looks for the smallest run."""
        self._begin()
        before = None
        while before != self.run.lines:
            before = self.run.lines
            for kind in KINDS:
                fewest(*kind(self.run), self.trials)
        self.before = self.run
        for with_small_numbers in NAMINGS if not self.keep_names else ():
            self.trials.first([lambda: with_small_numbers(self.run)])

    def names(self):
        """The names that the run has now, each with the one that it had before, if they differ."""
        return naming.changed(self.before, self.run) if self.before else []
