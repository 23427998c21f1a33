"""What a run put to the test (docs/SPECIFICATIONS.md, "Counts"), counted by plain loops over the definitions."""
from harness.recordings import is_regular

PASSES = ({'1.4', '2.1', '2.2', '2.3', '2.4'}, {'1.3'}, {'1.1', '6.1'}, {'3', '4', '5', '6.3', '7.1', '7.2'})


class Counting:
    """The counts of some logs."""

    def __init__(self, logs):
        self.logs = logs
        self.entries = [(log, at, entry) for log in logs for at, entry in enumerate(log.entries)]
        self.sends = [it for it in self.entries if it[2].word == 'send']
        self.deliveries = [it for it in self.entries if it[2].word == 'dlv']
        self.safe = {entry.message for _, _, entry in self.sends if entry.service == 's'}
        self.sent_in = {entry.message: entry.configuration for _, _, entry in self.sends}
        self.rings = sorted({entry.configuration for _, _, entry in self.entries if entry.word == 'conf' and is_regular(entry.configuration)})

    @staticmethod
    def changes(log):
        """The configurations to which a log changes, in order."""
        return [entry.configuration for entry in log.entries if entry.word == 'conf']

    def neighbours(self):
        """The log and the two configurations of neighbouring changes."""
        for log in self.logs:
            changes = self.changes(log)
            yield from ((log, *pair) for pair in zip(changes, changes[1:]))

    def com(self, log, configuration):
        """A regular configuration and what follows it at a log."""
        changes = self.changes(log)
        if configuration in changes:
            behind = changes[changes.index(configuration) + 1:][:1]
            return {configuration, *(it for it in behind if not is_regular(it))}
        return {configuration}

    def delivered(self, log, configuration):
        """The messages that a log delivers in a regular configuration or what follows it, in order."""
        com = self.com(log, configuration)
        return [entry.message for entry in log.entries if entry.word == 'dlv' and entry.configuration in com]

    def excuse(self, log, configuration):
        """How a process is excused there: `failed`, `open` or not at all."""
        com = self.com(log, configuration)
        failures = [entry.configuration for entry in log.entries if entry.word == 'fail']
        if com.intersection(failures):
            return 'failed'
        is_there = any(it in com for it in self.changes(log)[-1:])
        return 'open' if is_there and not failures and log.ending != 'quiet' else None

    def members(self, configuration):
        """Whom some change to it lists."""
        return {who for _, _, entry in self.entries if entry.word == 'conf' and entry.configuration == configuration for who in entry.members}

    def crossings(self, ways):
        """How many regular configurations have ways to several transitional ones."""
        ways = {(one, other) for one, other in ways if is_regular(one) and not is_regular(other)}
        return sum(len([way for way in ways if way[0] == ring]) > 1 for ring in self.rings)

    def groups(self):
        """The logs that go on together, with the configuration that they leave."""
        moves = list(self.neighbours())
        for pair in sorted({(x, d) for _, x, d in moves}):
            logs = [log for log in self.logs if any(one is log and (x, d) == pair for one, x, d in moves)]
            if len(logs) > 1:
                yield logs, pair[0]

    def shape(self):
        """What the run is like."""
        together = self.together()
        yield 'regular', len(self.rings)
        yield 'shared', sum(is_regular(it) for it in together)
        yield 'partition', self.crossings((x, d) for _, x, d in self.neighbours())
        yield 'merge', self.crossings((d, x) for _, x, d in self.neighbours())
        yield 'returned', len(self.logs) - len({log.process for log in self.logs})
        yield 'transitional', sum(not is_regular(entry.configuration) for _, _, entry in self.deliveries)
        yield 'safe-sent', sum(entry.service == 's' for _, _, entry in self.sends)
        yield 'safe', len(self.safe & {entry.message for _, _, entry in self.deliveries})

    def together(self):
        """The configurations to which several logs change."""
        all_of_them = {it for log in self.logs for it in self.changes(log)}
        return [it for it in all_of_them if sum(it in self.changes(log) for log in self.logs) > 1]

    def basic(self):
        """What is counted of 1 and 2."""
        yield '1.1', sum(any(log is not sender and entry.message == sent.message for sender, _, sent in self.sends)
                         for log, _, entry in self.deliveries)
        yield '1.3', len(self.deliveries)
        yield '1.4', len(self.sends) + len(self.deliveries)
        quiet = [log for log in self.logs if log.ending == 'quiet']
        yield '2.1', len(quiet)
        yield '2.1-may-come', sum(self.may_come(log) for log in quiet)
        yield '2.2', sum(entry.word != 'conf' for _, _, entry in self.entries)
        yield '2.3', len(self.together())
        yield '2.4', len(list(self.neighbours()))

    def may_come(self, quiet):
        """How many members may still come where a quiet log ends."""
        ends = [entry for entry in quiet.entries if entry.word == 'conf'][-1:]
        return sum(log.who in end.members and log.ending == 'open' and end.configuration not in self.changes(log)
                   and all(entry.word != 'fail' for entry in log.entries) for end in ends for log in self.logs)

    def own(self):
        """What is counted of 3 and 4."""
        came = [('' if entry.message in self.delivered(log, entry.configuration) else self.excuse(log, entry.configuration))
                for log, _, entry in self.sends]
        yield '3', came.count('')
        yield '3-failed', came.count('failed')
        yield '3-open', came.count('open')
        groups = list(self.groups())
        yield '4', sum(len({entry.message for log in logs for entry in log.entries if entry.word == 'dlv' and entry.configuration == x})
                       for logs, x in groups)
        yield '4-pairs', sum(len(logs) == 2 for logs, _ in groups)
        yield '4-larger', sum(len(logs) > 2 for logs, _ in groups)

    def order(self):
        """What is counted of 5 and 6."""
        later = [sent for log, at, sent in self.sends
                 if any(entry.word in ('send', 'dlv') and entry.configuration == sent.configuration for entry in log.entries[:at])]
        yield '5', sum(sent.message in self.delivered(log, sent.configuration) for sent in later for log in self.logs)
        yield '5-sends', len(later)
        delivered = [entry.message for _, _, entry in self.deliveries]
        yield '6.1', sum(delivered.count(message) > 1 for message in set(delivered))
        past, lacking = 0, set()
        for ring in self.rings:
            there = [(log, self.delivered(log, ring)) for log in self.logs if ring in self.changes(log)]
            for _, before in there:
                for at, message in enumerate(before):
                    past += any(other not in all_there for other in before[:at] for _, all_there in there)
                    lacking |= {(log.who, ring, message) for log, all_there in there
                                if message in all_there and set(before[:at]) - set(all_there)}
        yield '6.3', past
        yield '6.3-no-member', len(lacking)

    def safety(self):
        """What is counted of 7."""
        obliged = {}
        for log, _, entry in self.deliveries:
            if entry.message in self.safe and entry.configuration in self.com(log, self.sent_in[entry.message]):
                for other in self.logs:
                    if other is not log and other.who in self.members(entry.configuration):
                        obliged[other.who, entry.message] = other
        came = []
        for (_, message), log in obliged.items():
            ring = self.sent_in[message]
            came.append('' if message in self.delivered(log, ring) else self.excuse(log, ring))
        yield '7.1', len(came)
        yield '7.1-failed', came.count('failed')
        yield '7.1-open', came.count('open')
        yield '7.2', sum(entry.message in self.safe and is_regular(entry.configuration) for _, _, entry in self.deliveries)

    def ends(self):
        """What quiet logs lack of the agreed messages of others."""
        quiet = [log for log in self.logs if log.ending == 'quiet']
        lacks = [log.who for log in quiet for ring in list(filter(is_regular, self.changes(log)))[-1:] for sender, _, sent in self.sends
                 if sender is not log and (sent.configuration, sent.service) == (ring, 'a') and sent.message not in self.delivered(log, ring)
                 and any(sent.message in self.delivered(other, ring) for other in self.logs)]
        yield 'complete', len(quiet) - len(set(lacks))
        yield 'missing', len(lacks)


def counted(logs, stopped):
    """The counts of a run, in order; `stopped` is the specification of the first fault, or None."""
    counting = Counting(logs)
    checked = set()
    for specifications in PASSES:
        checked |= specifications
        if stopped in specifications:
            break
    yield from counting.shape()
    for part in (counting.basic, counting.own, counting.order, counting.safety):
        yield from ((name, number) for name, number in part() if name.partition('-')[0] in checked)
    if checked >= PASSES[-1]:
        yield from counting.ends()
