"""Why explanations of a broken order (1.1, 6.1) say that no order fits: random runs with deliveries in other orders, compared with a search over all
steps between events."""
import random
import re
from functools import partial

from harness import process
from harness.recordings import Run, good_run, text_of
from parts.counts import logs_of

RUNS = 450
# How many random runs are one case, and how often each of these has to come in the runs of a case.
TOGETHER = 150
LEAST = {'2': 5, '4': 20, '6': 1, 'shorter': 3, 'orders': 3, 'lacks': 1}
WIDE = ('--columns', '400')
PLACE = r'[0-9]+:[0-9]+@[0-9]+'
FAULT = re.compile(r'(?ms)^fault (1\.1|6\.1) ([^\n]*)\n.*?^Why it is broken(, by a shorter list of events)?:\n(.*?)^The logs there:\n(.*?)^\n')
STEP = re.compile(r'  (%s) and (%s): (.*)\.' % (PLACE, PLACE))


def deliver_in_a_ring(draw, logs):
    """Lets each of three logs deliver two of three messages of a configuration, so that no two of them deliver the same two. Returns whether
    there are such."""
    delivered = {}
    for log in logs:
        for entry in log.entries:
            if entry.word == 'dlv':
                delivered.setdefault(entry.configuration, {}).setdefault(entry.message, []).append(log)
    shared = [dict(it) for it in delivered.values() if sum(len(there) > 2 for there in it.values()) > 2]
    if not shared:
        return False
    messages = draw.sample([message for message, there in draw.choice(shared).items() if len(there) > 2], 3)
    for index, log in enumerate(draw.sample(logs, 3)):
        places = [at for at, entry in enumerate(log.entries) if entry.message in messages and entry.word == 'dlv']
        entries = [log.entries[at] for at in places]
        for at, message in zip(places[-2:], (messages[index], messages[index - 2])):
            log.entries[at] = entries[0]._replace(message=message)
        for at in places[-3::-1]:
            del log.entries[at]
    return True


def reordered_run(draw, run):
    """The run with deliveries that are missing or have changed places, and sends that come later, where no configuration changes."""
    logs = [log.copy() for log in run.logs]
    if draw.randrange(2) and deliver_in_a_ring(draw, logs):
        return Run(logs, run.times)
    for _ in range(draw.choice((1, 2, 3, 5))):
        entries = draw.choice(logs).entries
        ends = [at for at, entry in enumerate(entries) if entry.word in ('conf', 'fail')] + [len(entries)]
        stays = [range(one + 1, other) for one, other in zip(ends, ends[1:]) if other > one + 2]
        if stays:
            one, other = sorted(draw.sample(draw.choice(stays), 2))
            entries[one], entries[other] = entries[other], entries[one]
            if draw.randrange(3) == 0 and entries[one].word == 'dlv':
                del entries[one]
    return Run(logs, run.times)


class Order:
    """The steps between the events of some logs."""

    def __init__(self, logs, specification):
        self.logs = logs
        self.events = {'%d:%d@%d' % (*log.who, at): (log, at, entry) for log in logs for at, entry in enumerate(log.entries, 1)}
        self.has_twins = ('conf', 'dlv') if specification == '6.1' else ('conf',)

    def why(self, one, other):
        """Why there is a step from one place to another, or None."""
        (log, at, entry), (there, behind, later) = self.events[one], self.events[other]
        if log is there and at < behind:
            return 'they are in one log, in this order'
        if (entry.word, later.word) == ('send', 'dlv') and entry.message == later.message:
            return 'a message is sent before it is delivered'
        if one != other and entry.word == later.word and entry.word in self.has_twins and \
                (entry.message or entry.configuration) == (later.message or later.configuration):
            return 'both %s, which is one event' % ('deliver one message' if entry.message else 'change to one configuration')
        return None

    def shortest(self, logs):
        """How many events the shortest circle of the events of these logs has, or 0."""
        places = [place for place, (log, _, _) in self.events.items() if log in logs]
        steps = {True: [0] * len(places), False: [0] * len(places)}
        for index, one in enumerate(places):
            for number, other in enumerate(places):
                why = self.why(one, other)
                if why:
                    steps['which is one event' not in why][index] |= 1 << number
        lengths = [length for length in (self._length(index, steps) for index in range(len(places))) if length]
        return min(lengths, default=0)

    @staticmethod
    def _length(index, steps):
        """How many steps lead from an event back to it, at least one of them strict, up to eight."""
        twins, strict = 1 << index, 0
        for length in range(1, 9):
            def beyond(found, kind):
                return [way for number, way in enumerate(steps[kind]) if found >> number & 1]
            ways = [*beyond(strict, True), *beyond(strict, False), *beyond(twins, True)]
            twins, strict = (sum_of(beyond(twins, False)), sum_of(ways))
            if strict >> index & 1:
                return length
        return 0

    def orders(self, circle):
        """What is said of the order in which logs deliver two messages."""
        entries = [self.events[place][2] for place in circle[:2]]
        if len(circle) != 4 or any(entry.word != 'dlv' for entry in entries):
            return []
        orders = {}
        for log in self.logs:
            delivered = [entry.message for entry in log.entries if entry.word == 'dlv']
            pair = [entry.message for entry in entries]
            if all(message in delivered for message in pair):
                orders.setdefault(tuple(sorted(pair, key=delivered.index)), []).append('%d:%d' % log.who)
        if sum(map(len, orders.values())) < 3:
            return []
        return ['  Process%s delivered %s before %s.' % (
            ' %s alone' % names[0] if len(names) == 1 else 'es %s and %s' % (', '.join(names[:-1]), names[-1]), *pair)
            for pair, names in orders.items()]

    def lacks(self, circle):
        """What is said of deliveries that a log of a circle lacks."""
        lines = []
        for places, other in ((circle[:2], circle[2]), (circle[2:], circle[0])) if len(circle) == 4 else ():
            delivered = [entry.message for entry in self.events[other][0].entries if entry.word == 'dlv']
            found = []
            for place in places:
                log, at, entry = self.events[place]
                begin = max([number for number, it in enumerate(log.entries[:at]) if it.word == 'conf'], default=0)
                lacked = [(number, it.message) for number, it in enumerate(log.entries[:at], 1)
                          if number > begin and it.message and it.message not in delivered]
                lacked = [(number, message) for number, message in lacked
                          if any(it.word == 'dlv' and it.message == message for it in log.entries[:at])]
                if entry.word == 'dlv' and lacked:
                    message = lacked[-1][1]
                    number = next(number for number, it in enumerate(log.entries, 1) if it.word == 'dlv' and it.message == message)
                    found.append('  Process %s never delivered %s, which %d:%d delivered before %s (%d:%d@%d).' % (
                        other.partition('@')[0], message, *log.who, entry.message, *log.who, number))
            lines += found[:1]
        return lines


def sum_of(ways):
    """All events of some sets."""
    found = 0
    for way in ways:
        found |= way
    return found


def flaw(program, text, seen):
    """What is wrong with the explanation of a run, as far as its order is broken."""
    came, _ = process.run([program, 'explain', *WIDE], text)
    for specification, fault, is_shorter, reasons, extracts in FAULT.findall(came.output.decode()):
        order, listed = Order(logs_of(text), specification), fault.split(' ')
        steps = [words.groups() for words in map(STEP.fullmatch, reasons.splitlines()) if words]
        circle = [one for one, _, _ in steps]
        shortest = order.shortest(order.logs)
        tried = [[order.events[one][0], order.events[other][0]] for one, other in zip(listed, [*listed[1:], listed[0]])]
        is_least = len(circle) == shortest or shortest > 2 and all(order.shortest(pair) not in (2, 4) for pair in tried)
        wanted = [*order.orders(circle), *order.lacks(circle)]
        is_right = is_least and [other for _, other, _ in steps] == [*circle[1:], circle[0]] and \
            all(order.why(one, other) == why for one, other, why in steps) and \
            (len(circle) < len(listed) and len(circle) in (2, 4) if is_shorter else circle == listed) and \
            reasons.endswith('\n'.join(['  So %s would come before itself: no order fits these logs.' % circle[0], *wanted, ''])) and \
            extracts.count('> ') == len(circle)
        if not is_right:
            return 'came: %s, shortest %d, wanted %r\n  for: %r' % (came, shortest, wanted, text)
        seen[str(len(circle))] = seen.get(str(len(circle)), 0) + 1
        seen['shorter'] += bool(is_shorter)
        seen['orders'] += bool(order.orders(circle))
        seen['lacks'] += bool(order.lacks(circle))
    return None


def try_random(first, program):
    """The explanations of random runs."""
    seen = dict.fromkeys(LEAST, 0)
    for seed in range(first, first + TOGETHER):
        draw = random.Random('circles %d' % seed)
        wrong = flaw(program, text_of(reordered_run(draw, good_run(draw)).logs, True), seen)
        if wrong:
            return 'seed %d: %s' % (seed, wrong)
    rare = ['%s %d' % (what, seen[what]) for what in LEAST if seen[what] < LEAST[what]]
    return 'the runs had too little of: %s' % ', '.join(rare) if rare else None


def circles():
    """The circles of explanations."""
    for first in range(0, RUNS, TOGETHER):
        yield 'random runs from %d' % first, partial(try_random, first)
