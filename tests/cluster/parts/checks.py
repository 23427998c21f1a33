"""What a recording has to be beyond its verdict."""
import os

from parts import judging
from parts.watching import logs_in

# How many messages of each node a quiet log has at least.
FEWEST = 3


def endings(folder, expected):
    """What is wrong with how logs end. `expected` has for each node the endings of its logs, in the order in which these began."""
    found = {node: [] for node in expected}
    for log in logs_in(folder):
        found.setdefault(log.node, []).append(log.ending)
    if found != expected:
        yield 'the logs end so: %s; expected: %s' % (found, expected)


def deliveries(folder):
    """Logs that lack deliveries: each log that is quiet has to have messages of each node, not only its last answer."""
    logs = logs_in(folder)
    sent = {}
    for log in logs:
        sent.setdefault(log.node, set()).update(line.words[2] for line in log.of_kind('send'))
    for log in logs:
        delivered = {line.words[1] for line in log.of_kind('dlv')}
        for node, messages in sorted(sent.items()):
            if log.ending == 'quiet' and len(delivered & messages) < FEWEST:
                yield '%s has %d messages that node %d sent' % (log.name, len(delivered & messages), node)


def counts(judged, expected):
    """Counts of the run that are not as expected."""
    for name, number in expected.items():
        if judged.counts.get(name) != number:
            yield 'count %s is %s; expected: %d' % (name, judged.counts.get(name), number)


def statuses(cluster, expected):
    """Recorders that ended with another status. `expected` has for each node the statuses of its recorders, in their order."""
    if cluster.statuses != expected:
        yield 'the recorders ended with the statuses %s; expected: %s' % (cluster.statuses, expected)


def said(cluster, node, expected=()):
    """What is wrong with what the recorders of a node said: each line is their own (but for a usage error), the last line of one that wrote a
    log says how much it has, and what is expected is there."""
    text = cluster.words_of(node)
    lines = text.splitlines()
    for line in lines:
        if not line.startswith(('record: ', 'usage: record ', ' ')):
            yield 'recorder %d said %r' % (node, line)
    for words in expected:
        if words not in text:
            yield 'recorder %d did not say %r' % (node, words)
    logs = [log for log in logs_in(cluster.logs) if log.node == node]
    if logs and logs[-1].ending == 'quiet':
        entries = tuple(len(logs[-1].of_kind(kind)) for kind in ('send', 'dlv', 'conf'))
        if lines[-1] != 'record: %s: sends %d, deliveries %d, changes %d; all have ended' % (logs[-1].path, *entries):
            yield 'the last line of recorder %d is %r, and its log has %d sends, %d deliveries, %d changes' % (node, lines[-1], *entries)


def verdict(judged):
    """What is wrong if a verdict is not yes: the first faults, or what was said in place of a verdict."""
    if judged.verdict != 'yes':
        yield 'the verdict is %s: %s' % (judged.verdict, '; '.join(judged.faults[:4]) or (judged.explanation or judged.joining)[:400])


def without_a_delivery(program, cluster):
    """The verdict on the same recording without one delivery, which has to be a no that names the message: what came, and what is wrong."""
    place = os.path.join(cluster.folder, 'left-out')
    name, message = judging.without_a_delivery(cluster.logs, place)
    judged = judging.judge(program, cluster.folder, 'left-out')
    words = '%s without the delivery of %s: %s' % (name, message, judged.in_words())
    return words, [] if judged.verdict == 'no' and message in judged.explanation else ['expected: a no that names %s' % message]
