"""Warnings of what may be wrong with the layer and gets a yes nevertheless."""
import re

from joining.folder import blocks
from joining.trouble import some, tell

LAST_DELIVERY = re.compile(rb'(?ms).*^dlv ')
SENT = re.compile(rb'(?m)^send \S+ [as] (.*)$')
# A log hangs at its end if it goes on for so many seconds after its last delivery, or has so many sends after it if its lines have no times.
SECONDS, SENDS = 10, 10


def _sent_last(log):
    """The messages that a log sends after its last delivery."""
    sent = []
    for block in blocks(log.path, 0, log.size):
        found = LAST_DELIVERY.match(block)
        if found:
            sent = []
        sent += SENT.findall(block, found.end() if found else 0)
    return sent


def _delivered(logs, messages):
    """Those of these messages that some log delivers."""
    form, found = re.compile(rb'(?m)^dlv \S+ (.*)$'), set()
    for log in logs:
        for block in blocks(log.path, 0, log.size):
            found.update(messages.intersection(form.findall(block)))
    return found


def _hangs(log, count):
    """Whether a log that sends so many messages after its last delivery, which nobody delivers, hangs at its end."""
    return count >= SENDS if log.silence is None else log.silence >= SECONDS


def tell_hang(logs):
    """Warns if at the end of all logs that did not fail nobody delivers anything, though messages were handed over that nobody ever delivers."""
    logs_there = [log for log in logs if log.ending != 'failed']
    ends = {log.name: _sent_last(log) for log in logs_there}
    if not any(ends.values()) or not all(_hangs(log, len(ends[log.name])) for log in logs_there):
        return
    delivered = _delivered(logs, {message for sent in ends.values() for message in sent})
    ends = {name: [message for message in sent if message not in delivered] for name, sent in ends.items()}
    lost = [message for sent in ends.values() for message in sent]
    if lost and all(_hangs(log, len(ends[log.name])) for log in logs_there):
        tell('warning: at the end of all logs that did not fail nobody delivers anything, though messages were handed over that nobody ever '
             'delivers: %d (%s). Does the layer hang? The verdict may be yes nevertheless: no specification that is judged promises progress' % (
                 len(lost), some(lost)))


def tell_holes(name, lost):
    """Warns of messages that a log sends, nobody delivers, and that are not the last ones: somebody delivers a later one of that log."""
    if lost:
        tell('warning: %s: of the sends that are left out, those of messages after which it sends one that was delivered: %d (%s). The layer took '
             'the messages and lost them, and the verdict may be yes nevertheless' % (name, len(lost), some(lost)))
