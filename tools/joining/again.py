"""Names that come again in another part of logs that are cut: defects that no single part shows."""
import re

from joining.folder import blocks
from joining.trouble import tell_each

RING_SENT = re.compile(rb'send \S+ [as] ([0-9.]+)#')
SENT = re.compile(rb'send \S+ [as] (([0-9.]+)#[0-9]+)\n')


def _sent(part, form):
    """What the send lines of a part of a log name, by this form."""
    for block in blocks(part.log.path, part.begin, part.end):
        yield from form.findall(block)


def tell_configurations(logs, cuts, called):
    """Reports configurations to which logs change in two parts. `cuts` are pairs of cuts, each a part, which is `called` so."""
    first, again = {}, []
    for (begin, end), name in zip(cuts, called):
        for index, log in enumerate(logs):
            for change in log.changes[begin.changes[index]:end.changes[index]]:
                other = first.setdefault(change.configuration, name)
                if other != name:
                    again.append('%s: changes to %s in %s, and a log does so in %s: a name came again, and no part shows it' % (
                        log.name, change.configuration.decode(), name, other))
    tell_each(again)


def tell_messages(runs, called):
    """Reports messages that are sent in two parts. `runs` are the parts of logs of each part, which is `called` so."""
    first, twice = {}, set()
    for parts, name in zip(runs, called):
        for ring in {ring for part in parts for ring in _sent(part, RING_SENT)}:
            if first.setdefault(ring, name) != name:
                twice.add(ring)
    sent, again = {}, []
    for parts, name in zip(runs, called) if twice else ():
        for part in parts:
            for message, ring in _sent(part, SENT):
                if ring in twice and sent.setdefault(message, name) != name:
                    again.append('%s: sends %s in %s, and a log does so in %s: a name came again, and no part shows it' % (
                        part.log.name, message.decode(), name, sent[message]))
    tell_each(again)
