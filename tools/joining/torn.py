"""Logs whose tails a power failure took: the sends that other logs prove are added at their ends, and `fail`. Logs that are made up get theirs by
the same rule."""
import re

from joining.endings import logs_of
from joining.folder import blocks
from joining.gaps import regular_stays
from joining.trouble import Refused, some, tell

SENT = re.compile(rb'(?m)^send \S+ [as] (.*)$')
# A message named in the payload has the number 32 x k + p, p being the sender's place among the members.
MOST_PLACES = 32


def _lost_in(stays):
    """The messages that logs deliver in a configuration or in the transitional one after it, in the order of the log that delivers most of them;
    then those that only others deliver."""
    lists = [stay.deliveries() + (stay.after.deliveries() if stay.after else []) for stay in stays]
    return list(dict.fromkeys(name for one in sorted(lists, key=len, reverse=True) for name in one))


class Senders:
    """What the logs send: all names, and by rings and logs the remainders of the numbers, with how many there are."""

    def __init__(self, logs):
        self.sent, self.rings = set(), {}
        for log in logs:
            for block in blocks(log.path, 0, log.size):
                for name in SENT.findall(block):
                    self.sent.add(name)
                    ring, _, number = name.partition(b'#')
                    there = self.rings.setdefault(ring, {}).setdefault(log.name, [set(), 0])
                    there[0].add(int(number) % MOST_PLACES)
                    there[1] += 1

    def of(self, message):
        """The logs that the name of a message names as its sender's: the one whose sends on that ring have the same remainder, or none. None in
        place of a list if the names of that ring don't say who sent a message."""
        ring, _, number = message.partition(b'#')
        there = self.rings.get(ring, {})
        remainders = [min(found) for found, _ in there.values()]
        says = all(len(found) == 1 for found, _ in there.values()) and len(set(remainders)) == len(remainders)
        if not says or max((count for _, count in there.values()), default=0) < 2:
            return None
        return [log for log, (found, _) in there.items() if int(number) % MOST_PLACES in found]

    def has_sent(self, log, message):
        """Whether a log sends any message of that ring."""
        return log.name in self.rings.get(message.partition(b'#')[0], {})


def _sender(message, claiming, senders):
    """Which of these torn logs sent a message that nobody sends; None if its name says that it was another process. Refuses it if several can
    have sent it."""
    named = senders.of(message)
    if named:
        claiming = [log for log in claiming if log.name in named]
    elif named is not None:
        claiming = [log for log in claiming if not senders.has_sent(log, message)]
    if len(claiming) > 1:
        way = '' if any(log.is_made_up for log in claiming) else ': say --torn of one, and --failed of the other'
        raise Refused('%s: nobody sends it, both %s and %s may have, and its name does not say who%s' % (
            message.decode(), claiming[0].name, claiming[1].name, way))
    return claiming[0] if claiming else None


def _check(log):
    """Refuses a log that can't have lost its tail."""
    if log.is_made_up:
        raise Refused('%s is made up, and the call says that its end was torn off' % log.name)
    if log.ending == 'failed':
        raise Refused('%s ends with fail, and the call says that its end was torn off' % log.name)
    if log.ending == 'quiet':
        raise Refused('%s says that it is quiet, and the call says that its end was torn off' % log.name)
    if not log.last:
        raise Refused('%s changes to no configuration, so it can have failed in none' % log.name)


def _mend(log, added, others, changes):
    """Adds the sends of these messages, and `fail`. `others` were lost there too, and sent by others, as their names say."""
    lines = [b'send %s a %s' % (log.last, message) for message in added] + [b'fail %s' % log.last]
    log.added = b''.join(line + b'\n' for line in lines)
    if added:
        tell('%s: sends that are added, since others delivered the messages and no log sends them: %d (%s)' % (log.name, len(added), some(added)))
    else:
        tell('%s: no message without a send was delivered where it ends, so no send is added' % log.name)
    if others:
        tell('%s: messages without a send that are not added, since their names say another sender: %d (%s)' % (log.name, len(others), some(others)))
    tell('%s: %s is added' % (log.name, lines[-1].decode()))
    for line in lines:
        changes.add('%s, end: %s is added' % (log.name, line.decode()))
    log.end_as('failed', changes)


def _torn(words, logs):
    """The logs of which the call says that they lost their tails."""
    torn = logs_of(words, logs) if words else []
    for log in torn:
        _check(log)
    return torn


def mend(logs, words, made_up, changes):
    """Adds to the logs that the call names, and to those that are made up, what other logs prove that they sent. Those that are no copies get it
    at their ends, and fail."""
    torn = [*_torn(words, logs), *(made_up.failed if made_up else ())]
    there, senders = regular_stays(logs), Senders(logs)
    claims = [*((log, _lost_in(there.get(log.last, ()))) for log in torn), *(made_up.may_have_sent() if made_up else ())]
    claims = [(log, [name for name in messages if name not in senders.sent]) for log, messages in claims]
    claiming = {}
    for log, messages in claims:
        for message in messages:
            claiming.setdefault(message, []).append(log)
    sender = {message: _sender(message, those, senders) for message, those in claiming.items()}
    sent = {log.name: [message for message in messages if sender[message] is log] for log, messages in claims}
    for log, messages in claims[:len(torn)]:
        _mend(log, sent[log.name], [message for message in messages if sender[message] is None], changes)
    if made_up:
        made_up.finish(sent)
