"""Logs that are made up: the call says what a process did of which there is no log. It failed before it delivered anything, or it did what another
one did, as long as the changes of that one list it."""
import os
import re

from joining import endings
from joining.early_ends import first_listed
from joining.folder import Log, blocks
from joining.scan import Scan
from joining.trouble import Refused, some, tell

FORM = re.compile(r'([^=]*)=(?:failed-before|as-(.*))')


def _read(word):
    """The process that an argument names, and the one that it did as, or None if it failed."""
    found = FORM.fullmatch(word)
    named = [endings.read_list([who]) for who in found.groups() if who is not None] if found else []
    if not found or any(len(those) > 1 for those in named):
        raise Refused('--made-up %s: say 3=failed-before, or 3=as-2 if it did what 2 did; with lives 3:1=as-2:1' % word)
    return named[0][0], named[1][0] if found[2] is not None else None


def _new(process, life, logs, files):
    """A log of a process of which there is none."""
    who = str(process) if life is None else '%d:%d' % (process, life)
    if (life is None) != (logs[0].life is None):
        raise Refused('--made-up: %s' % ('the logs have no lives, so say %d, not %s' % (process, who) if life else
                                         'say which life of %d is meant, such as %d:1' % (process, process)))
    there = next((log for log in files if log.process == process and (log.life or 1) == (life or 1)), None)
    if there:
        raise Refused('--made-up %s: there is a log of it, %s' % (who, there.name))
    return Log(who.replace(':', '.') + '.log', '', process, life)


class Copy:
    """The changes and deliveries of another log, as far as its changes list a process, and the sends of that process among them."""

    def __init__(self, log, other, lists):
        self.log, self.other = log, other
        self.lines, self.left = self._copied(lists)
        if not self.lines:
            raise Refused('--made-up %s: no change of %s lists it, so it did not do as that one' % (log.who, other.name))
        # By the message: before which of the lines its send goes, and the regular configuration there.
        self.places = self._places()

    def _copied(self, lists):
        """The lines, and the first later change that does not list the process, or None."""
        lines, changes = [], iter(self.other.changes)
        is_listed = False
        for block in blocks(self.other.path, 0, self.other.size):
            for line in block.splitlines():
                if line.startswith(b'conf '):
                    change = next(changes)
                    is_listed = lists(self.other, change)
                    if lines and not is_listed:
                        return lines, change
                if is_listed and line.startswith((b'conf ', b'dlv ')):
                    lines.append(line)
        return lines, None

    def _places(self):
        """Where the send of each message goes: just before its delivery, or at the end of the regular configuration that comes right before."""
        places, regular, end = {}, None, None
        for at, line in enumerate(self.lines):
            words = line.split(b' ')
            if words[0] == b'dlv' and regular:
                places.setdefault(words[2], (at if end is None else end, regular))
            elif words[0] == b'conf' and words[1].startswith(b'r'):
                regular, end = words[1], None
            elif words[0] == b'conf':
                regular, end = (regular, at) if end is None else (None, None)
        return places

    def with_sends(self, messages):
        """The lines, with sends of these messages."""
        sends = {}
        for message in messages:
            at, regular = self.places[message]
            sends.setdefault(at, []).append(b'send %s a %s' % (regular, message))
        return [line for at, own in enumerate(self.lines) for line in (*sends.get(at, ()), own)]

    def tell(self, messages):
        """Reports what is made up."""
        changes = sum(line.startswith(b'conf ') for line in self.lines)
        left = ', up to its change to %s, which does not list it' % self.left.configuration.decode() if self.left else ''
        tell('%s is made up: it is taken to have done what %s says%s: changes %d, deliveries %d, sends %d%s' % (
            self.log.name, self.other.name, left, changes, len(self.lines) - changes, len(messages), ' (%s)' % some(messages) if messages else ''))


class MadeUp:
    """The logs that a call makes up: those that failed are begun here, and get their ends as torn ones do; the others are copies."""

    def __init__(self, logs, files, words, scan, working, changes):
        self.scan, self.working, self.changes = scan, working, changes
        self.failed, self.copies = [], []
        for (process, life), like in map(_read, words):
            log = _new(process, life, logs, [*files, *self.all])
            elsewhere = {change.configuration for other in logs if other.process == process for change in other.changes}

            def lists(_, change, log=log, elsewhere=elsewhere):
                return change.configuration not in elsewhere and any(
                    number == log.process and of in (None, log.life) for number, of in change.members)
            if like:
                self.copies.append(Copy(log, self._other(like, logs), lists))
            else:
                self._begin(log, first_listed(logs, lists))

    @staticmethod
    def _other(like, logs):
        """The log of the process that another one did as."""
        return endings.logs_of(['%d' % like[0] if like[1] is None else '%d:%d' % like], logs)[0]

    @property
    def all(self):
        """All of these logs."""
        return [*self.failed, *(copy.log for copy in self.copies)]

    def _begin(self, log, first):
        """The log of a process that failed in the configuration that lists it first."""
        if not first:
            raise Refused('--made-up %s: no regular configuration lists it' % log.who)
        self._write(log, [first.line])
        tell('%s is made up: it is taken to have failed before it delivered anything, in %s' % (log.name, first.configuration.decode()))
        self.failed.append(log)

    def _write(self, log, lines):
        """Writes the lines of a log into a file for temporary use."""
        log.path = os.path.join(self.working, log.name + '.made-up')
        with open(log.path, 'wb') as out:
            out.writelines(line + b'\n' for line in lines)
            log.size = out.tell()
        self.scan.read(log)
        for line in lines:
            self.changes.add('%s, made up: %s' % (log.name, line.decode()))

    def may_have_sent(self):
        """The messages that each of the copies can have sent."""
        return [(copy.log, list(copy.places)) for copy in self.copies]

    def finish(self, sent):
        """Writes the copies, with the sends of these messages, by their logs' names."""
        for copy in self.copies:
            self._write(copy.log, copy.with_sends(sent[copy.log.name]))
            copy.tell(sent[copy.log.name])

    def check(self, logs):
        """Refuses one that failed beside a quiet log in whose last configuration it is: there all members have to end."""
        for log in self.failed:
            for other in logs if log.last else ():
                last = other.changes[-1] if other.ending == 'quiet' and other.changes else None
                if last and any(number == log.process and of in (None, log.life) for number, of in last.members):
                    raise Refused('--made-up %s: %s is quiet, and ends in %s, which lists it; then all members end there (2.1). Leave %s open, or say '
                                  '%s=as-%s' % (log.who, other.name, last.configuration.decode(), other.name, log.who, other.who))
