"""One life of the recorder: from its connection to the daemon up to the end of its log."""
import os
import select
import socket
import time
from errno import EADDRINUSE
from hashlib import sha256

from recording import library
from recording.library import Failed, Group
from recording.log_file import LogFile
from recording.requests import Requests
from recording.trouble import LifeOver, Refused, say
from recording.views import Views
from recording.watch import Watch

# How long it waits for the daemon to say that it has left, and stays after the last answer, for others that are slower.
SECONDS_TO_LEAVE, SECONDS_TO_STAY = 5, 2
# How long it waits for callbacks before it looks what was asked of it.
SECONDS_TO_LOOK = .1
NO_LIBRARY = '%s: install the package libcpg4 (Debian, Ubuntu) or corosynclib (Fedora, RHEL)'


class Life:
    """A life of the recorder. The library calls `group`, `ring_changed` and `message`."""

    def __init__(self, asked, is_first):
        self.asked = asked
        self.requests = Requests(asked.ends_at)
        try:
            self.connection = Group(library.load(), self, os.fsencode(asked.group))
        except OSError as error:
            raise Refused(NO_LIBRARY % error) from error
        self.requests.connect(self.connection, is_first)
        self.views = Views(self.requests.until(self.connection.node, 'say which node this is'), os.getpid())
        self.guard = self._be_alone()
        self.log = LogFile(asked.logs, self.views.me, asked.group, asked.sync)
        self.counts = dict.fromkeys(('send', 'dlv', 'conf'), 0)
        self.watch = Watch(self.log)
        # The message that waits for the daemon, and the words that have been said to the group.
        self.waiting, self.said = None, set()
        # Since when this member leaves, whether the daemon knows it, and since when all have answered.
        self.leaving_since, self.has_asked_to_leave, self.quiet_since = None, False, None

    def _be_alone(self):
        """Takes a name that only one process of this node can have, until it ends."""
        guard = socket.socket(socket.AF_UNIX, socket.SOCK_DGRAM)
        try:
            # (the name of a socket is short, that of a group need not be)
            guard.bind('\0totem-record %d %s' % (self.views.me.node, sha256(os.fsencode(self.asked.group)).hexdigest()[:32]))
        except OSError as error:
            if error.errno != EADDRINUSE:
                raise
            raise Refused('another recorder of the group %s runs on this node, %d' % (self.asked.group, self.views.me.node)) from None
        return guard

    def group(self, members, left, joined):
        """The members of the group changed."""
        if self.views.configuration is None:
            self.watch.end()
        self._write(self.views.group(members, left, joined))

    def ring_changed(self, representative, number, nodes):
        """There is another ring."""
        self._write(self.views.ring_changed(representative, number, nodes))

    def message(self, node, process, contents):
        """A message is delivered."""
        self.watch.end()
        self._write(self.views.message(node, process, contents))

    def _write(self, lines):
        """Writes what came, unless the log has ended. The line `quiet` ends it."""
        if self.quiet_since is not None:
            return
        self.log.write(lines)
        if self.views.is_quiet:
            self.quiet_since = time.monotonic()
        for word, *words in (line.split(' ') for line in lines):
            if word in self.counts:
                self.counts[word] += 1
            if word == 'conf' and words[0].startswith('r'):
                say('%s: members %s' % (words[0], ' '.join(words[1:])))

    def _word(self):
        """What is still to be said to the group: that all end, or that this member has heard it."""
        if self.views.byes is not None:
            word = 'bye'
        else:
            word = 'stop' if self.requests.ends_all else None
        return word if word not in self.said else None

    def _send(self, word):
        """Writes the line of a message, and then hands it over. If the daemon is busy, the same message is tried again later."""
        if self.waiting is None:
            name = self.views.next_name()
            self._write(['send %s a %s' % (self.views.configuration, name)])
            self.log.sync()
            head = ('%s %s ' % (name, word or '-')).encode()
            self.waiting = head + os.urandom(self.asked.size - len(head))
            self.said.add(word)
            self.watch.begin('nothing is delivered for %g s though messages wait', 'messages are delivered again')
        try:
            if self.connection.send(self.waiting):
                self.waiting = None
        except Failed as failed:
            if failed.error == library.TOO_BIG:
                raise Refused('--size %d: %s' % (self.asked.size, failed)) from failed
            raise

    def _act(self, next_send):
        """Does what is due. Returns when the next message is."""
        now = time.monotonic()
        if self.requests.leaves and not self.has_asked_to_leave:
            self.leaving_since = self.leaving_since or now
            self.has_asked_to_leave = self.connection.leave()
        word = self._word()
        may_send = self.views.can_send and self.leaving_since is None and self.quiet_since is None
        if not may_send:
            return now + SECONDS_TO_LOOK
        if now < next_send and not word:
            return next_send
        # (a message also ends a change that is pending)
        if self.waiting is not None or word or self.views.byes is None or self.views.pending:
            self._send(word)
        gap = 1 / self.asked.rate
        return max(next_send + gap, now - 5 * gap)

    def _is_over(self):
        """Whether the life is over, as somebody asked."""
        now = time.monotonic()
        if self.quiet_since is not None:
            return now > self.quiet_since + SECONDS_TO_STAY
        has_left = self.views.has_left or self.leaving_since is not None and now > self.leaving_since + SECONDS_TO_LEAVE
        return has_left or self.requests.ends > 1

    def _join(self):
        """Joins the group."""
        try:
            self.requests.until(self.connection.join, 'let this process join the group')
        except Failed as failed:
            if failed.error in library.GONE:
                raise
            raise Refused('--group %s: %s' % (self.asked.group, failed)) from failed
        self.watch.begin('no view of the group comes for %g s', 'a view of the group has come')

    def _record(self):
        """Joins the group, and records until the life is over."""
        self._join()
        poll, next_send = select.poll(), time.monotonic()
        poll.register(self.connection.descriptor(), select.POLLIN)
        while not self._is_over():
            next_send = self._act(next_send)
            events = poll.poll(1000 * max(0, min(next_send - time.monotonic(), SECONDS_TO_LOOK)))
            is_gone = any(event & (select.POLLHUP | select.POLLERR) for _, event in events)
            try:
                self.connection.dispatch()
            except Failed as failed:
                if not is_gone:
                    raise LifeOver(str(failed)) from failed
            if is_gone:
                raise LifeOver('corosync is gone')

    def live(self):
        """Records, and closes the log. Returns the status."""
        say('writes %s; Ctrl-C ends the recording of all nodes, SIGTERM that of this one' % self.log.path)
        try:
            try:
                self._record()
            except Failed as failed:
                raise LifeOver(str(failed)) from failed
        except (LifeOver, Refused) as over:
            self._close(str(over), is_failed=True)
            if self.quiet_since is not None:
                return 0
            raise
        has_left = self.views.has_left or self.leaving_since is not None
        self._close('it left' if has_left else 'it was stopped', is_failed=has_left)
        return 0 if has_left or self.quiet_since is not None else 1

    def _close(self, why, is_failed):
        """Ends the log, unless it has ended, and says what it has."""
        self.watch.stop()
        if self.quiet_since is None:
            failure = ['fail %s' % self.views.configuration] if is_failed and self.views.configuration else []
            self._write(['# ended: %s' % why, *failure])
        ending = 'all have ended' if self.quiet_since is not None else why
        say('%s: sends %d, deliveries %d, changes %d; %s' % (
            self.log.path, *(self.counts[word] for word in ('send', 'dlv', 'conf')), ending))
