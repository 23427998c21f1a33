"""A cluster of unmodified Corosync daemons in namespaces of this machine, with a recorder beside each."""
import os
import signal
import sys
import time
from datetime import datetime, timezone

from parts import children, watching
from parts.spaces import Network, address

# How long a daemon may take until it answers, and the cluster until all are in one view; on a machine that does other work.
SECONDS = 90
# How long the end in the group may take, and the end of one recorder by itself.
ENDING, ENDING_ALONE = 40, 6
# Default timeouts; a machine of several daemons gives none of them real-time scheduling or a watchdog.
CONFIGURATION = """totem {
  version: 2
  cluster_name: recorded
  transport: knet
  crypto_cipher: none
  crypto_hash: none
}
nodelist {
%s}
quorum {
  provider: corosync_votequorum
}
logging {
  to_logfile: yes
  logfile: %s
  to_syslog: no
  to_stderr: no
  timestamp: hires
  debug: %s
}
system {
  sched_rr: no
  move_to_root_cgroup: no
}
resources {
  watchdog_device: off
}
"""
NODE = '  node {\n    ring0_addr: %s\n    nodeid: %d\n    name: node%d\n  }\n'


class Cluster:
    """Nodes from 1 on. `recorder` is the path of the recorder, and `words` are its further arguments."""

    def __init__(self, folder, count, recorder, words=(), debug=False):
        self.folder, self.nodes = folder, range(1, count + 1)
        self.logs = os.path.join(folder, 'logs')
        os.makedirs(self.logs)
        self.recorder = [sys.executable, '-B', recorder, '--logs', self.logs, *words]
        self.daemons, self.recorders, self.statuses = {}, {}, {node: [] for node in self.nodes}
        self.begun = time.monotonic()
        self.network = Network(count)
        for node in self.nodes:
            self._configure(node, debug)

    def _configure(self, node, debug):
        nodes = ''.join(NODE % (address(other), other, other) for other in self.nodes)
        text = CONFIGURATION % (nodes, os.path.join(self.folder, 'corosync.%d.log' % node), 'on' if debug else 'off')
        self.network.spaces[node].do("cat > /etc/corosync/corosync.conf <<'END'\n%sEND" % text)

    def note(self, text):
        """Writes down what happens, with its time."""
        with open(os.path.join(self.folder, 'events'), 'a', encoding='utf-8') as it:
            now = datetime.now(timezone.utc).strftime('%Y-%m-%dT%H:%M:%S.%fZ')
            it.write('%s %7.2f %s\n' % (now, time.monotonic() - self.begun, text))

    def _start(self, node, what, words):
        with open(os.path.join(self.folder, '%s.%d.out' % (what, node)), 'ab') as output:
            process = children.start(self.network.spaces[node].inside(*words), output)
        self.note('%s %d starts, process %d' % (what, node, process.pid))
        return process

    def start_daemons(self, *nodes):
        """Starts daemons."""
        for node in nodes:
            self.daemons[node] = self._start(node, 'daemon', ['corosync', '-f'])

    def await_daemons(self, *nodes):
        """Waits until these daemons form one ring, with no other node."""
        wanted = ['%d' % node for node in sorted(nodes)]

        def are_together():
            for node in nodes:
                _, told = children.ask(self.network.spaces[node].inside('corosync-quorumtool', '-l', '-i'))
                if sorted(line.split()[0] for line in told.splitlines() if line.split()[:1] and line.split()[0].isdigit()) != wanted:
                    return False
            return True

        watching.await_that(are_together, SECONDS, 'the daemons of %s form no ring' % ' '.join(wanted))

    def start_recorders(self, *nodes, before=(), words=()):
        """Starts recorders; with words before theirs, which start them in another way, and with further arguments."""
        for node in nodes:
            self.recorders[node] = self._start(node, 'recorder', [*before, *self.recorder, *words])

    def inside(self, node, *words):
        """Runs a program beside a daemon, which has to succeed: its output."""
        self.note('%s at %d' % (' '.join(words), node))
        return children.do(self.network.spaces[node].inside(*words))

    def let_all_write(self):
        """Lets all users write logs."""
        os.chmod(self.folder, 0o755)
        os.chmod(self.logs, 0o777)

    def words_of(self, node):
        """What the recorders of a node said."""
        with open(os.path.join(self.folder, 'recorder.%d.out' % node), encoding='utf-8', errors='replace') as it:
            return it.read()

    def await_words(self, node, words):
        """Waits until a recorder says something."""
        watching.await_that(lambda: words in self.words_of(node), SECONDS, 'the recorder of %d does not say %r' % (node, words))

    def start(self):
        """Starts all, and waits until all recorders are in one view and hear of each other."""
        self.start_daemons(*self.nodes)
        self.await_daemons(*self.nodes)
        self.start_recorders(*self.nodes)
        self.await_views(self.nodes)
        self.await_deliveries(5, *self.nodes)

    def _view(self, node):
        """Whom the newest log of a node has in its last view."""
        log = watching.newest(self.logs).get(node)
        return log.nodes if log and log.ending == 'open' else set()

    def await_views(self, *groups, seconds=SECONDS):
        """Waits until the recorders of each group are in a view of just that group."""
        watching.await_that(lambda: all(self._view(node) == set(group) for group in groups for node in group), seconds,
                            'the recorders are not in the views %s' % ' | '.join(' '.join(map(str, group)) for group in groups))
        self.note('views %s' % ' | '.join(' '.join(map(str, group)) for group in groups))

    def await_lives(self, node, count):
        """Waits until a node has so many logs, one for each life of its recorder."""
        watching.await_that(lambda: len([log for log in watching.logs_in(self.logs) if log.node == node]) >= count, SECONDS,
                            'the recorder of %d has not begun its life %d' % (node, count))

    def await_deliveries(self, count, *nodes, seconds=SECONDS):
        """Waits until these nodes have delivered so many messages more."""
        def delivered():
            logs = watching.newest(self.logs)
            return {node: len(logs[node].of_kind('dlv')) if node in logs else 0 for node in nodes}

        before = delivered()
        watching.await_that(lambda: all(number >= before[node] + count for node, number in delivered().items()), seconds,
                            'the recorders of %s delivered fewer than %d messages' % (' '.join(map(str, nodes)), count))

    def signal_daemon(self, node, number):
        """Sends a signal to a daemon; if it ends by that, waits for its end."""
        self._signal(node, 'daemon', [self.daemons[node].pid], number)
        if number == signal.SIGKILL:
            self.daemons[node].wait()

    def signal_recorder(self, node, number):
        """Sends a signal to a recorder. One that is stopped or goes on does so with its children."""
        process = self.recorders[node]
        is_for_all = number in (signal.SIGSTOP, signal.SIGCONT)
        self._signal(node, 'recorder', children.family(process.pid) if is_for_all else [process.pid], number)
        if number == signal.SIGKILL:
            self.await_recorder(node)

    def _signal(self, node, what, pids, number):
        self.note('%s for %s %d' % (signal.Signals(number).name, what, node))
        for pid in pids:
            os.kill(pid, number)

    def await_recorder(self, node, seconds=ENDING):
        """Waits for the end of a recorder, and takes its status."""
        process = self.recorders[node]
        watching.await_that(lambda: process.poll() is not None, seconds, 'the recorder of %d has not ended' % node)
        del self.recorders[node]
        self.statuses[node].append(process.returncode)
        self.note('recorder %d ended with status %d' % (node, process.returncode))
        return process.returncode

    def pause(self, node):
        """Stops all of a node."""
        self.signal_daemon(node, signal.SIGSTOP)
        self.signal_recorder(node, signal.SIGSTOP)

    def resume(self, node):
        """Lets all of a node go on."""
        self.signal_daemon(node, signal.SIGCONT)
        self.signal_recorder(node, signal.SIGCONT)

    def kill(self, node):
        """Kills all of a node, as a failure of power would, though what was written stays."""
        self.signal_daemon(node, signal.SIGKILL)
        self.signal_recorder(node, signal.SIGKILL)

    def part(self, *groups):
        """Lets nodes hear only those of their group."""
        self.note('part %s' % ' | '.join(' '.join(map(str, group)) for group in groups))
        self.network.part(groups)

    def lose(self, share):
        """Lets all nodes lose a share of what comes to them."""
        self.note('lose %.2f' % share)
        self.network.lose(share, self.nodes)

    def heal(self):
        """Lets all nodes hear each other."""
        self.note('heal')
        self.network.heal()

    def set_cable(self, node, is_plugged):
        """Plugs a cable in, or pulls it."""
        self.note('cable %d %s' % (node, 'in' if is_plugged else 'out'))
        self.network.set_cable(node, is_plugged)

    def stop(self, seconds=ENDING):
        """Ends the recording of all nodes at one place, as an interrupt of one recorder asks for."""
        first = min(self.recorders)
        self.signal_recorder(first, signal.SIGINT)
        for node in sorted(self.recorders):
            self.await_recorder(node, seconds)

    def end_at_once(self):
        """Ends recorders that did not end, each by itself: a second interrupt leaves the log open."""
        for _ in range(2):
            running = {node: process for node, process in self.recorders.items() if process.poll() is None}
            for node in running:
                self.signal_recorder(node, signal.SIGINT)
            limit = time.monotonic() + ENDING_ALONE
            while any(process.poll() is None for process in running.values()) and time.monotonic() < limit:
                time.sleep(watching.PERIOD)

    def end(self):
        """Ends all that runs."""
        for process in [*self.recorders.values(), *self.daemons.values()]:
            children.end(process)
        self.network.end()

    def __enter__(self):
        return self

    def __exit__(self, *_):
        self.end()
