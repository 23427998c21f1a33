"""What is done to a cluster, and how its recording has to come out."""
import signal
import time
from typing import Callable, NamedTuple

from parts import checks

# How many messages each node delivers between two disturbances.
SOME = 10
# How long a recorder is stopped while its daemon goes on.
STOPPED = 2
KILLED = -signal.SIGKILL
# A user without rights.
NOBODY = 65534
AS_NOBODY = ('setpriv', '--reuid', str(NOBODY), '--regid', str(NOBODY), '--clear-groups')
# The most bytes that the name of a group has.
LONGEST = 128
# When a recorder no longer waits for a daemon that was never there.
UNTIL_IT_GIVES_UP = 90


class Wanted:
    """What a recording has to be. Where nothing is said all logs end quiet, all recorders with status 0, and nothing parts or comes back."""

    def __init__(self, partitions=0, returned=0, logs=None, statuses=None, said=None):
        self.counts = {'partition': partitions, 'returned': returned}
        self.logs, self.statuses, self.said = logs or {}, statuses or {}, said or {}

    def wrongs(self, cluster, judged):
        """What is wrong."""
        yield from checks.verdict(judged)
        yield from checks.endings(cluster.logs, {node: self.logs.get(node, ['quiet']) for node in cluster.nodes})
        yield from checks.deliveries(cluster.logs)
        yield from checks.counts(judged, self.counts)
        yield from checks.statuses(cluster, {node: self.statuses.get(node, [0]) for node in cluster.nodes})
        for node in cluster.nodes:
            yield from checks.said(cluster, node, self.said.get(node, ()))


def quiet(cluster):
    """Nothing happens."""
    cluster.start()
    cluster.await_deliveries(10 * SOME, *cluster.nodes)
    return Wanted()


def partition(cluster):
    """Four nodes part in two halves, then one is cut off from the others; each time they find each other again."""
    cluster.start()
    for groups in (([1, 2], [3, 4]), ([1], [2, 3, 4])):
        cluster.part(*groups)
        cluster.await_views(*groups)
        cluster.await_deliveries(SOME, *cluster.nodes)
        cluster.heal()
        cluster.await_views(cluster.nodes)
        cluster.await_deliveries(SOME, *cluster.nodes)
    return Wanted(partitions=2)


def kill(cluster):
    """A daemon and its recorder are killed, and started again when the others have noticed; then those of another node, and started again
    at once."""
    cluster.start()
    cluster.kill(2)
    cluster.await_views([1, 3])
    cluster.await_deliveries(SOME, 1, 3)
    cluster.start_daemons(2)
    cluster.await_daemons(1, 2, 3)
    cluster.start_recorders(2)
    cluster.await_views([1, 2, 3])
    cluster.await_deliveries(SOME, 1, 2, 3)
    cluster.kill(3)
    cluster.start_daemons(3)
    cluster.start_recorders(3)
    cluster.await_lives(3, 2)
    cluster.await_views([1, 2, 3])
    cluster.await_deliveries(SOME, 1, 2, 3)
    return Wanted(returned=2, logs={2: ['fail', 'quiet'], 3: ['fail', 'quiet']}, statuses={2: [KILLED, 0], 3: [KILLED, 0]})


def kill_daemon(cluster):
    """A daemon is killed, and started again later: its recorder stays, and begins a new life by itself."""
    cluster.start()
    cluster.signal_daemon(2, signal.SIGKILL)
    cluster.await_views([1, 3])
    cluster.await_deliveries(SOME, 1, 3)
    cluster.start_daemons(2)
    cluster.await_lives(2, 2)
    cluster.await_views([1, 2, 3])
    cluster.await_deliveries(SOME, 1, 2, 3)
    return Wanted(returned=1, logs={2: ['fail', 'quiet']})


def kill_recorder(cluster):
    """A recorder is killed, and started again when the others have noticed; then another one, and started again at once."""
    cluster.start()
    cluster.signal_recorder(2, signal.SIGKILL)
    cluster.await_views([1, 3])
    cluster.await_deliveries(SOME, 1, 3)
    cluster.start_recorders(2)
    cluster.await_views([1, 2, 3])
    cluster.await_deliveries(SOME, 1, 2, 3)
    cluster.signal_recorder(1, signal.SIGKILL)
    cluster.start_recorders(1)
    cluster.await_lives(1, 2)
    cluster.await_views([1, 2, 3])
    cluster.await_deliveries(SOME, 1, 2, 3)
    return Wanted(returned=2, logs={1: ['fail', 'quiet'], 2: ['fail', 'quiet']}, statuses={1: [KILLED, 0], 2: [KILLED, 0]})


def pause(cluster):
    """All of a node is stopped until the others go on without it; then it goes on, and finds them again."""
    cluster.start()
    cluster.pause(3)
    cluster.await_views([1, 2])
    cluster.await_deliveries(SOME, 1, 2)
    cluster.resume(3)
    cluster.await_views([1, 2, 3])
    cluster.await_deliveries(SOME, 1, 2, 3)
    return Wanted(partitions=1)


def leave(cluster):
    """A recorder leaves as it is asked to, and is started again; another one is stopped for a while."""
    cluster.start()
    cluster.signal_recorder(2, signal.SIGTERM)
    cluster.await_recorder(2)
    cluster.await_views([1, 3])
    cluster.await_deliveries(SOME, 1, 3)
    cluster.start_recorders(2)
    cluster.await_views([1, 2, 3])
    cluster.await_deliveries(SOME, 1, 2, 3)
    cluster.signal_recorder(1, signal.SIGSTOP)
    time.sleep(STOPPED)
    cluster.signal_recorder(1, signal.SIGCONT)
    cluster.await_deliveries(2 * SOME, 1, 2, 3)
    return Wanted(returned=1, logs={2: ['fail', 'quiet']}, statuses={2: [0, 0]})


def hang(cluster):
    """A daemon is stopped, so that its recorder waits: it has to say so, and that messages are delivered again."""
    cluster.start()
    cluster.signal_daemon(2, signal.SIGSTOP)
    cluster.await_words(2, 'does the ring hang?')
    cluster.signal_daemon(2, signal.SIGCONT)
    cluster.await_words(2, 'messages are delivered again')
    cluster.await_views([1, 2, 3])
    cluster.await_deliveries(SOME, 1, 2, 3)
    return Wanted(partitions=1)


def large(cluster):
    """Messages of half a megabyte, in many packets each, while two nodes part and find each other."""
    cluster.start()
    cluster.part([1], [2])
    cluster.await_views([1], [2])
    cluster.await_deliveries(2, 1, 2)
    cluster.heal()
    cluster.await_views([1, 2])
    cluster.await_deliveries(SOME, 1, 2)
    return Wanted(partitions=1)


def rights(cluster):
    """The recorder of node 1 runs as a user whom the daemon refuses at first, then in a group with the longest name. Node 2 has no daemon."""
    cluster.let_all_write()
    cluster.start_daemons(1)
    cluster.await_daemons(1)
    cluster.start_recorders(2)
    cluster.start_recorders(1, before=AS_NOBODY)
    cluster.await_recorder(1)
    cluster.inside(1, 'corosync-cmapctl', '-s', 'uidgid.uid.%d' % NOBODY, 'u8', '1')
    for length in (LONGEST + 1, LONGEST):
        cluster.start_recorders(1, before=AS_NOBODY, words=('--group', 'g' * length))
        if length > LONGEST:
            cluster.await_recorder(1)
    cluster.await_views([1])
    cluster.await_deliveries(SOME, 1)
    cluster.await_recorder(2, seconds=UNTIL_IT_GIVES_UP)
    return Wanted(logs={2: []}, statuses={1: [1, 64, 0], 2: [1]}, said={
        1: ('no right to use corosync: ', 'uidgid { uid: %d }' % NOBODY, 'the name of a group has 1 to %d ' % LONGEST),
        2: ('corosync does not answer', 'systemctl start corosync')})


class Scenario(NamedTuple):
    """What is done, with how many nodes, and with which further arguments of the recorders."""

    play: Callable
    nodes: int = 3
    words: tuple = ()


# Those that take long come first.
SCENARIOS = {
    'hang': Scenario(hang), 'partition': Scenario(partition, 4), 'rights': Scenario(rights, 2),
    'large': Scenario(large, 2, ('--size', '500000', '--rate', '2')), 'kill': Scenario(kill), 'kill-daemon': Scenario(kill_daemon),
    'pause': Scenario(pause), 'kill-recorder': Scenario(kill_recorder), 'leave': Scenario(leave), 'quiet': Scenario(quiet),
}
# In this one's recording a delivery is then left out.
LEFT_OUT_IN = 'quiet'
