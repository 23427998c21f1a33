"""Namespaces of the network, mounts, shared memory and the host name, and a network between them: nothing leaves the machine, and nothing of
the machine is changed."""
import os
import time

from parts import children

# Where a daemon keeps things: each node has its own, in memory.
FOLDERS = ('/dev/shm', '/run', '/var/lib/corosync', '/var/log/corosync', '/etc/corosync')
SUBNET = '10.78.0'
# How long the system may take to make namespaces.
SECONDS = 20


def is_hidden(path):
    """Whether nodes can't see a path of the machine."""
    return any(os.path.commonpath([folder, os.path.realpath(path)]) == folder for folder in FOLDERS)


def address(node):
    """The address of a node."""
    return '%s.%d' % (SUBNET, node)


class Space:
    """Namespaces, which a process that sleeps holds: they end with it, and with what runs in them."""

    def __init__(self):
        options = ['--net', '--mount', '--ipc', '--uts', '--propagation', 'private']
        self.holder = children.start(['unshare', *options, 'sleep', 'infinity'])
        limit = time.monotonic() + SECONDS
        while not self._is_made():
            if self.holder.poll() is not None or time.monotonic() > limit:
                raise children.Broken('the system makes no namespaces')
            time.sleep(0.02)

    def _is_made(self):
        """Whether `unshare` has made the namespaces, and has become the process that sleeps."""
        try:
            with open('/proc/%d/comm' % self.holder.pid, encoding='utf-8') as it:
                return it.read() == 'sleep\n'
        except OSError:
            return False

    def inside(self, *words):
        """The words that run a program in these namespaces."""
        return ['nsenter', '--target', str(self.holder.pid), '--net', '--mount', '--ipc', '--uts', *words]

    def do(self, *lines):
        """Runs lines of a shell in these namespaces."""
        return children.do(self.inside('sh', '-ec', '\n'.join(lines)))

    def end(self):
        """Ends the process that holds the namespaces."""
        children.end(self.holder)


class Network:
    """A switch in namespaces of its own, and for each node a cable to it."""

    def __init__(self, count):
        self.spaces = {}
        try:
            self.switch = self.spaces[0] = Space()
            self.switch.do('ip link set lo up', 'ip link add name switch type bridge', 'ip link set switch up')
            for node in range(1, count + 1):
                self._add(node)
        except BaseException:
            self.end()
            raise

    def _add(self, node):
        """Makes the namespaces of a node, and its cable."""
        space = self.spaces[node] = Space()
        self.switch.do('ip link add name cable%d type veth peer name cable netns %d' % (node, space.holder.pid),
                       'ip link set cable%d master switch up' % node)
        space.do('hostname node%d' % node, 'ip link set lo up', 'ip address add %s/24 dev cable' % address(node), 'ip link set cable up',
                 *('mount -t tmpfs tmpfs %s' % folder for folder in FOLDERS))

    def part(self, groups):
        """From now on nodes hear only those of their own group."""
        self.heal()
        for group in groups:
            others = [node for other in groups if other is not group for node in other]
            for node in group:
                self.spaces[node].do(*('iptables -w -A INPUT -s %s -j DROP' % address(other) for other in others))

    def lose(self, share, nodes):
        """From now on these nodes lose this share of what comes to them."""
        self.heal()
        for node in nodes:
            self.spaces[node].do('iptables -w -A INPUT -p udp -m statistic --mode random --probability %f -j DROP' % share)

    def heal(self):
        """From now on all nodes hear each other."""
        for node in self.spaces:
            if node:
                self.spaces[node].do('iptables -w -F INPUT')

    def set_cable(self, node, is_plugged):
        """Plugs a cable in, or pulls it."""
        self.switch.do('ip link set cable%d %s' % (node, 'up' if is_plugged else 'down'))

    def end(self):
        """Ends all namespaces."""
        for space in self.spaces.values():
            space.end()
