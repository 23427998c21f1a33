"""What a test with real daemons needs of the machine, and how that is installed."""
import ctypes
import os
import shutil
import subprocess

# The packages, and the commands that are called of each.
COMMANDS = {
    'corosync': ('corosync', 'corosync-cmapctl', 'corosync-quorumtool'), 'iproute2': ('ip',), 'iptables': ('iptables',),
    'util-linux': ('unshare', 'nsenter', 'setpriv'),
}
# The libraries that are loaded, and the package that has each.
LIBRARIES = {'libcpg.so.4': 'libcpg4'}
# What namespaces have to allow: the same that a cluster does in them.
TRIAL = ('ip link add name trial type bridge && ip link add name left type veth peer name right && '
         'mount -t tmpfs tmpfs /run && iptables -w -A INPUT -p udp -m statistic --mode random --probability 0.5 -j DROP')
SECONDS = 20


def _is_there(library):
    try:
        ctypes.CDLL(library)
    except OSError:
        return False
    return True


def _refusal():
    """Why this system refuses namespaces, or what is done in them, in its own words; nothing if it doesn't."""
    words = ['unshare', '--net', '--mount', '--ipc', '--uts', '--propagation', 'private', 'sh', '-c', TRIAL]
    came = subprocess.run(words, stdin=subprocess.DEVNULL, capture_output=True, text=True, timeout=SECONDS, check=False)
    return ' '.join(came.stderr.split()) or 'status %d' % came.returncode if came.returncode else ''


def missing():
    """What is missing, a line for each: what, and how it is installed or come by."""
    absent = {package: [name for name in names if not shutil.which(name)] for package, names in COMMANDS.items()}
    absent.update((package, [library]) for library, package in LIBRARIES.items() if not _is_there(library))
    lines = ['not there: %s: apt install %s' % (', '.join(names), package) for package, names in absent.items() if names]
    if os.geteuid():
        lines.append('only root may make the namespaces for a test with real daemons: run it as root')
    if not lines:
        refusal = _refusal()
        lines += ['this system refuses namespaces, or a bridge and iptables in them: %s' % refusal] if refusal else []
    return lines
