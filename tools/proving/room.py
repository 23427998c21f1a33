"""What the machine must have."""
import os
import re

from proving.telling import Unmade

# Free memory and disk, in MB, without which nothing begins. The most expensive check takes 2.5 GB of memory. The copies take 3 GB of disk,
# and the kit keeps what was proved only as long as 5 GB are left.
MEMORY_MB, DISK_MB = 3000, 8000


def free_memory():
    """The free memory in MB, or None if the system does not say."""
    try:
        with open('/proc/meminfo', encoding='ascii') as it:
            return int(re.search(r'^MemAvailable:\s+(\d+)', it.read(), re.M)[1]) >> 10
    except (OSError, TypeError):
        return None


def free_disk(folder):
    """The free disk in MB at a folder."""
    found = os.statvfs(folder)
    return found.f_bavail * found.f_frsize >> 20


def wanted_mb(name, usual):
    """A number of MB from the environment, or the default."""
    word = os.environ.get(name, '')
    if word and not word.isdigit():
        raise Unmade('%s=%s is not a number of MB' % (name, word))
    return int(word) if word else usual


def check_room(folder):
    """Raises if there is too little memory, or too little disk at this folder."""
    memory, disk = wanted_mb('TOTEM_MEMORY_MB', MEMORY_MB), wanted_mb('TOTEM_DISK_MB', DISK_MB)
    has_memory, has_disk = free_memory(), free_disk(folder)
    if has_memory is not None and has_memory < memory:
        raise Unmade('too little memory: %d MB are free, but proving needs %d' % (has_memory, memory))
    if has_disk < disk:
        raise Unmade('too little disk: %d MB are free at %s, but proving needs %d' % (has_disk, folder, disk))
