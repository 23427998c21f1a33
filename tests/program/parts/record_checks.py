"""What is asked of each answer of `tools/record`, and of the logs that it leaves."""
import re

from harness import process
from parts.joined import join


def boot():
    """What the system says of its last start."""
    with open('/proc/sys/kernel/random/boot_id', encoding='ascii') as it:
        return it.read().strip()


def text_of(it):
    """The text of the only log, if there is one."""
    names = it.names()
    return it.text(names[0]) if names else ''


def differs(it, came, status, *told):
    """How an answer differs from this status, and these lines on standard error, in this order, perhaps with others between. LOGS and GROUP
    stand for the folder and the group."""
    lines = came.errors.decode().replace(it.path, 'LOGS').replace(it.group, 'GROUP').split('\n')
    strange = [line for line in lines[:-1] if not line.startswith('record: ')]
    if came.status != status or came.output or lines[-1] or strange:
        return 'wanted the status %s, came: status %s, output %r, errors %r' % (status, came.status, came.output, came.errors)
    left = iter(lines)
    missing = [text for text in told if not any(text in line for line in left)]
    return 'it did not say %r: %r' % (missing[0], lines) if missing else None


def checked(it, came, status, *told):
    """The same, and what is wrong with the logs: each has the form of a recorder's, and they are joined without an option."""
    wrong = differs(it, came, status, *told)
    for name in it.names():
        wrong = wrong or it.wrong_log(name)
    if wrong or not any(it.entries(name) for name in it.names()):
        return wrong
    joined = join([], it.path)
    is_right = not joined.status and b'logs: as the first lines of the logs say: --own-sends ' in joined.errors
    return None if is_right else 'the logs are not joined as their first lines say: %s' % joined


def judged(it, program):
    """What is wrong with the verdict on the logs, which all were recorded to their ends: yes, and nothing is pending or waiting."""
    came, _ = process.run([program, 'audit'], join([], it.path).output)
    is_right = came.status == 0 and came.output.startswith(b'verdict yes\n') and not re.search(rb'^(pending|waiting) ', came.output, re.MULTILINE)
    return None if is_right else 'the verdict: %s' % came
