"""The first line of a log, by which whoever recorded it says how, so that whoever joins it need not:

    # totem-log 1 sends=taken transitional=late by=record/1 node=2"""
from joining.trouble import Refused, shown, tell

HEAD = b'# totem-log'
VERSION = b'1'
# The keys that are known, and the option that each of their values asks for.
KEYS = {
    'sends': {'ordered': None, 'delivered': None, 'taken': 'own_sends'},
    'ends': {'told': None, 'early': 'early_ends'},
    'transitional': {'told': None, 'late': 'late_changes', 'untold': 'transitional'},
}
# The options that say the same for all logs: if one is given, first lines say nothing of that.
OPTIONS = {'sends': ('own_sends',), 'ends': ('early_ends',), 'transitional': ('transitional', 'late_changes')}


def _option(name):
    """An option as the caller writes it."""
    return '--' + name.replace('_', '-')


def _refuse(log, what):
    raise Refused('%s, line 1: %s (--as-written passes over first lines)' % (log.name, what))


def _read(log):
    """What the first line of a log says: the value of each known key. Nothing if the log has no such line, or only a part of one."""
    with open(log.path, 'rb') as it:
        line = it.read(len(HEAD) + 1)
        if line not in (HEAD + b' ', HEAD + b'\n'):
            return {}
        line += it.readline() if line.endswith(b' ') else b''
    if not line.endswith(b'\n'):
        return {}
    version, *words = line[len(HEAD) + 1:].removesuffix(b'\n').split(b' ')
    if version != VERSION:
        _refuse(log, 'the line is not of version 1: %s' % shown(line))
    values = {}
    for word in words:
        key, equals, value = word.decode('ascii', 'replace').partition('=')
        if not key or not equals:
            _refuse(log, 'this is not KEY=VALUE: %s' % shown(word))
        if key not in KEYS:
            continue
        if value not in KEYS[key]:
            _refuse(log, '%s is %s, not %s' % (key, ' or '.join(KEYS[key]), shown(value.encode())))
        if key in values:
            _refuse(log, '%s comes twice' % key)
        values[key] = value
    return values


class FirstLines:
    """What the first lines of the logs of a folder say."""

    def __init__(self, logs, asked):
        self.asked = asked
        self.values = {} if asked.as_written else {log.name: _read(log) for log in logs}

    def _option_of(self, log, key):
        """The option that a log asks for, or None."""
        values = self.values.get(log.name, {})
        return KEYS[key][values[key]] if key in values else None

    def ask_for_anything(self):
        """Whether any of them asks for an option."""
        return any(KEYS[key][value] for values in self.values.values() for key, value in values.items())

    def follow(self, logs):
        """Does as they say, as if the caller had given these options. Only logs that have an entry count, and they have to agree."""
        followed = []
        for key, options in OPTIONS.items():
            if any(getattr(self.asked, option) for option in options):
                continue
            first = next((log for log in logs if self._option_of(log, key)), None)
            if first:
                self._check(key, first, logs)
                followed.append(self._option_of(first, key))
        for option in followed:
            setattr(self.asked, option, True)
        if followed:
            tell('as the first lines of the logs say: %s' % ' '.join(map(_option, followed)))

    def _check(self, key, first, logs):
        """Refuses logs that do not all ask for what one of them asks for."""
        other = next((log for log in logs if self._option_of(log, key) != self._option_of(first, key)), None)
        if other:
            value = self.values[other.name].get(key)
            says = 'that of %s says %s=%s' % (other.name, key, value) if value else '%s has none that says so' % other.name
            raise Refused('the first line of %s says %s=%s, and %s: if one way holds for all logs, say %s; --as-written does nothing of what '
                          'first lines say' % (first.name, key, self.values[first.name][key], says, ' or '.join(map(_option, OPTIONS[key]))))
