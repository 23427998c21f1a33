"""What `tools/logs join` promises of first lines, of changes that are told late, of logs that end early and of torn ends, worked out by loops of its own
over the logs of a folder."""
from harness.lines import configuration_of, entries_of, is_send, message_of
from harness.made_up import MadeUp
from harness.recordings import is_regular

# The options that first lines ask for, and those that take their place.
ASKED = {'sends': {'ordered': '', 'delivered': '', 'taken': '--own-sends'},
         'ends': {'told': '', 'early': '--early-ends'},
         'transitional': {'told': '', 'late': '--late-changes', 'untold': '--transitional'}}
INSTEAD = {'sends': {'--own-sends'}, 'ends': {'--early-ends'}, 'transitional': {'--transitional', '--late-changes'}}


def asked_by(firsts, with_entries, words):
    """The options that the first lines ask for, in their order, or None if the logs are to be refused. `firsts` has the first line of each log, or
    an empty one; `with_entries` are the logs that have an entry."""
    if '--as-written' in words:
        return []
    said = {}
    for name, line in firsts.items():
        pairs = [word.split('=', 1) for word in line.split(' ')[3:]]
        known = [key for key, _ in pairs if key in ASKED]
        said[name] = dict(pairs)
        if line and (line.split(' ')[2:3] != ['1'] or any(said[name][key] not in ASKED[key] for key in known) or len(set(known)) < len(known)):
            return None
    options = []
    for key, values in ASKED.items():
        wanted = {values.get(said[name].get(key), '') for name in with_entries}
        if not INSTEAD[key] & set(words):
            if len(wanted) > 1:
                return None
            options += [option for option in wanted if option]
    return options


class Stay:
    """What a log has from one change to the next."""

    def __init__(self, file, change):
        self.file = file
        self.change = change
        self.lines = []
        self.next = None

    @property
    def name(self):
        """The configuration."""
        return configuration_of(self.change.text) if self.change else ''

    def delivered(self):
        """What it delivers in that configuration, in order."""
        return [message_of(line.text) for line in self.lines if line.text.startswith('dlv %s ' % self.name)]

    def goes_to(self):
        """The transitional configuration to which the log goes from here, or None."""
        has_failed = any(line.text.startswith('fail ') for line in self.lines)
        return self.next.name if self.next and not is_regular(self.next.name) and not has_failed else None

    def has(self):
        """What it delivers here, or in the transitional configuration right after."""
        return set(self.delivered()) | set(self.next.delivered() if self.next and not is_regular(self.next.name) else ())


def stays_of(file, lines):
    """The stays of a log, the first of which is before its first change."""
    stays = [Stay(file, None)]
    for line in lines:
        if line.text.startswith('conf '):
            stays.append(Stay(file, line))
            stays[-2].next = stays[-1]
        else:
            stays[-1].lines.append(line)
    return stays


def _is_past_a_gap(message, one, others):
    """Whether another log delivers, before this message, one that this log never delivers there."""
    for other in others:
        delivered = other.delivered()
        if message in delivered and not set(delivered[:delivered.index(message)]) <= one.has():
            return True
    return False


def late_changes(applied):
    """What is wrong with the places of transitional configurations."""
    stays = {file.name: stays_of(file, file.before_earlier) for file in applied.files.values()}
    everywhere = [stay for of_log in stays.values() for stay in of_log if is_regular(stay.name or 't')]
    late = {}
    for stay in everywhere:
        others = [other for other in everywhere if other.name == stay.name]
        if stay.goes_to():
            late.setdefault((stay.name, stay.goes_to()), set()).update(
                message for message in stay.delivered() if _is_past_a_gap(message, stay, others))
    for name, of_log in stays.items():
        wanted = []
        for before, stay in zip([None, *of_log], of_log):
            is_moved = before in everywhere and before.goes_to() and late[before.name, before.goes_to()].intersection(before.delivered())
            if stay.change and not is_moved:
                wanted.append(stay.change)
            is_late = stay in everywhere and stay.goes_to() and late[stay.name, stay.goes_to()]
            wanted += _parted(stay, is_late) if is_late else stay.lines
        if wanted != applied.files[name].before_sends:
            yield '%s: with its changes at their places it is %r, and should be %r' % (name, applied.files[name].before_sends, wanted)


def _parted(stay, late):
    """The lines of a stay, the deliveries from the first one of these on in the transitional configuration after it."""
    begin = 'dlv %s ' % stay.name
    first = next((at for at, line in enumerate(stay.lines) if line.text.startswith(begin) and message_of(line.text) in late), None)
    if first is None:
        return stay.lines
    rest = stay.lines[first:]
    moved = [line._replace(text='dlv %s %s' % (stay.goes_to(), message_of(line.text))) for line in rest if line.text.startswith(begin)]
    return [*stay.lines[:first], *(line for line in rest if not line.text.startswith(begin)), stay.next.change, *moved]


class Ended:
    """The messages that are left out since they went out after the end of their sender, and the logs that begin where others list them."""

    def __init__(self, applied):
        self.applied = applied
        # (also those that are left out later, by --trim)
        self.logs = {name: file for name, file in applied.files.items() if entries_of(file)}
        self.stays = {name: stays_of(file, file.before_ends) for name, file in self.logs.items()}

    def _lists(self, stay, file):
        """Whether the change of a stay lists the process, or the life, of a file."""
        for word in stay.change.text.split(' ')[2:]:
            process, _, life = word.partition(':')
            if int(process) == file.process:
                if not self.applied.adds_lives:
                    return (int(life) if life else None) == file.life
                own = stay.file.life if stay.file.process == file.process else self.applied.lives[stay.name, process]
                return int(own or 1) == (file.life or 1)
        return False

    def _places(self, message):
        """The stays in regular configurations from which a message is delivered; None for one that is in no such stay."""
        for of_log in self.stays.values():
            for before, stay in zip([None, *of_log], of_log):
                if any(line.text.startswith('dlv ') and message_of(line.text) == message for line in stay.lines):
                    there = stay if is_regular(stay.name or 't') else before
                    yield there if there and is_regular(there.name or 't') else None

    def _is_gone(self, message, senders):
        """Whether a message has to be left out."""
        places = list(self._places(message))
        if len(senders) != 1 or not places or None in places:
            return False
        file = self.logs[senders[0]]
        own = {stay.name for stay in self.stays[file.name]}
        return file.ending != 'quiet' and all(
            stay.file is not file and stay.name not in own and self._lists(stay, file) for stay in places)

    def wrongs(self):
        """What is wrong with the logs."""
        sends = {}
        for name, file in self.logs.items():
            for text in [*(line.text for line in file.before_ends), *file.ever_added]:
                if is_send(text):
                    sends.setdefault(message_of(text), []).append(name)
        gone = {message for message, senders in sends.items() if self._is_gone(message, senders)}
        for name, file in self.logs.items():
            wanted = [line for line in file.before_ends if not line.text.startswith(('send ', 'dlv ')) or message_of(line.text) not in gone]
            if file.before_earlier != wanted:
                yield '%s: without what went out after the end of its sender it is %r, and should be %r' % (name, file.before_earlier, wanted)
        for file in self.applied.files.values():
            yield from self._silent(file) if not entries_of(file) else ()

    def _silent(self, file):
        """What is wrong with a log without an entry."""
        ways = [[stay for stay in of_log if is_regular(stay.name or 't') and self._lists(stay, file)] for of_log in self.stays.values()]
        firsts = {way[0].name: way[0].change.text for way in ways if way}
        later = {stay.name for way in ways for stay in way[1:]}
        may_be = {name for name in firsts if name not in later} or set(firsts)
        begun = [[text, 'fail %s' % name] for name, text in firsts.items() if name in may_be]
        if not begun and not file.is_left_out or begun and file.ever_added not in begun:
            yield '%s has no entry, and gets %r, and should get one of %r' % (file.name, file.ever_added, begun)


class Torn:
    """The sends that torn logs get, and those that are made up. `names` are the files of the torn ones, and of those that failed before they
    delivered anything."""

    def __init__(self, applied, names, made_up):
        self.files = applied.files
        self.names = names
        self.made_up = made_up
        self.sends = {name: [message_of(line) for line in entries_of(file) if is_send(line)] for name, file in self.files.items()
                      if not file.is_made_up}
        self.stays = [stay for file in self.files.values() if not file.is_made_up for stay in stays_of(file, [line for line in file.first if line.text])]

    def _lost(self, name):
        """What nobody sends and some log delivers where this one ends, in the order in which it is added."""
        last = [configuration_of(line) for line in entries_of(self.files[name]) if line.startswith('conf ')][-1]
        sent = {message for messages in self.sends.values() for message in messages}
        lists = []
        for stay in self.stays if is_regular(last) else ():
            if stay.name == last:
                after = stay.next.delivered() if stay.next and not is_regular(stay.next.name) else []
                lists.append(stay.delivered() + after)
        lists.sort(key=len, reverse=True)
        return [message for message in dict.fromkeys(sum(lists, [])) if message not in sent]

    def _may_have_sent(self, name, message):
        """Whether the name of a message allows that this log sent it."""
        ring = message.partition('#')[0]
        numbers = {log: [int(other.partition('#')[2]) for other in sent if other.startswith(ring + '#')] for log, sent in self.sends.items()}
        numbers = {log: those for log, those in numbers.items() if those}
        remainders = [{number % 32 for number in those} for those in numbers.values()]
        is_telling = all(len(one) == 1 for one in remainders) and len(set().union(*remainders)) == len(remainders) \
            and any(len(those) > 1 for those in numbers.values())
        own = int(message.partition('#')[2]) % 32
        if not is_telling:
            return True
        if any(own in one for one in remainders):
            return name in numbers and numbers[name][0] % 32 == own
        return name not in numbers

    def wanted(self):
        """By file, the messages whose sends are added; None if the logs are to be refused."""
        lost = {name: self._lost(name) for name in self.names}
        sent = {message for messages in self.sends.values() for message in messages}
        lost.update({name: [message for message in self.made_up.may_have_sent(name) if message not in sent] for name in self.made_up.copies})
        can = {name: [message for message in messages if self._may_have_sent(name, message)] for name, messages in lost.items()}
        everything = sum(can.values(), [])
        return can if len(everything) == len(set(everything)) else None


def torn(applied, words):
    """What is wrong with the sends that torn logs get, and with logs that are made up."""
    named = {who for word, value in zip(words, words[1:]) if word == '--torn' for who in value.split(',')}
    files = [name for name, file in applied.files.items() if {str(file.process), '%d:%d' % (file.process, file.life or 1)} & named]
    made_up = MadeUp(applied, words)
    wanted = Torn(applied, [*files, *made_up.failed], made_up).wanted()
    if wanted is None:
        yield 'two logs may have sent a message, and that is not refused'
        return
    yield from made_up.wrongs(wanted)
    for name, file in applied.files.items():
        if name in made_up.copies:
            continue
        sends = [message_of(line) for line in file.ever_added if is_send(line)]
        if sends != wanted.get(name, []):
            yield '%s gets the sends %r, and should get %r' % (name, sends, wanted.get(name, []))
