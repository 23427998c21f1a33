"""What `tools/logs join --own-sends` promises of the sends that it moves, leaves where they are or leaves out, tested by loops of its own."""
from collections import Counter

from harness.lines import changes_of, configuration_of, has_line, is_send, message_of, shortens
from harness.recordings import is_regular


class Places:
    """Where the sends of a log stand: how many other entries come before each."""

    def __init__(self, lines):
        self.others = [line for line in lines if not is_send(line)]
        self.sends = []
        count = 0
        for line in lines:
            if is_send(line):
                self.sends.append((message_of(line), count, line))
            else:
                count += 1

    def configuration_at(self, place):
        """The configuration of the last change before a place, or an empty name."""
        there = changes_of(self.others[:place])
        return there[-1] if there else ''

    def next_to(self, place):
        """The entry behind a place, or an empty line."""
        return self.others[place] if place < len(self.others) else ''


def texts_of(lines):
    """What lines say."""
    return [line.text for line in lines]


class OwnSends:
    """What became of the sends of all logs, from what these had before sends moved."""

    def __init__(self, applied, words, errors):
        self.applied = applied
        self.words = words
        self.errors = errors
        self.delivered, self.sent = set(), Counter()
        for file in applied.files.values():
            lines = texts_of(file.before_sends)
            self.delivered |= {message_of(line) for line in lines if line.startswith('dlv ')}
            self.sent.update(message_of(line) for line in lines if is_send(line))

    def wrongs(self):
        """What is wrong with the sends and with the order of the other entries."""
        for file in self.applied.logs():
            old, new = Places(texts_of(file.before_sends)), Places(file.kept())
            others = new.others
            is_whole = not file.is_trimmed
            if others != old.others[:len(others)] or is_whole and len(others) != len(old.others):
                yield '%s: entries other than sends are changed' % file.name
                continue
            for what in self._of_log(file, old, new):
                yield '%s: %s' % (file.name, what)

    def _of_log(self, file, old, new):
        fail = next((at for at, line in enumerate(old.others) if line.startswith('fail ')), len(old.others))
        numbers = [line.number for line in file.before_sends if is_send(line.text)]
        places = [self._place_of(file, number, place) for number, (_, place, _) in zip(numbers, old.sends)]
        for at, (message, place, line) in enumerate(old.sends):
            number, new_place = numbers[at], places[at]
            if number in file.moves:
                if new_place < place and not self._may_go_back(old, line, place, new_place):
                    yield 'a send went backwards: %s' % line
                if place <= fail < new_place:
                    yield 'a send went behind a failure: %s' % line
                later = [name for (name, _, _), other in zip(old.sends[at + 1:], places[at + 1:]) if other == new_place]
                is_kept_back = any(self._own(old, name) < 0 or self._own(old, message) < 0 for name in later)
                yield from self._there(old, message, new_place, file.moves[number][1], is_kept_back)
            elif number in file.gone:
                if message in self.delivered or self.sent[message] > 1:
                    yield 'a send is gone whose message was delivered, or sent again: %s' % line
            elif '--own-sends' in self.words and self._can_go(old, message, place, line):
                yield 'a send stays that can go to its own delivery: %s' % line
        if '--own-order-unknown' not in self.words:
            yield from self._order(file, old, new)

    @staticmethod
    def _place_of(file, number, place):
        """The place of a send after the moves; None if it is left out."""
        if number in file.moves:
            before, place = file.moves[number][0], len(file.before_sends)
            if before is not None:
                place = next(at for at, line in enumerate(file.before_sends) if line.number == before)
                while place and file.before_sends[place - 1].number is None:
                    place -= 1
            return sum(not is_send(text) for text in texts_of(file.before_sends)[:place])
        return None if number in file.gone else place

    def _order(self, file, old, new):
        """Sends keep their order. Others may pass one that has no place, and of which standard error says that it stays."""
        before = [message for message, place, line in old.sends
                  if self.sent[message] == 1 and (self._has_place(old, message, place, line) or not self._is_told_to_stay(file, message))]
        after = [message for message, _, _ in new.sends if message in before]
        kept = iter(before)
        if not all(message in kept for message in after):
            yield 'sends are in another order: %s' % ' '.join(after)

    def _is_told_to_stay(self, file, message):
        """Whether standard error says that a send stays."""
        return has_line(self.errors, file.name, 'stay', message) or shortens(self.errors, file.name, 'stay')

    @staticmethod
    def _own(old, message):
        """The place of the sender's own delivery of a message, before any failure; or -1."""
        for at, other in enumerate(old.others):
            if other.startswith('dlv ') and message_of(other) == message:
                return at
            if other.startswith('fail '):
                break
        return -1

    def _has_place(self, old, message, place, line):
        """Whether a send stands in the regular configuration that it names, before a failure, and its own delivery comes later: in a regular
        configuration, or in a transitional one that comes after a regular one which the log has not left yet."""
        there, own = old.configuration_at(place), self._own(old, message)
        if configuration_of(line) != there or not is_regular(there) or own < place or any(it.startswith('fail ') for it in old.others[:place]):
            return False
        if is_regular(old.configuration_at(own)):
            return True
        change = max(at for at in range(own) if old.others[at].startswith('conf '))
        return place <= change and is_regular(old.configuration_at(change))

    def _can_go(self, old, message, place, line):
        """Whether a send has a place elsewhere, and no later send that its sender never delivered keeps it from there."""
        own = self._own(old, message)
        fixed = any(place <= other <= own and self._own(old, name) < 0 for name, other, _ in old.sends if name != message)
        passes_failure = any(other.startswith('fail ') for other in old.others[place:own])
        return self._has_place(old, message, place, line) and not self._fits(old, message, place, line) and not fixed and not passes_failure

    def _may_go_back(self, old, line, place, new_place):
        """Whether a send stood in a transitional configuration, named the regular one before it, and goes back to the end of that one."""
        there = changes_of(old.others[:place])
        if '--late-sends' not in self.words or len(there) < 2:
            return False
        change = max(at for at in range(place) if old.others[at].startswith('conf '))
        end = next((at for at in range(place, len(old.others)) if old.others[at].startswith('conf ')), len(old.others))
        is_own = any(other.startswith('dlv ') and message_of(other) == message_of(line) for other in old.others[place:end])
        return not is_regular(there[-1]) and is_regular(there[-2]) and configuration_of(line) == there[-2] and new_place == change \
            and is_own

    @staticmethod
    def _there(old, message, place, line, is_kept_back):
        """A send that moved names the regular configuration in which it now is. It stands just before its own delivery, at the end of the
        configuration, or before a later send that keeps it back: where the own delivery of one of them never comes."""
        there = old.configuration_at(place)
        if configuration_of(line) != there or not is_regular(there):
            yield 'a send that moved to %s is now %s' % (there or 'no configuration', line)
        behind = old.next_to(place)
        is_own = behind.startswith('dlv ') and message_of(behind) == message
        if behind and not is_own and not is_kept_back and not behind.startswith(('conf ', 'fail ')):
            yield 'a send that moved stands before %s: %s' % (behind, line)

    def untold(self):
        """Sends that stay, elsewhere than just before their own delivery, of which standard error says nothing."""
        moved = {(found[1], int(found[2])) for kind, found in self.applied.changes if kind.startswith('moved') or kind == 'line'}
        for file in self.applied.logs():
            lines = texts_of(file.before_sends)
            places = iter(Places(lines).sends)
            for number, line in file.before_sends:
                if not is_send(line):
                    continue
                message, place, _ = next(places)
                if (file.name, number) not in moved and file.is_kept(number) and not self._fits(Places(lines), message, place, line):
                    if not self._has_place(Places(lines), message, place, line) and not self._is_told_to_stay(file, message):
                        yield '%s, line %d stays, and that is not told: %s' % (file.name, number, line)

    @staticmethod
    def _fits(old, message, place, line):
        """Whether a send stands where it belongs, or stays since its sender never delivered the message and was in its configuration."""
        there = old.configuration_at(place)
        own = OwnSends._own(old, message)
        if configuration_of(line) != there or not is_regular(there):
            return False
        if own in (-1, place):
            return True
        return old.next_to(place).startswith('conf t') and own > place and len(changes_of(old.others[place:own])) == 1
