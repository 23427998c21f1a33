"""What `tools/logs join --made-up` promises, worked out by loops of its own over the logs of a folder."""
from harness.lines import changes_of, configuration_of, entries_of, message_of
from harness.recordings import is_regular


class MadeUp:
    """The logs that a call makes up. `failed` has the names of those that failed before they delivered anything, `copies` by their names what the
    others have without sends."""

    def __init__(self, applied, words):
        self.files = applied.files
        self.real = [file for file in self.files.values() if not file.is_made_up and entries_of(file)]
        self.failed, self.copies = [], {}
        for word, said in zip(words, words[1:]):
            if word == '--made-up':
                who, _, how = said.partition('=')
                name = who.replace(':', '.') + '.log'
                if how == 'failed-before':
                    self.failed.append(name)
                else:
                    self.copies[name] = self._copy(who, how.partition('-')[2])

    def _lists(self, who, line):
        """Whether a change lists this process, or this life of it, and not another life, which changes there by its log."""
        process = who.partition(':')[0]
        others = {name for file in self.real if str(file.process) == process for name in changes_of(entries_of(file))}
        return configuration_of(line) not in others and bool({who, process} & set(line.split(' ')[2:]))

    def _copy(self, who, other):
        """The changes and deliveries of another log from the first change that lists the process up to the first later one that doesn't."""
        names = {'%d' % file.process: file for file in self.real}
        names.update({'%d:%d' % (file.process, file.life or 1): file for file in self.real})
        lines, is_listed = [], False
        for line in entries_of(names[other]):
            if line.startswith('conf '):
                is_listed = self._lists(who, line)
                if lines and not is_listed:
                    break
            if is_listed and line.startswith(('conf ', 'dlv ')):
                lines.append(line)
        return lines

    def may_have_sent(self, name):
        """The messages that a copy delivers where they can have been sent, or right after it."""
        return list(dict.fromkeys(message_of(line) for at, line in enumerate(self.copies[name]) if line.startswith('dlv ') and self._place(name, at)))

    def _place(self, name, at):
        """Where the send of the message goes that is delivered in a line: the number of the line before it, and the configuration; or None."""
        lines = self.copies[name]
        changes = [place for place in range(at) if lines[place].startswith('conf ')][-2:]
        if is_regular(configuration_of(lines[changes[-1]])):
            return at, configuration_of(lines[changes[-1]])
        if len(changes) == 2 and is_regular(configuration_of(lines[changes[0]])):
            return changes[1], configuration_of(lines[changes[0]])
        return None

    def wrongs(self, sent):
        """What is wrong with what is made up. `sent` has the messages that the processes of the copies sent."""
        for file in self.files.values():
            if file.is_made_up and file.name not in [*self.failed, *self.copies]:
                yield '%s is made up, and nobody said so' % file.name
        for name in self.copies:
            if self.files[name].lines != self._with_sends(name, sent[name]):
                yield '%s is made up as %r, and should be %r' % (name, self.files[name].lines, self._with_sends(name, sent[name]))
        for name in self.failed:
            yield from self._wrongs_of_failed(name)

    def _with_sends(self, name, sent):
        lines, waiting = [], list(sent)
        sends = {}
        for at, line in enumerate(self.copies[name]):
            if line.startswith('dlv ') and message_of(line) in waiting and self._place(name, at):
                waiting.remove(message_of(line))
                place, configuration = self._place(name, at)
                sends.setdefault(place, []).append('send %s a %s' % (configuration, message_of(line)))
        for at, line in enumerate(self.copies[name]):
            lines += [*sends.get(at, []), line]
        return lines

    def _wrongs_of_failed(self, name):
        who = name[:-len('.log')].replace('.', ':')
        ways = [[line for line in entries_of(file) if line.startswith('conf r') and self._lists(who, line)] for file in self.real]
        later = {configuration_of(line) for way in ways for line in way[1:]}
        firsts = [way[0] for way in ways if way]
        may_be = [line for line in firsts if configuration_of(line) not in later] or firsts
        if self.files[name].lines not in [[line] for line in may_be]:
            yield '%s is made up as %r, and should be one of %r' % (name, self.files[name].lines, may_be)
        for file in self.real:
            changes = [line for line in entries_of(file) if line.startswith('conf ')]
            if file.was_quiet and changes and {who, who.partition(':')[0]} & set(changes[-1].split(' ')[2:]):
                yield '%s failed, %s is quiet and ends in a configuration that lists it, and that is not refused' % (name, file.name)
