"""What `tools/logs` does, and in which order it does what the arguments ask for."""
import os
import shutil
import sys
import tempfile

from joining import again, early_ends, endings, folder, made_up, mapping, texts, torn, where
from joining.arguments import read_words
from joining.cuts import Cutting, trim
from joining.entries import MOST_ENTRIES, MOST_LOGS
from joining.first_lines import FirstLines
from joining.late_changes import begin_earlier
from joining.lives import Lives, add_lives
from joining.numbers import Numbers
from joining.scan import Scan, leave_out
from joining.sends import move_sends
from joining.transitional import add_transitional
from joining.trouble import Changes, Refused, WriteFailed, tell
from joining.warnings import tell_hang
from joining.worth import tell_worth
from running import signals, streams


class Joining:
    """The logs of a folder, and what to do with them."""

    def __init__(self, asked, working):
        self.asked = asked
        self.changes = Changes(asked.changes, working)
        self.numbers = Numbers() if asked.renumber else None
        found = folder.find(asked)
        first_lines = FirstLines(found, asked)
        keeps = asked.transitional or asked.late_changes or asked.early_ends or asked.torn or asked.made_up or asked.lives or asked.own_sends or asked.renumber \
            or asked.trim or asked.cut or first_lines.ask_for_anything()
        words = {'is_numbered_anew': asked.renumber, 'adds_lives': asked.lives, 'keeps_changes': bool(keeps)}
        scan = Scan(sees=self.numbers.see if self.numbers else None, **words)
        self.logs = scan.read_all(found, working, bool(asked.map), self.changes)
        self.read = self.logs
        first_lines.follow(self.logs)
        silent = [log for log in found if not log.entries]
        if not asked.early_ends:
            leave_out(silent, self.changes)
        self.made_up = made_up.MadeUp(self.logs, found, asked.made_up, Scan(is_known=True, **words), working, self.changes) if asked.made_up else None
        self._end()
        if asked.transitional:
            self.logs = add_transitional(self.logs, working, words, self.changes)
        self.lives = Lives(self.logs, [*found, *self._made_up()], asked) if asked.lives else None
        if self.lives:
            self.lives.write(self.changes)
        listed = self.lives.listed() if self.lives else scan.listed
        if asked.early_ends:
            members = early_ends.Members(self.life_of)
            self.logs = early_ends.begin(silent, self.logs, members, self.changes)
        self._tell_missing(listed)
        if asked.early_ends:
            self.logs = early_ends.leave_out(self.logs, members, working, words, self.changes)
        if asked.late_changes:
            self.logs = begin_earlier(self.logs, working, words, self.changes)
        if asked.own_sends:
            self.logs = move_sends(self.logs, working, words, asked, self.changes)
        if self.numbers:
            self.numbers.settle(self.logs, self.changes)

    def _end(self):
        """Lets logs end as the call says, and adds those that it makes up."""
        if self.asked.torn or self.made_up:
            torn.mend([*self.logs, *(self.made_up.failed if self.made_up else ())], self.asked.torn, self.made_up, self.changes)
        self.logs = sorted([*self.logs, *self._made_up()], key=lambda log: (log.process, log.life or 1))
        if self.asked.failed:
            endings.fail(self.logs, self.asked.failed, self.changes)
        if self.asked.quiet:
            endings.be_quiet(self.logs, self.asked.quiet, self.changes)
        if self.made_up:
            self.made_up.check(self.logs)
        tell_hang([log for log in self.logs if not log.is_made_up])

    def _made_up(self):
        """The logs that are made up."""
        return self.made_up.all if self.made_up else []

    def _tell_missing(self, listed):
        """Reports all members that have no log, each with the first line that lists it."""
        have = {(log.process, log.life) for log in self.logs}
        missing = [who for who in sorted(listed, key=lambda who: (who[0], who[1] or 1)) if who not in have]
        for process, life in missing:
            log, entry, configuration = listed[process, life]
            tell('there is no log of %s, a member of %s (%s, line %d)' % (
                process if life is None else '%d:%d' % (process, life), configuration.decode(), log.name, log.line_of(entry)))
        if missing:
            who = '%d' % missing[0][0] if missing[0][1] is None else '%d:%d' % missing[0]
            tell('totem refuses a run that has members without a log (MissingLog). If you know what %s did, --made-up %s=failed-before or '
                 '--made-up %s=as-Q makes up a log (docs/OWN-LOGS.md#a-lost-log)' % (who, who, who))

    def life_of(self, log, configuration, process):
        """The life of a member that is written without one."""
        return self.lives.of(log, configuration, process) if self.lives else log.life

    def steps(self, version):
        """What to do to each block when it is written."""
        steps = []
        if self.lives:
            steps.append(lambda log, block: add_lives(block, lambda name, process: self.lives.of(log, name, process)))
        elif version == 3 and self.logs[0].life is None:
            steps.append(lambda log, block: add_lives(block, lambda name, process: 1))
        if self.numbers:
            steps.append(lambda log, block: self.numbers.renumber(block))
        return steps

    def runs(self):
        """The parts of logs of each run that is written."""
        logs, rest = trim(self.logs, self.life_of, self.changes) if self.asked.trim else (self.logs, [])
        if self.asked.cut:
            cutting = Cutting(logs, self.asked.entries or MOST_ENTRIES, self.life_of)
            chosen = cutting.parts()
            runs = [cutting.of_part(*part) for part in chosen]
            called = ['part %d' % number for number in range(1, len(runs) + 1)]
            again.tell_configurations(logs, chosen, called)
        else:
            self._check_limits(logs)
            runs, called = [[texts.whole(log) for log in logs]], ['the part that stays']
        if len(runs) > 1 or rest:
            again.tell_messages([*runs, rest], [*called, 'the part that is left out'])
        return runs

    @staticmethod
    def _check_limits(logs):
        if len(logs) > MOST_LOGS:
            raise Refused('there are %d logs, and a run has %d at most: --cut makes several runs' % (len(logs), MOST_LOGS))
        for log in logs:
            if log.entries + log.added.count(b'\n') > MOST_ENTRIES:
                raise Refused('%s has %d entries, and a run has %d of a log at most: --cut makes several runs' % (
                    log.name, log.entries + log.added.count(b'\n'), MOST_ENTRIES))

    def write(self):
        """Writes the run, or the runs. The list of changes comes first, the map last."""
        runs = self.runs()
        version = max(map(texts.version_of, runs))
        number = self.numbers.process if self.numbers else lambda process: process
        steps = self.steps(version)
        folder.tell_written(self.read)
        if self.asked.table:
            self.numbers.write_table(self.asked.table)
        if self.asked.map:
            mapping.make_room(self.asked.map)
        self.changes.put_in_place()
        named = {'part-%d.run' % part if self.asked.cut else '': parts for part, parts in enumerate(runs, 1)}
        sums = (self._write_parts if self.asked.cut else self._write_run)(
            named, lambda out, parts: texts.write(out, version, parts, steps, number))
        if self.asked.map:
            mapping.write(self.asked.map, version, named, sums, number)

    def _write_run(self, named, write):
        """Writes the run to standard output. Returns what `write` does, in a list."""
        try:
            if sys.stdout is None:
                raise OSError
            sums = [write(sys.stdout.buffer, parts) for parts in named.values()]
            sys.stdout.buffer.flush()
            folder.check_unwritten(self.read)
            return sums
        except OSError as error:
            if error.filename:
                raise
            raise WriteFailed from error

    def _write_parts(self, named, write):
        """Writes each run into a file of the new folder. The folder appears only when it has them all. Returns what `write` does, in a list."""
        made, sums = tempfile.mkdtemp(dir=os.path.dirname(os.path.abspath(self.asked.cut))), []
        try:
            for name, parts in named.items():
                with open(os.path.join(made, name), 'wb') as out:
                    sums.append(write(out, parts))
            folder.check_unwritten(self.read)
            os.chmod(made, 0o755)
            os.rename(made, self.asked.cut)
        except BaseException:
            shutil.rmtree(made)
            raise
        for name, parts in named.items():
            tell('%s: %d logs' % (os.path.join(self.asked.cut, name), len(parts)))
        return sums


def _write_failed(failed):
    """Reports that a stream failed, or the map, if it can, and returns the status. Nothing more is written. (Where the reader of the output has
    gone, that is all it wanted.)"""
    try:
        if not isinstance(failed.__cause__, BrokenPipeError):
            tell(str(failed) or 'write failed')
    except WriteFailed:
        pass
    for stream, number in ((sys.stdout, 1), (sys.stderr, 2)):
        if stream is not None:
            streams.give_up(stream, number)
    return 4


def _find(asked):
    """Prints where entries came from."""
    _write(b''.join(os.fsencode(line) + b'\n' for line in where.find(asked)))


def _name(asked):
    """Copies an explanation, with names beside the numbers of processes."""
    text = sys.stdin.buffer.read() if sys.stdin else b''
    _write(os.fsencode(asked.names.in_explanation(os.fsdecode(text))))


def _write(content):
    """Writes bytes to standard output."""
    try:
        if sys.stdout is None:
            raise OSError
        sys.stdout.buffer.write(content)
        sys.stdout.buffer.flush()
    except OSError as error:
        raise WriteFailed from error


def _do(asked):
    """Does what the arguments ask for. Returns the status."""
    try:
        if asked.command == 'where':
            _find(asked)
            return 0
        if asked.command == 'name':
            _name(asked)
            return 0
        with tempfile.TemporaryDirectory() as working:
            Joining(asked, working).write()
            tell_worth(asked)
    except Refused as refused:
        tell(str(refused))
        return 1
    except OSError as error:
        tell('%s: %s' % (error.filename or 'the input', error.strerror))
        return 1
    except KeyboardInterrupt:
        # (what is left to write might wait for a reader)
        if sys.stdout is not None:
            streams.give_up(sys.stdout, 1)
        tell('interrupted')
        return 130
    return 0


def main(words):
    """Does what the arguments ask for, and returns the status."""
    signals.on_ending(signals.interrupt)
    try:
        return _do(read_words(words))
    except WriteFailed as failed:
        return _write_failed(failed)
