"""Random folders joined by `tools/logs join`, and judged: whether the tool says all that it changes, and what the changes did to the verdict."""
import io
import os
import random
import re
import signal
import sys
import tempfile
import traceback
from contextlib import redirect_stderr, redirect_stdout
from typing import NamedTuple

from harness import process, recorded, told
from harness.applied import Applied, Unfit, read_file
from harness.folders import Recording
from harness.lines import entries_of
from harness.own_sends import OwnSends
from harness.recordings import broken_run, good_run, text_of

# How many folders are made of one run.
FOLDERS_OF_A_RUN = 3
# How many bytes the tool reads at once: so few that small logs have several blocks, or as many as it does by itself.
BLOCKS = (1, 30, 100, None)
# What the auditor may refuse: a log is missing, or there are too many.
MAY_BE_REFUSED = ('MissingLog', 'TooMany')


class Made(NamedTuple):
    """What the tool made: its status, the runs that it wrote, its messages and the list of changes."""

    status: object
    runs: tuple
    errors: str
    changes: str


class Tool:
    """The tool, called in this process with other standard streams."""

    def __init__(self, tools):
        sys.path.insert(0, tools)
        from joining import folder, words  # pylint: disable=import-outside-toplevel,import-error
        self.main = words.main
        self.reading, self.block = folder, folder.BLOCK

    def join(self, folder):
        """Joins a folder."""
        self.reading.BLOCK = folder.block or self.block
        with tempfile.TemporaryDirectory() as place:
            logs, parts, changes = (os.path.join(place, name) for name in ('logs', 'parts', 'changes'))
            os.mkdir(logs)
            for name, text in folder.files.items():
                with open(os.path.join(logs, name), 'w', encoding='ascii', newline='') as it:
                    it.write(text)
            words = [word.replace('FOLDER', logs).replace('PARTS', parts) for word in folder.words]
            status, output, errors = self._call(['join', *words, '--changes', changes, logs])
            runs = (output,) if output else ()
            if os.path.isdir(parts):
                paths = [os.path.join(parts, 'part-%d.run' % number) for number in range(1, len(os.listdir(parts)) + 1)]
                runs += tuple(map(_read, paths))
            said = _read(changes).decode('ascii') if os.path.exists(changes) else ''
            return Made(status, runs, errors.replace(place, ''), said)

    def _call(self, words):
        handlers = {number: signal.getsignal(number) for number in (signal.SIGTERM, signal.SIGHUP)}
        output, errors = (io.TextIOWrapper(io.BytesIO(), encoding='utf-8', write_through=True) for _ in range(2))
        with redirect_stdout(output), redirect_stderr(errors):
            try:
                status = self.main(words)
            except SystemExit as ended:
                status = ended.code
            except BaseException:  # pylint: disable=broad-exception-caught
                status = 'traceback'
                traceback.print_exc()
        for number, handler in handlers.items():
            signal.signal(number, handler)
        return status, output.buffer.getvalue(), errors.buffer.getvalue().decode()


def _read(path):
    with open(path, 'rb') as it:
        return it.read()


class Auditor:
    """The auditor: a verdict is `yes`, `no` and the specifications that are broken, or why a run is refused."""

    def __init__(self, program):
        self.program = program
        self.known = {}

    def verdict(self, text):
        """The verdict on a run."""
        if text not in self.known:
            self.known[text] = self._judge(text)
        return self.known[text]

    def _judge(self, text):
        answer, _ = process.run([self.program, 'audit'], text)
        if answer.status == 0:
            return ('yes',)
        if answer.status == 1:
            return ('no', *sorted(set(re.findall(r'(?m)^fault (\S+)', answer.output.decode()))))
        return ('refused', answer.errors.decode().strip())

    def of_parts(self, texts):
        """One verdict on several runs: that of the worst."""
        verdicts = [self.verdict(text) for text in texts]
        for word in ('refused', 'no'):
            those = [verdict for verdict in verdicts if verdict[0] == word]
            if those:
                return (word, *sorted({what for verdict in those for what in verdict[1:]}))
        return ('yes',)


class Case:
    """One folder of a run."""

    def __init__(self, seed, number):
        self.number = number
        draw = random.Random('%s run %d' % (seed, number // FOLDERS_OF_A_RUN))
        good = good_run(draw)
        self.run = broken_run(draw, good) if draw.randrange(3) else good
        draw = random.Random('%s folder %d' % (seed, number))
        self.folder = Recording(draw, self.run).folder()
        self.folder.block = draw.choice(BLOCKS)

    @property
    def words(self):
        """The arguments."""
        return self.folder.words

    def asked(self):
        """The options that the first lines ask for, or None if the logs are to be refused."""
        logs = {name: read_file(name, text) for name, text in self.folder.files.items() if name.endswith('.log')}
        return recorded.asked_by(self.folder.firsts, [name for name, log in logs.items() if entries_of(log)], self.words)

    def recorded(self, has_lives=True):
        """The run that the folder has, with nothing done to it but that its members have their lives."""
        return text_of([log for log in self.folder.logs if log.entries], has_lives)

    def judge(self, tool, auditor):
        """What came, and what is wrong."""
        auditor.known.clear()
        made = tool.join(self.folder)
        verdicts = {'the run': auditor.verdict(text_of(self.run.logs, True)), 'its folder': auditor.verdict(self.recorded())}
        verdicts['what was written'] = auditor.of_parts(made.runs) if made.status == 0 else ('not joined',)
        wrongs = [*self._of_status(made), *self._of_first_lines(made)]
        if made.status == 0 and not wrongs:
            try:
                wrongs = [*self._of_run(made, auditor), *self._of_verdict(verdicts['what was written'])]
            except Unfit as unfit:
                wrongs = ['the list of changes does not fit: %s' % unfit]
        return Judged(made, verdicts, wrongs)

    @staticmethod
    def _of_status(made):
        if made.status not in (0, 1) or 'Traceback' in made.errors:
            yield 'the status is %s' % made.status
        elif made.status == 1 and (made.runs or not made.errors.startswith('logs: ')):
            yield 'a refusal with an output, or without a message'
        elif made.status == 0 and not made.runs:
            yield 'nothing was written'

    def _of_first_lines(self, made):
        """What is wrong with what is done for first lines."""
        asked, refused = self.asked(), '--as-written ' in made.errors
        if asked is None and made.status == 0:
            yield 'the first lines are wrong or disagree, and that is not refused'
        if asked is not None and refused:
            yield 'first lines are refused that agree'
        wanted = ['logs: as the first lines of the logs say: %s' % ' '.join(asked)] if asked else []
        if made.status == 0 and [line for line in made.errors.splitlines() if 'as the first lines' in line] != wanted:
            yield 'what first lines ask for is not told'

    def _of_run(self, made, auditor):
        """What is wrong with the run, the list of changes and the messages."""
        words = [*self.words, *self.asked()]
        applied = Applied(self.folder.files, made.changes, '--lives' in words)
        whole = glue(made.runs) if '--cut' in self.words else made.runs[0]
        if whole != applied.text():
            yield 'the list of changes gives another run:\n%s' % applied.text().decode()
            return
        errors = made.errors.splitlines()
        own_sends = OwnSends(applied, words, errors)
        yield from told.not_asked_for(applied, words)
        yield from told.endings_not_asked_for(applied, words)
        yield from recorded.torn(applied, words)
        yield from told.untold(applied, errors)
        yield from own_sends.wrongs()
        if '--own-sends' in words:
            yield from own_sends.untold()
        if '--lives' in self.words:
            yield from told.Lives(applied, self.words, self.folder.files.get('times', '')).wrongs()
        if '--transitional' in words:
            yield from told.transitional(applied)
        if '--early-ends' in words:
            yield from recorded.Ended(applied).wrongs()
        if '--late-changes' in words:
            yield from recorded.late_changes(applied)
        yield from told.trims(applied)
        yield from told.names_again(applied, errors)
        if '--cut' in self.words:
            yield from told.parts_again(applied, made.runs, errors)
            yield from self._of_cut(made, auditor.verdict(whole), auditor.of_parts(made.runs))
        if '--renumber' not in self.words:
            yield from told.differences(told.logs_of(self.recorded()), told.logs_of(whole), applied.files, errors)
        if not set(words) - {'--as-written'} and whole != self.recorded(not whole.startswith(b'totem-run 1\n')):
            yield 'a plain join writes another run than the folder has'

    def _of_cut(self, made, whole, parts):
        most = int(self.words[self.words.index('--entries') + 1]) if '--entries' in self.words else None
        for run in made.runs:
            for log in run.split(b'\nlog ')[1:]:
                entries = len(re.findall(rb'(?m)^(?:conf|send|dlv|fail) ', log))
                if most and entries > most:
                    yield 'a log of a part has %d entries' % entries
        is_again = whole[0] == 'no' and parts[0] == 'yes' and any(told.names_of_two_parts(made.runs))
        if whole[0] != parts[0] and not is_again:
            yield 'the whole run is %s, its parts are %s' % (whole, parts)

    @staticmethod
    def _of_verdict(verdict):
        if verdict[0] == 'refused' and not all(any(word in why for word in MAY_BE_REFUSED) for why in verdict[1:]):
            yield 'the auditor refuses the run'


def glue(parts):
    """The run whose parts these are: each log that goes on begins, in the next part, with the change with which it ended."""
    first = parts[0].split(b'\n')[0]
    logs = {}
    for part in parts:
        head, *lines = part.split(b'\n')
        if head != first:
            raise Unfit('two parts have different versions')
        log = None
        for line in lines[:-2]:
            if line.startswith(b'log '):
                log = logs.setdefault(line, [])
                ended = log[-2:]
                del log[-1:]
            elif ended:
                if ended != [line, b'open']:
                    raise Unfit('%r ends with %r, and goes on with %r' % (log[0], ended, line))
                ended = []
            else:
                log.append(line)
    by_process = sorted(logs, key=lambda line: [int(number) for number in line[4:].split(b':')])
    return b'\n'.join([first, *(line for name in by_process for line in (name, *logs[name])), b'end', b''])


class Judged(NamedTuple):
    """What came of a case."""

    made: Made
    verdicts: dict
    wrongs: list

    def shown(self, case, seed):
        """All of it, for a person."""
        verdict = 'WRONG' if self.wrongs else 'right'
        lines = ['%s: seed %s, case %d: tools/logs join %s' % (verdict, seed, case.number, ' '.join(case.words))]
        lines += ['  (read in blocks of %d bytes)' % case.folder.block] if case.folder.block else []
        lines += ['  ' + what for what in self.wrongs]
        for name, text in sorted(case.folder.files.items()):
            lines += ['  --- %s' % name, *('  ' + line for line in text.split('\n'))]
        lines += ['  %s: %s' % (what, ' '.join(verdict)) for what, verdict in self.verdicts.items()]
        lines += ['  status %s, errors:' % self.made.status, *('    ' + line for line in self.made.errors.splitlines())]
        lines += ['  changes:', *('    ' + line for line in self.made.changes.splitlines())]
        lines += ['  run:', *('    ' + line for run in self.made.runs for line in run.decode().splitlines())]
        return '\n'.join(lines)
