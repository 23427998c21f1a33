"""Random recordings whose logs have more than entries, joined with a map: whether the lines that `tools/logs where` names have the entries of the
run, and all else that is promised holds for them too."""
# pylint: disable=protected-access
import os
import random
import re
from dataclasses import replace

from harness.applied import Applied
from harness.joins import Case, Tool
from parts.decorated import Decorated, uncounted, undecorated

FOUND = re.compile(r'(\S+): (\S+\.log), line (\d+)(?:, (\S+))?')
MADE_UP = re.compile(r'(\S+): made up by join: there is no (\S+\.log)')
ADDED = re.compile(r'(\S+): added by join (?:after the last line|before line (\d+)) of (\S+\.log)')


def places_of(run):
    """The places of a run, each with the entry there, in their order."""
    places, who, count = {}, '', 0
    for line in run.decode().splitlines()[1:-1]:
        words = line.split(' ')
        if words[0] == 'log':
            who, count = words[1], 0
        elif len(words) > 1:
            count += 1
            places['%s@%d' % (who, count)] = line
    return places


class Origins:
    """What `where` says about one run. `logs` are the logs as they were written into their files, `applied` is the folder with the list of
    changes applied to it."""

    def __init__(self, run, told, logs, applied):
        self.places = places_of(run)
        self.has_lives = not run.startswith(b'totem-run 1\n')
        self.told = told.splitlines()
        self.logs = logs
        self.applied = applied
        # The lines that were named, and by the process that of its last entry that is no send.
        self.named, self.last = set(), {}

    def wrongs(self):
        """What is wrong with it."""
        if len(self.told) != len(self.places):
            yield 'where says %d lines of %d places' % (len(self.told), len(self.places))
        for (place, entry), line in zip(self.places.items(), self.told):
            what = self._wrong(place, entry, line)
            if what:
                yield 'where says %r of %s, which is %r: %s' % (line, place, entry, what)

    def _wrong(self, place, entry, line):
        """What is wrong with the origin of a place, or None."""
        added, found, made_up = ADDED.fullmatch(line), FOUND.fullmatch(line), MADE_UP.fullmatch(line)
        if not added and not found and not made_up or (added or found or made_up)[1] != place:
            return 'no answer'
        name = added[3] if added else (found or made_up)[2]
        if name not in self.applied.files:
            return 'no such log'
        file = self.applied.files[name]
        who = self.applied._process(str(file.process)) + (':%d' % (file.life or 1) if self.has_lives else '')
        if who != place.partition('@')[0]:
            return 'another log'
        if file.is_made_up or made_up:
            return None if file.is_made_up and made_up else 'it is made up' if file.is_made_up else 'it is not made up'
        if added and added[2]:
            return self._wrong_insertion(entry, file, int(added[2]))
        if added:
            return None if entry in [self.applied._line(file, it, self.has_lives) for it in file.added] else 'nothing was added'
        return self._wrong_line(who, entry, file, int(found[3]), found[4] or '')

    def _wrong_insertion(self, entry, file, number):
        lines = self.logs[file.name].lines
        inserted = file.inserted_now.get(lines[number][0]) if number in lines else None
        return 'another entry' if not inserted or self.applied._line(file, inserted, self.has_lives) != entry else None

    def _wrong_line(self, who, entry, file, number, time):
        if number not in self.logs[file.name].lines:
            return 'no entry'
        before, own, own_time = self.logs[file.name].lines[number]
        if time != own_time:
            return 'another time'
        if (file.name, number) in self.named:
            return 'two entries have this line'
        self.named.add((file.name, number))
        # (where the line is, and what it says, before sends move: --late-changes makes that another place)
        place = next((at for at, line in enumerate(file.before_sends) if line.number == before), None)
        own = own if place is None else file.before_sends[place].text
        words, there = entry.split(' '), self.applied._line(file, own, self.has_lives).split(' ')
        if words[0] == 'send':
            # (which --own-sends moves into another configuration)
            return None if [words[0], *words[2:]] == [there[0], *there[2:]] else 'another entry'
        is_later = place is not None and place > self.last.get(who, -1)
        self.last[who] = place
        return 'another entry' if words != there else None if is_later else 'another order'


class MappingTool(Tool):
    """The tool, which also writes a map, and says where each entry of each run came from."""

    def __init__(self, tools):
        super().__init__(tools)
        self.origins = []

    def _call(self, words):
        """Calls the tool with arguments that end with `--changes FILE FOLDER`."""
        known = os.path.join(os.path.dirname(words[-1]), 'map')
        status, output, errors = super()._call([*words[:-1], '--map', known, words[-1]])
        parts = words[words.index('--cut') + 1] if '--cut' in words else None
        runs = [output]
        if parts and os.path.isdir(parts):
            runs = [self._read(os.path.join(parts, 'part-%d.run' % number)) for number in range(1, len(os.listdir(parts)) + 1)]
        self.origins = [self._where(known, run, ['--part', str(number)] if parts else []) for number, run in enumerate(runs, 1)] if status == 0 else []
        return status, output, errors

    @staticmethod
    def _read(path):
        with open(path, 'rb') as it:
            return it.read()

    def _where(self, known, run, part):
        status, output, errors = super()._call(['where', *part, known, *places_of(run)])
        return output.decode() if status == 0 else 'status %s: %s' % (status, errors)


class MappedCase(Case):
    """A folder of a run, written with times, checksums, blank lines and comments in some logs."""

    def __init__(self, seed, number):
        super().__init__(seed, number)
        draw = random.Random('%s lines %d' % (seed, number))
        self.logs = {name: Decorated(draw, name, text, self.folder.firsts[name])
                     for name, text in self.folder.files.items() if name.endswith('.log')}
        self.tool = None

    def judge(self, tool, auditor):
        """What came, and what is wrong."""
        self.tool = _Decorating(tool, self.logs)
        judged = super().judge(self.tool, auditor)
        # (what is shown is what was written)
        self.folder.files.update({name: log.text for name, log in self.logs.items()})
        return judged

    def _of_run(self, made, auditor):
        changes, listed = undecorated(self.logs, made.changes)
        errors, told = undecorated(self.logs, made.errors)
        yield from uncounted(self.logs, listed, told)
        yield from super()._of_run(made._replace(changes=changes, errors=errors), auditor)
        applied = Applied(self.folder.files, changes, '--lives' in self.words)
        for run, found in zip(made.runs, self.tool.origins):
            yield from Origins(run, found, self.logs, applied).wrongs()


class _Decorating:
    """Joins a folder whose logs are written with more than entries."""

    def __init__(self, tool, logs):
        self.tool = tool
        self.logs = logs

    @property
    def origins(self):
        """Where the entries of the runs came from."""
        return self.tool.origins

    def join(self, folder):
        """Joins a folder."""
        return self.tool.join(replace(folder, files={**folder.files, **{name: log.text for name, log in self.logs.items()}}))
