"""Scripts of broken runs made short."""
import hashlib

from playing import script
from playing.scene import Broken
from playing.schedule import Event, schedule_of, script_of
from shrinking.program import Refused
from shrinking.reducing import Trials, fewest
from shrinking.run_text import read as read_run
from shrinking.runs import Aim

# How far a step is moved; and up to how many steps every pair of them is left out.
FARTHEST = 6
MOST_IN_PAIRS = 50


def joined(commands):
    """The same commands, with each `run` after a `run` joined to it."""
    made = []
    for command in commands:
        if command[0] == 'run' and made and made[-1][0] == 'run':
            command = 'run', made.pop()[1] + command[1]
        made.append(command)
    return made


def _with_names(commands, processes):
    """The commands with other names for the processes; those without one are left out of rings and groups."""
    made = []
    for command in commands:
        word, numbers = command[0], command[1:]
        if word == 'ring':
            members = [processes[member] for member in numbers[2:] if member in processes]
            made += [(word, numbers[0], members[0], *members)] if members else []
        elif word == 'cut':
            groups = (tuple(processes[member] for member in group if member in processes) for group in numbers)
            made.append((word, *(group for group in groups if group)))
        elif word in ('run', 'drop', 'repeat', 'join'):
            made.append(command)
        elif numbers[0] in processes:
            made.append((word, processes[numbers[0]], *numbers[1:]))
    return made


def _processes(commands):
    return sorted(member for command in commands if command[0] == 'ring' for member in command[3:])


def cost(commands):
    """What is to be small: lines first, then packets that come, then places."""
    return len(commands), sum(sum(command[1:2]) for command in commands if command[0] in ('run', 'drop', 'repeat'))


class ScriptShrinker:
    """Makes the script of a broken run short. `tell` is called with the progress."""

    def __init__(self, program, text, jobs=1, tell=None, keep_names=False, **asked):
        run = program.play(text)
        if run is None:
            raise Refused(program.flaw(text, is_script=True))
        verdict = program.audit(run)
        if not verdict.is_no:
            raise Refused('the verdict on the run of this script is yes: nothing is broken that could be made small')
        if asked.get('specification') not in (None, *verdict.broken):
            raise Refused('the run of this script does not break %s, but %s' % (asked['specification'], ', '.join(verdict.broken)))
        self.program = program
        self.version, self.commands = script.read(text)
        self.aim = Aim(read_run(run), verdict, program.explain, **asked)
        self.trials = Trials(self._holds, self._digest, jobs, self._take)
        self.tell = tell or (lambda lines, tried: None)
        self.keep_names = keep_names
        # The names of the processes that have new ones.
        self.processes = {}

    @property
    def text(self):
        """The text of the shortest script that was found so far."""
        return script.write(self.commands)

    @staticmethod
    def _digest(commands):
        return hashlib.blake2b(script.write(commands), digest_size=16).digest()

    def _holds(self, commands):
        """Whether a script is acceptable. tools/playing makes its run; the program makes it too, but only if its verdict is acceptable."""
        try:
            run = script.play(commands).text(script.version_of(commands))
        except Broken:
            return False
        verdict = self.program.audit(run)
        return verdict.is_no and self.aim.is_met_by(read_run(run), verdict) and self.program.play(script.write(commands)) == run

    def _take(self, commands):
        self.commands = commands
        self.tell(len(commands) + 2, len(self.trials.known))

    def _if_cheaper(self, commands):
        """These commands, joined, if they cost less than those that were taken last."""
        made = joined(commands)
        return made if cost(made) < cost(self.commands) else None

    def _written(self, rings, events):
        """The script of these events, if it is cheaper."""
        try:
            return self._if_cheaper(script_of(rings, events))
        except Broken:
            return None

    def shrink(self):
        """Looks for the shortest script."""
        before = None
        while before != cost(self.commands):
            before = cost(self.commands)
            self._leave_out_events()
            self._leave_out_processes()
            self._leave_out_lines()
            self._change_lines()
            self._move_events()
        self._leave_out_pairs()
        small = {process: index for index, process in enumerate(_processes(self.commands), 1)}
        if not self.keep_names and self.trials.first([lambda: _with_names(self.commands, small)]) is not None:
            self.processes = small

    def names(self):
        """The names that the script has now, each with the one that it had before, if they differ."""
        return [('process %d' % new, 'process %d' % old) for old, new in self.processes.items() if new != old]

    def _leave_out_processes(self):
        """Tries to leave out each process, or to let it crash, without all that would have come to it after that."""
        for process in _processes(self.commands)[::-1]:
            rings, events = schedule_of(self.commands)
            there = {other: other for other in _processes(self.commands) if other != process}
            others = [event for event in events if event.process != process]
            if there:
                self.trials.first([lambda: self._written(_with_names(rings, there), others)])
            own = [event for event in events if event.process == process]
            crash = Event(1 + max((event.name for event in events), default=0), process, ('crash', process))
            self.trials.first([lambda at=at: self._written(rings, others + own[:at] + [crash]) for at in range(len(own))])

    def _leave_out_events(self):
        rings, events = schedule_of(self.commands)
        self.trials.first([lambda: self._written(rings, events)])
        fewest(events, lambda kept: self._written(rings, kept), self.trials)

    def _leave_out_lines(self):
        fewest(self.commands, self._if_cheaper, self.trials)

    def _change_lines(self):
        """Changes each line that drops, copies or delivers packets in the ways that cost less."""
        index = 0
        while index < len(self.commands):
            taken = self.trials.first([lambda other=other: self._if_cheaper(other) for other in _changes(self.commands, index)])
            index += taken is None

    def _move_events(self):
        """Tries other orders for what comes to a process: each event at other places near its own."""
        for process in _processes(self.commands):
            at = 0
            while True:
                rings, events = schedule_of(self.commands)
                own = [event for event in events if event.process == process]
                others = [event for event in events if event.process != process]
                if at >= len(own):
                    break
                left = own[:at] + own[at + 1:]
                self.trials.first([lambda to=to: self._written(rings, others + left[:to] + [own[at]] + left[to:])
                                   for to in range(max(0, at - FARTHEST), min(len(own), at + FARTHEST + 1))])
                at += 1

    def _leave_out_pairs(self):
        """Tries to leave out every pair of events."""
        rings, events = schedule_of(self.commands)
        if len(events) <= MOST_IN_PAIRS:
            pairs = [(one, other) for other in range(len(events)) for one in range(other)]
            self.trials.first([lambda one=one, other=other: self._written(
                rings, events[:one] + events[one + 1:other] + events[other + 1:]) for one, other in pairs])


def _changes(commands, index):
    """What may replace a line and the one after it."""
    before, line, behind = commands[:index], commands[index], commands[index + 1:]
    if line[0] == 'drop':
        yield before + [('run', 1)] + behind
    if line[0] in ('drop', 'repeat') and line[1] > 1:
        yield before + [(line[0], line[1] - 1)] + behind
    if line[0] == 'repeat' and behind[:1] == [('drop', 1)]:
        yield before + [('run', 1)] + behind[1:]
        yield before + [('drop', 1)] + behind[1:]
    if line[0] == 'run' and line[1] > 1:
        for less in sorted({line[1] // 2, line[1] - 1, 1}):
            yield before + [('run', less)] + behind
