"""Scripts near given ones: each is one of these with a few random changes."""
from hunting.block import BLOCK
from hunting.chance import Chance
from hunting.judge import commands_of
from playing import script
from playing.commented import Wrong
from playing.scene import Broken, Scene
from shrinking.program import Refused

# How many packets a line of a script lets come at most.
MOST_TIMES = 100000


def read_script(path):
    """The commands of the script in a file."""
    with open(path, 'rb') as it:
        content = it.read()
    try:
        commands = commands_of(content)
    except Wrong as wrong:
        raise Refused('%s, %s' % (path, wrong)) from wrong
    if commands[-1][0] == 'ring':
        raise Refused('%s, there is nothing after the rings that could be changed' % path)
    return commands


def _with_other_number(command, chance):
    """A command whose number is another one: of packets, of a place or of a process."""
    word, number, *rest = command
    others = [other for other in range(number - 2, number + 3) if 1 <= other <= MOST_TIMES and other != number]
    return (word, chance.of(others), *rest)


def _changed(commands, chance):
    """Commands with one change: a line after the rings is left out, doubled or moved, or has another number."""
    first = sum(command[0] == 'ring' for command in commands)
    if first == len(commands):
        return commands
    at = first + chance.below(len(commands) - first)
    before, line, behind = commands[:at], commands[at], commands[at + 1:]
    kind = chance.of(('left out', 'doubled', 'moved', 'number'))
    if kind == 'left out':
        return before + behind
    if kind == 'moved':
        others, to = before + behind, first + chance.below(len(commands) - first)
        return others[:to] + [line] + others[to:]
    if kind == 'number' and line[0] not in ('cut', 'join'):
        return before + [_with_other_number(line, chance)] + behind
    return before + [line, line] + behind


def _played(commands):
    """The commands without those that break a rule, and the scene after them."""
    done, scene = [], Scene()
    for command in commands:
        try:
            script.do(scene, command)
        except Broken:
            continue
        done.append(command)
    return done, scene


class Near:
    """The scripts of a block of seeds, one after the other; no seed builds on another one."""

    def __init__(self, scripts, number):
        # (in an order of their own, whatever the order of the files)
        self.scripts = sorted(scripts, key=script.write)
        self.next = number * BLOCK

    def script(self):
        """The commands of the next seed's script, which is none of the given ones, and the scene after them."""
        chance = Chance(self.next)
        self.next += 1
        while True:
            commands = chance.of(self.scripts)
            for _ in range(1 + chance.below(3)):
                commands = _changed(commands, chance)
            commands, scene = _played(commands)
            if commands not in self.scripts:
                return commands, scene
