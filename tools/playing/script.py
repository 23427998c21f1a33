"""Scripts as lists of commands (docs/PROTOCOL.md, "Scripts"). A command is a tuple of its keyword and its numbers: ('run', 7),
('submit', 1, 's', 'x'), ('cut', (1, 2), (3,)), ('ring', 4, 1, 1, 2, 3)."""
from playing.scene import Scene

# The limits of a script's text.
MOST_BYTES = 65536


def read(text):
    """The version and the commands of a script that the program follows, without the last line."""
    lines = text.decode('ascii').splitlines()
    return int(lines[0].split(' ')[1]), [read_line(line.split(' ')) for line in lines[1:-1]]


def read_line(words):
    """The command of a line, given by its words."""
    word, numbers = words[0], words[1:]
    if word == 'submit':
        return word, int(numbers[0]), numbers[1], numbers[2]
    if word == 'cut':
        groups = ' '.join(numbers).split(' / ')
        return (word, *(tuple(map(int, group.split(' '))) for group in groups))
    if word == 'ring':
        return (word, *map(int, numbers[0].split('.')), *map(int, numbers[1:]))
    return (word, *map(int, numbers))


def line_of(command):
    """The line of a command."""
    word, numbers = command[0], command[1:]
    if word == 'cut':
        return 'cut ' + ' / '.join(' '.join(map(str, group)) for group in numbers)
    if word == 'ring':
        return 'ring %d.%d %s' % (*numbers[:2], ' '.join(map(str, numbers[2:])))
    return ' '.join(map(str, command))


def version_of(commands):
    """The least version that has these commands."""
    return 2 if any(command[0] == 'return' for command in commands) else 1


def write(commands, version=None):
    """The text of a script, of the least version that has its commands if none is given."""
    lines = ['totem-script %d' % (version or version_of(commands)), *map(line_of, commands), 'end', '']
    return '\n'.join(lines).encode()


_DOES = {
    'ring': Scene.make_ring, 'run': Scene.run, 'drop': Scene.drop, 'repeat': Scene.repeat, 'cut': Scene.part, 'join': Scene.join,
    'timer': Scene.timer, 'crash': Scene.crash, 'return': Scene.bring_back,
    'submit': lambda scene, process, service, word: scene.submit(process, service == 's'),
}


def do(scene, command):
    """Does what a command says."""
    _DOES[command[0]](scene, *command[1:])


def play(commands, scene=None):
    """Does one command after the other. Returns the scene after the last one."""
    scene = scene or Scene()
    for command in commands:
        do(scene, command)
    return scene
