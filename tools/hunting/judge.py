"""The program as a judge alone, for runs that tools/playing makes."""
from playing import script
from playing.commented import Wrong, lines
from playing.scene import Broken
from shrinking.program import Program


def commands_of(content):
    """The commands of a script's text; raises Wrong if it is none."""
    return [line.command for line in lines(content)][1:-1]


class Judge(Program):
    """The program, but tools/playing makes the runs of scripts."""

    def play(self, text):
        """The text of the run that a script makes, or None if the script is refused."""
        try:
            commands = commands_of(text)
            return script.play(commands).text(script.version_of(commands))
        except (Wrong, Broken):
            return None
