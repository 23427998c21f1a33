"""Scripts by seed. The seeds of a block build on each other: later seeds continue from the places that earlier ones reached first. So the
script of a seed is the same wherever the hunt begins, and on every machine."""
from typing import NamedTuple

from hunting.chance import Chance
from hunting.making import Maker
from hunting.sight import INSTALLED, Sight
from playing.scene import Scene
from shrinking.scripts import joined

# How many seeds build on each other.
BLOCK = 4000
MOST_COMMANDS = 3000


class Place(NamedTuple):
    """A place that a seed was the first to reach: the commands up to there, and the scene after them."""

    commands: tuple
    scene: Scene
    sight: Sight
    kept: tuple


def worth_of(marks):
    """How promising a place with these marks is."""
    depth, *others = marks
    return 3 * depth + len(others)


def is_over(marks):
    """Whether it has happened already, so that going on shows nothing new: the ring is installed."""
    return marks[0] == INSTALLED


class Block:
    """The scripts of a block of seeds, one after the other."""

    def __init__(self, number):
        self.next = number * BLOCK
        self.seen = set()
        # By their marks.
        self.places = {}

    def _choose(self, chance):
        """A place from which to continue, or None to start from the beginning."""
        if not self.places or chance.percent(20):
            return None
        marks = sorted(self.places, key=lambda marks: (-worth_of(marks), marks))
        best = min([chance.below(len(marks)) for _ in range(chance.of((1, 3, 9)))])
        return chance.of(self.places[marks[best]])

    def _look(self, maker):
        """Keeps the place if anything was reached there for the first time."""
        sight = maker.sight
        reached = [*sight.reached, sight.stand_of(maker.scene)]
        sight.reached = []
        if self.seen.issuperset(reached):
            return
        self.seen.update(reached)
        marks = sight.marks_of(maker.scene)
        if len(maker.commands) < MOST_COMMANDS and not is_over(marks):
            place = Place(tuple(maker.commands), maker.scene.copy(), sight.copy(), tuple(maker.kept))
            self.places.setdefault(marks, []).append(place)

    def script(self):
        """The commands of the next seed's script, and the scene after them."""
        chance = Chance(self.next)
        self.next += 1
        maker = Maker(chance, self._choose(chance))
        if maker.kept and chance.percent(40):
            maker.replay()
        for _ in range(chance.of((20, 40, 80, 120))):
            maker.step()
            self._look(maker)
        maker.settle()
        self._look(maker)
        return joined(maker.commands), maker.scene
