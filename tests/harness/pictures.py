"""A picture of `totem explain --svg`, read as a person would: its lanes, bands, circles, lines and texts, and where they are."""
import re
from dataclasses import dataclass

NUMBER = "'([0-9]+)'"
TEXT = re.compile("<text x=%s y=%s([^>]*)>([^<]*)</text>" % (NUMBER, NUMBER))
BAND = re.compile("<rect x=%s y=%s width=%s height='28' fill='(#[0-9a-f]+)'[^>]*/>(?:\n<rect [^>]* fill='url\\(#([a-z0-9]+)\\)'/>)?" % (
    NUMBER, NUMBER, NUMBER))
CIRCLE = re.compile("<circle cx=%s cy=%s r='(6|8)' fill='(#[0-9a-f]+)' ?([^>]*)/>" % (NUMBER, NUMBER))
LINE = re.compile("<polyline points='([0-9, ]+)' fill='none' stroke='#555555'( stroke-dasharray='5 4')?/>")
# So far from the middle of a lane are the names of its configurations.
ABOVE = 20
# So much lies between two strips, if they are laid one behind the other.
FAR = 1000000


@dataclass
class Band:
    """A band, or the piece of one in a strip: its lane, from where to where it goes, its fill, and the name of its configuration."""

    lane: str
    left: int
    right: int
    fill: tuple
    name: str


class Picture:
    """What a picture has."""

    def __init__(self, drawn):
        self.drawn = drawn
        self.title = re.search("<title id='title'>([^<]*)</title>", drawn)[1]
        texts = [(int(x), int(y), more, words) for x, y, more, words in TEXT.findall(drawn)]
        # The names in front of lanes by their height, from top to bottom.
        self.lanes = {y: words.removeprefix('process ') for x, y, _, words in texts if x == 16 and words.startswith('process ')}
        self.labels = [(x, y, words) for x, y, more, words in texts if "font-size='10'" in more]
        self.below = ' '.join(words for x, y, more, words in texts if not more and y > max(self.lanes, default=0) + 30)
        self.circles = [(int(x), int(y), int(r), fill, more) for x, y, r, fill, more in CIRCLE.findall(drawn)]
        self.lines = [([tuple(map(int, point.split(','))) for point in points.split()], bool(dashes)) for points, dashes in LINE.findall(drawn)]
        self.bands = [self._band(*it) for it in BAND.findall(drawn)]

    def strip_of(self, height):
        """In which strip a lane is."""
        return [y for y, lane in self.lanes.items() if lane == self.lanes[height]].index(height)

    def _band(self, x, y, width, colour, texture):
        left, middle = int(x), int(y) + 14
        right = left + int(width)
        name = next((words for at, above, words in self.labels if above == middle - ABOVE and left <= at <= right + 4), None)
        far = FAR * self.strip_of(middle)
        return Band(self.lanes[middle], left + far, right + far, (colour, texture), name)

    def bands_of(self, lane):
        """The bands of a lane, those that go on in the next strip as one."""
        whole = []
        for band in sorted((band for band in self.bands if band.lane == lane), key=lambda band: band.left):
            if whole and whole[-1].name == band.name:
                whole[-1] = Band(lane, whole[-1].left, band.right, band.fill, band.name)
            else:
                whole.append(band)
        return whole


def distance(point, one, other):
    """How far a point is from the straight line between two others."""
    (x, y), (a, b), (c, d) = point, one, other
    length = (c - a) ** 2 + (d - b) ** 2
    part = max(0., min(1., ((x - a) * (c - a) + (y - b) * (d - b)) / length)) if length else 0.
    return ((x - a - part * (c - a)) ** 2 + (y - b - part * (d - b)) ** 2) ** .5
