"""Pictures of random runs and of the runs of the rows: the fills of neighbours, the ways of lines, the texts below, the strips of the membership."""
import random
from functools import partial
from itertools import combinations

from harness import process
from harness import rows as row_files
from harness.pictures import FAR, Picture, distance
from harness.recordings import broken_run, good_run, text_of
from parts.counts import logs_of
from parts.views import have_order, namer, visits_of

RUNS = 300
# How many random runs are one case.
TOGETHER = 50
# A run with more entries is not drawn whole.
WHOLE = 120
# The sentences about signs, and what a picture has if it has the sign.
SIGNS = {
    'A dot is a send.': "r='6' fill='#000000'",
    'A ring is a delivery.': "r='6' fill='#ffffff' stroke='#000000'",
    'A bar is a change of the configuration, whose band follows.': "v28'",
    'The band of a transitional configuration is dashed.': "fill-opacity='0.4' stroke='#000000'",
    'A cross is a failure.': 'l14 14',
    'A dashed ring is an event that is missing.': "stroke='#b34700' stroke-width='2'",
    'A dashed line to a ring behind the lane is a pending delivery.': "r='6' fill='#ffffff' stroke='#555555'",
    'Where it says .. 12, 3 conf, 12 entries are left out, 3 of them changes.': '>.. ',
}


def fills_flaw(picture):
    """What is wrong with the fills of a picture: each configuration has one, and two have different ones that share a moment, of which one
    follows the other in a lane, or which both follow the same one."""
    spans, befores = {}, {}
    for lane in set(picture.lanes.values()):
        bands = picture.bands_of(lane)
        for before, band in zip([None, *bands], bands):
            spans.setdefault(band.name, []).append(band)
            if before:
                befores.setdefault(band.name, set()).add(before.name)
    if any(name is None or len({band.fill for band in spans[name]}) != 1 for name in spans):
        return 'a configuration without a name, or with two fills: %r' % spans
    for one, other in combinations(spans, 2):
        is_near = befores.get(one, set()) & befores.get(other, set()) or one in befores.get(other, ()) or other in befores.get(one, ()) or any(
            a.left < b.right and b.left < a.right for a in spans[one] for b in spans[other])
        if is_near and spans[one][0].fill == spans[other][0].fill:
            return '%s and %s have one fill' % (one, other)
    return None


def lines_flaw(picture):
    """What is wrong with the lines of a picture: each goes from a send to a ring, through no other circle, and through no text but those at
    its ends."""
    for points, is_dashed in picture.lines:
        first, last = points[0], points[-1]
        ends = {end: [it for it in picture.circles if it[:2] == end] for end in (first, last)}
        if not any(fill == '#000000' for *_, fill, _ in ends[first]) or \
                not any(fill == '#ffffff' and ('dasharray' in more) == is_dashed for *_, fill, more in ends[last]):
            return 'a line from no send, or to no delivery: %r' % (points,)
        for one, other in zip(points, points[1:]):
            for x, y, radius, *_ in picture.circles:
                if (x, y) not in ends and distance((x, y), one, other) <= radius:
                    return 'the line %r goes through the circle at %r' % (points, (x, y))
            for x, y, words in picture.labels:
                is_own = any(x == end[0] and y == end[1] + 26 for end in ends)
                half = int(2.4 * len(words))
                if not is_own and any(distance((x + step, y - 3), one, other) < 3 for step in range(-half, half + 1, 3)):
                    return 'the line %r goes through %r at %r' % (points, words, (x, y))
    return None


def signs_flaw(picture):
    """Which sentence about a sign is there without the sign, or the other way round."""
    wrong = [words for words, sign in SIGNS.items() if (words in picture.below) != (sign in picture.drawn)]
    return '%r, in: %s' % (wrong, picture.below) if wrong else None


def membership_flaw(picture, text, pending):
    """What is wrong with the membership in a picture: the bands of each lane are the stays of its log, in one column each and with what was
    sent and delivered, in strips that fit a screen; and in front of the lane is how many deliveries are pending. (Not where no
    order fits all logs.)"""
    name = namer(text)
    lefts = {}
    if not have_order(logs_of(text)):
        return None
    for log in logs_of(text):
        lane = name((log.process, log.life))
        visits, bands = visits_of(log), picture.bands_of(lane)
        if [band.name for band in bands] != [where for where, _, _ in visits]:
            return 'log %s: %r' % (lane, bands)
        height = {picture.strip_of(y): y for y, it in picture.lanes.items() if it == lane}
        for band, (where, _, stay) in zip(bands, visits):
            lefts.setdefault(where, set()).add(band.left)
            counts = '%d s, %d d' % tuple(sum(entry.word == word for entry in stay) for word in ('send', 'dlv'))
            strip, x = divmod(band.left, FAR)
            if not any(words == counts and y == height[strip] + 26 and x <= at <= band.right - strip * FAR + 4 for at, y, words in picture.labels):
                return 'log %s, %s: no %s' % (lane, where, counts)
        count = sum(line.split(' ')[1] == lane for line in pending)
        if (">%d pending</text>" % count in picture.drawn) != (count > 0):
            return 'log %s: %d pending' % (lane, count)
    wide = max((band.right % FAR for band in picture.bands), default=0)
    is_right = all(len(it) == 1 for it in lefts.values()) and (wide <= 1280 or len(lefts) < 4)
    return None if is_right else 'columns: %r, up to %d' % (lefts, wide)


def flaw(program, text):
    """What is wrong with the pictures of a run: that of its membership, and that of its verdict."""
    audited, _ = process.run([program, 'audit', '--brief'], text)
    pending = [line for line in audited.output.decode().split('\n') if line.startswith('pending ')]
    views, _ = process.run([program, 'explain', '--svg', '--views'], text)
    came, _ = process.run([program, 'explain', '--svg'], text)
    if (views.status, came.status) != (audited.status, audited.status):
        return 'came: %s\n  and: %s' % (views, came)
    membership, picture = Picture(views.output.decode()), Picture(came.output.decode())
    wrong = fills_flaw(membership) or membership_flaw(membership, text, [])
    if audited.status == 0 and sum(len(log.entries) for log in logs_of(text)) > WHOLE:
        wrong = wrong or fills_flaw(picture) or membership_flaw(picture, text, pending)
    else:
        wrong = wrong or fills_flaw(picture) or lines_flaw(picture) or signs_flaw(picture)
    return '%s\n  for: %r' % (wrong, text) if wrong else None


def try_random(first, program):
    """Good runs and broken ones."""
    for seed in range(first, first + TOGETHER):
        draw = random.Random(seed)
        run = good_run(draw)
        if seed % 2:
            run = broken_run(draw, run)
        wrong = flaw(program, text_of(run.logs, True))
        if wrong:
            return 'seed %d: %s' % (seed, wrong)
    return None


def parted_wholly():
    """A run of 32 processes of which each goes on alone, and on again."""
    logs = []
    for process_number in range(1, 33):
        steps = ''.join('conf t%d.%d/%d %d\nconf r%d.%d %d\n' % ((ring, process_number) + (process_number,) * 2 + (ring,) + (process_number,) * 2)
                        for ring in (8, 12))
        logs.append('log %d\nconf r4.1 %s\n%sopen\n' % (process_number, ' '.join(map(str, range(1, 33))), steps))
    return ('totem-run 1\n%send\n' % ''.join(logs)).encode()


def try_text(text, program):
    """The pictures of this run."""
    return flaw(program, text)


def drawn():
    """Pictures."""
    for first in range(0, RUNS, TOGETHER):
        yield 'random runs from %d' % first, partial(try_random, first)
    yield 'thirty-two processes alone', partial(try_text, parted_wholly())
    for name in row_files.names():
        row = row_files.read(name)
        if row.given and row.verb in ('audit', 'explain') and row.status in (0, 1) and '--script' not in row.words:
            yield 'the run of %s' % name, partial(try_text, row.given)
