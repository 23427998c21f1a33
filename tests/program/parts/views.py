"""The membership of runs and what became of their messages: `totem explain --views` and `--message`, compared with plain loops over random
runs and the runs of the rows."""
import random
from functools import partial

from harness import process
from harness import rows as row_files
from harness.recordings import broken_run, good_run, is_regular, text_of
from parts.counts import logs_of

RUNS = 400
# How many random runs are one case.
TOGETHER = 50
# So many columns that few lines are broken.
WIDE = ('--columns', '400')


def visits_of(log):
    """The stays of a log in regular configurations: the configuration, the way to it, and the entries up to the next one."""
    visits, before, way = [], None, None
    for entry in log.entries:
        if entry.word == 'conf' and is_regular(entry.configuration):
            visits.append((entry.configuration, (before, way), []))
            before, way = entry.configuration, None
        elif entry.word == 'conf':
            way = entry.configuration
        if visits:
            visits[-1][2].append(entry)
    return visits


def way_of(way):
    """A way in words."""
    before, between = way
    if before is None:
        return 'by %s' % between if between else 'began here'
    return 'from %s by %s' % (before, between) if between else 'from %s' % before


def grouped(pairs, name):
    """A line for each thing that is said, with the processes of whom it is said."""
    lines = {}
    for what, log in pairs:
        lines.setdefault(what, []).append(name(log))
    return ['  %s: %s' % (what, ' '.join(names)) for what, names in lines.items()]


def end_of(log, stay):
    """How and where a log ends that ends in a stay."""
    behind = [entry.configuration for entry in stay if entry.word == 'conf' and not is_regular(entry.configuration)]
    return '%s %s' % (log.ending, 'in %s' % behind[-1] if behind else 'here')


def block_of(logs, configuration, name):
    """The lines about a configuration."""
    visits = [(log, way, stay, index + 1 == len(visits_of(log))) for log in logs
              for index, (where, way, stay) in enumerate(visits_of(log)) if where == configuration]
    members = visits[0][2][0].members
    came = {(log.process, log.life) for log, *_ in visits}
    lines = ['%s, members %s' % (configuration, ' '.join(name(who) for who in members))]
    lines += grouped([(way_of(way), log) for log, way, _, _ in visits], lambda log: name((log.process, log.life)))
    absent = [name(who) for who in members if who not in came]
    lines += ['  never came: %s' % ' '.join(absent)] if absent else []
    sends = deliveries = later = 0
    for _, _, stay, _ in visits:
        is_later = False
        for entry in stay:
            is_later |= entry.word == 'conf' and not is_regular(entry.configuration)
            sends += entry.word == 'send'
            deliveries += entry.word == 'dlv'
            later += entry.word == 'dlv' and is_later
    behind = ', of these on the way to the next one %d' % later if later else ''
    lines.append('  sends %d, deliveries %d%s' % (sends, deliveries, behind))
    lines += grouped([(end_of(log, stay), log) for log, _, stay, is_last in visits if is_last], lambda log: name((log.process, log.life)))
    return lines


def have_order(logs):
    """Whether some order of the configurations fits all logs."""
    left = [[where for where, _, _ in visits_of(log)] for log in logs]
    while any(left):
        ready = {way[0] for way in left if way}
        ready -= {where for way in left for where in way[1:]}
        if not ready:
            return False
        left = [way[1:] if way and way[0] in ready else way for way in left]
    return True


def is_ordered(logs, order):
    """Whether each log comes to the configurations in this order, as long as some order fits all logs."""
    places = {where: place for place, where in enumerate(order)}
    ways = [[places[where] for where, _, _ in visits_of(log)] for log in logs]
    return not have_order(logs) or all(way == sorted(way) for way in ways)


def namer(text):
    """How this run text writes a process."""
    return (lambda who: '%d' % who[0]) if text.startswith(b'totem-run 1\n') else (lambda who: '%d:%d' % who)


def views_flaw(program, text):
    """What is wrong with the membership of a run."""
    logs, name = logs_of(text), namer(text)
    audited, _ = process.run([program, 'audit'], text)
    came, _ = process.run([program, 'explain', '--views', *WIDE], text)
    blocks = [block.split('\n') for block in came.output.decode().removesuffix('\n').split('\n\n')[1:]]
    order = [block[0].split(',')[0] for block in blocks]
    wanted = {where for log in logs for where, _, _ in visits_of(log)}
    is_right = came.status == audited.status and not came.errors and len(order) == len(wanted) and set(order) == wanted and \
        is_ordered(logs, order) and all(block == block_of(logs, block[0].split(',')[0], name) for block in blocks)
    return None if is_right else 'came: %s\n  wanted: %r\n  for: %r' % (came, [block_of(logs, where, name) for where in order], text)


def message_flaw(program, text, message):
    """What is wrong with what became of a message."""
    logs, name = logs_of(text), namer(text)
    came, _ = process.run([program, 'explain', '--message', message, *WIDE], text)
    output = came.output.decode()
    named = [(log, at, entry) for log in logs for at, entry in enumerate(log.entries, 1) if entry.message == message]
    if not named:
        is_right = (came.status, output) == (6, 'No log sends or delivers %s.\n' % message)
        return None if is_right else 'came: %s\n  for: %s of %r' % (came, message, text)
    lacking = [name((log.process, log.life)) for log in logs
               if not any(entry.word == 'dlv' and entry.message == message for entry in log.entries)]
    places = {word: ['%s@%d' % (name((log.process, log.life)), at) for log, at, entry in named if entry.word == word] for word in ('send', 'dlv')}
    parts = output.split('Not delivered:\n')
    told = [line.split(' ')[2] for line in parts[0].split('\n') if line.startswith('  ')]
    behind = parts[1] if len(parts) > 1 else ''
    words = behind.replace(',', ' ').replace(': no', ' no').replace('.\n', ' ').split()
    is_right = came.status == 0 and told == places['send'] + places['dlv'] and \
        bool(behind) == bool(lacking) and all(who in words for who in lacking)
    return None if is_right else 'came: %s\n  wanted: %r, without %r\n  for: %s of %r' % (came, places, lacking, message, text)


def flaw(program, text, draw):
    """What is wrong with the membership of a run, or with what became of two of its messages and of one that it lacks."""
    messages = sorted({entry.message for log in logs_of(text) for entry in log.entries if entry.message})
    asked = [*draw.sample(messages, min(2, len(messages))), '4294967295.65535#4294967295']
    wrong = [views_flaw(program, text), *(message_flaw(program, text, message) for message in asked)]
    return next(filter(None, wrong), None)


def try_random(first, program):
    """Good runs and broken ones."""
    for seed in range(first, first + TOGETHER):
        draw = random.Random(seed)
        run = good_run(draw)
        if seed % 2:
            run = broken_run(draw, run)
        wrong = flaw(program, text_of(run.logs, True), draw)
        if wrong:
            return 'seed %d: %s' % (seed, wrong)
    return None


def try_row(text, program):
    """The run of a row."""
    return flaw(program, text, random.Random(1))


def views():
    """The membership of runs, and what became of their messages."""
    for first in range(0, RUNS, TOGETHER):
        yield 'random runs from %d' % first, partial(try_random, first)
    for row in row_files.read_judged():
        yield 'the run of %s' % row.name, partial(try_row, row.given)
