"""What recorders do that folders.py does not: they tell of transitional configurations late, are killed while the layer goes on, lose their ends with the
power, and say in a first line how they record."""
from harness.recordings import Entry, is_regular, line_of

FIRST = '# totem-log 1'
WRONG = ('# totem-log 2', '# totem-log', FIRST + ' sends=later', FIRST + ' node=1 transitional=', FIRST + ' sends=taken transitional=never')
OTHERS = ('by=record/1', 'node=2', 'group=a=b', 'sync=')


def skip_some(recording):
    """In some transitional configurations nobody delivers some message: its sender was left behind."""
    names = sorted({entry.configuration for log in recording.logs for entry in log.entries if not is_regular(entry.configuration)})
    for name in names:
        messages = sorted({entry.message for log in recording.logs for entry in log.entries if (entry.word, entry.configuration) == ('dlv', name)})
        if len(messages) > 1 and recording.chance(60):
            skipped = Entry('dlv', name, message=recording.draw.choice(messages[:-1]))
            for log in recording.logs:
                log.entries = [entry for entry in log.entries if entry != skipped]


def tell_late(recording):
    """The layer says nothing of a transitional configuration until it is over: what was delivered there is written in the regular one before."""
    skip_some(recording)
    for log in recording.logs:
        # The regular configuration in which the log is, or from which it just came, and the change that waits.
        entries, regular, waiting = [], None, None
        for entry in log.entries:
            if waiting and (entry.word, entry.configuration) == ('dlv', waiting.configuration):
                entries.append(entry._replace(configuration=regular))
                continue
            if waiting:
                entries, regular, waiting = [*entries, waiting], None, None
            if entry.word == 'conf' and regular and not is_regular(entry.configuration) and not recording.chance(5):
                waiting = entry
                continue
            entries.append(entry)
            if entry.word == 'conf':
                regular = entry.configuration if is_regular(entry.configuration) else None
        log.entries = entries + ([waiting] if waiting else [])
    if recording.chance(90):
        recording.words.append('--late-changes')


def end_early(recording):
    """Processes are killed while the layer goes on: what they had handed over goes out where they never come."""
    for log in [log for log in recording.logs if log.ending != 'quiet']:
        own = {entry.configuration for entry in log.entries}
        is_any = recording.chance(15)
        listing = sorted({entry.configuration for other in recording.logs for entry in other.entries
                          if entry.word == 'conf' and is_regular(entry.configuration) and (is_any or log.who in entry.members)} - own)
        if listing and own and recording.chance(80):
            _go_on(recording, log, recording.draw.choice(listing), max(own))
    for log in recording.logs:
        if recording.chance(10):
            log.entries = []
            log.close()
    if recording.chance(90):
        recording.words.append('--early-ends')


def _go_on(recording, log, there, last):
    """Messages of a log are delivered in a configuration to which it never came; or one of them elsewhere, too."""
    for number in range(recording.draw.choice((1, 1, 2))):
        message = '%s#%d' % (last.lstrip('rt').partition('/')[0], 900 + 10 * log.process + number)
        at = next((at for at, entry in enumerate(log.entries) if entry.word == 'fail'), len(log.entries))
        configurations = [entry.configuration for entry in log.entries[:at] if entry.word == 'conf' and is_regular(entry.configuration)]
        if not configurations:
            return
        log.entries.insert(at, Entry('send', configurations[-1], service='a', message=message))
        for other in recording.logs:
            place = next((at for at, entry in enumerate(other.entries) if (entry.word, entry.configuration) == ('conf', there)), None)
            if place is not None:
                where = there if recording.chance(95) else recording.draw.choice(sorted({entry.configuration for entry in other.entries}))
                other.entries.insert(place + 1 + number, Entry('dlv', where, message=message))


def name_by_senders(recording):
    """Messages are named by their senders' places, as names in the payload are."""
    places = {entry.message: place for place, log in enumerate(recording.logs, 1) for entry in log.entries if entry.word == 'send'}
    for log in recording.logs:
        log.entries = [entry._replace(message=_renamed(entry.message, places)) if entry.message else entry for entry in log.entries]


def _renamed(message, places):
    ring, _, number = message.partition('#')
    return '%s#%d' % (ring, 32 * int(number) + places.get(message, 0))


def tear(recording, name):
    """The power failure of one process or two. `name` writes a list of them."""
    if recording.chance(60):
        name_by_senders(recording)
    draw, chosen = recording.draw, []
    for log in draw.sample(recording.logs, min(len(recording.logs), draw.choice((1, 1, 2)))):
        changes = [at for at, entry in enumerate(log.entries) if entry.word == 'conf']
        last = changes[-1] if changes and recording.chance(80) else 0
        kept = draw.randint(min(last + 1, len(log.entries)), len(log.entries))
        gone = log.entries[kept:]
        while log.entries[:kept] and log.entries[kept - 1].word == 'fail' and recording.chance(90):
            kept -= 1
        del log.entries[kept:]
        if gone and log.entries and recording.chance(30):
            recording.torn[log.who] = line_of(gone[0], True)[:-1]
        log.ending = 'open' if recording.chance(95) else log.ending
        log.close()
        chosen.append(log.who)
    recording.words += ['--torn', lambda names: name(names, chosen)]


def make_up(recording, lost, name):
    """The call says what the process did whose log is lost, or rarely says it of another one, or of two. `name` writes a list of them."""
    draw = recording.draw
    for log in [lost, *([draw.choice(recording.logs)] if recording.chance(5) else [])]:
        other = draw.choice(recording.logs).who
        how = 'failed-before' if recording.chance(40) else None
        recording.words += ['--made-up', lambda names, log=log, how=how, other=other: '%s=%s' % (
            name(names, [log.who]), how or 'as-' + name(names, [other]))]


def say_first(recording):
    """The logs say in their first lines how they were recorded, mostly all the same; and the caller says it, too, or not. Returns the lines."""
    draw, words = recording.draw, recording.words
    sends = 'taken' if '--own-sends' in words else draw.choice(('ordered', 'delivered', '', '', 'taken'))
    changes = 'untold' if '--transitional' in words else 'late' if '--late-changes' in words else \
        draw.choice(('told', 'told', '', '', 'late', 'untold'))
    ends = 'early' if '--early-ends' in words else draw.choice(('told', '', '', '', 'early'))
    needed = {'--own-sends'} if {'--own-order-unknown', '--late-sends'} & {word for word in words if isinstance(word, str)} else set()
    for option in ('--own-sends', '--early-ends', '--transitional', '--late-changes'):
        if option in words and option not in needed and recording.chance(70):
            words.remove(option)
    if recording.chance(10):
        words.append('--as-written')
    lines = {}
    for log in recording.logs:
        said = ['sends=' + sends if sends else '', 'transitional=' + changes if changes else '', 'ends=' + ends if ends else '', draw.choice(OTHERS)]
        if recording.chance(4):
            said[draw.randrange(3)] = draw.choice(('', 'sends=ordered', 'transitional=told', 'ends=told')) if len(set(said)) > 2 else ''
        draw.shuffle(said)
        lines[log.who] = draw.choice(WRONG) if recording.chance(2) else '' if recording.chance(2) else ' '.join([FIRST, *filter(None, said)])
    return lines
