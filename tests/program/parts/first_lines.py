"""Folders whose logs say in their first lines how they were recorded, joined by `tools/logs join`."""

FIRST = '# totem-log 1'
FOLLOWED = 'logs: as the first lines of the logs say: %s\n'
LEFT_OUT = 'logs: left out of the logs: blank lines and comments %d\n'
NO_GAP = 'logs: no change goes to an earlier place, since no delivery before one is past a gap\n'
MOVED = 'logs: 1.log: sends moved to just before their own deliveries: 1 (4.1#1)\n'
ASSUMED = 'logs: 1.log: transitional configurations that are assumed: 1 (t8.1/1)\n'
NONE_MISSING = 'logs: no transitional configuration is missing, so none is assumed\n'
TAKEN = 'conf r4.1 1 2\nsend r4.1 a 4.1#1\ndlv r4.1 4.1#2\ndlv r4.1 4.1#1\n'
OTHER = 'conf r4.1 1 2\nsend r4.1 a 4.1#2\ndlv r4.1 4.1#2\n'
AS_TAKEN = 'totem-run 1\nlog 1\n%sopen\nlog 2\n%sopen\nend\n' % (TAKEN, OTHER)
AS_SENT = AS_TAKEN.replace('send r4.1 a 4.1#1\ndlv r4.1 4.1#2\n', 'dlv r4.1 4.1#2\nsend r4.1 a 4.1#1\n')
STRAIGHT = 'conf r4.1 1\nconf r8.1 1\n'
AS_STRAIGHT = 'totem-run 1\nlog 1\n%sopen\nend\n' % STRAIGHT
AS_ASSUMED = AS_STRAIGHT.replace('conf r8.1', 'conf t8.1/1 1\nconf r8.1')


def _both(one, other):
    """Two logs with these first lines; an empty one is none."""
    return {'1.log': (one and one + '\n') + TAKEN, '2.log': (other and other + '\n') + OTHER}


# Folders by what they show: the arguments, the files, the run that they are joined to, and the messages (but for what --own-sends says at its end).
FIRST_LINES = {
    'sends that are taken, in all logs': (
        '', _both(FIRST + ' sends=taken', FIRST + ' sends=taken by=record/1 node=2'), AS_SENT,
        LEFT_OUT % 2 + FOLLOWED % '--own-sends' + MOVED),
    'both keys, and others': (
        '', _both(*[FIRST + ' node=1 transitional=late by=x=y sends=taken sync='] * 2), AS_SENT,
        LEFT_OUT % 2 + FOLLOWED % '--own-sends --late-changes' + NO_GAP + MOVED),
    'ends that are early': (
        '', _both(*[FIRST + ' ends=early sends=taken'] * 2), AS_SENT, LEFT_OUT % 2 + FOLLOWED % '--own-sends --early-ends' + MOVED),
    'ends that are told': ('', _both(FIRST + ' ends=told', FIRST), AS_TAKEN, LEFT_OUT % 2),
    'sends that are ordered, delivered, and nothing': (
        '', {**_both(FIRST + ' sends=ordered transitional=told', FIRST + ' sends=delivered'), '3.log': FIRST + '\nconf r4.3 3\n'},
        AS_TAKEN.replace('end\n', 'log 3\nconf r4.3 3\nopen\nend\n'), LEFT_OUT % 3),
    'transitional configurations that are not told': (
        '', {'1.log': FIRST + ' transitional=untold\n' + STRAIGHT}, AS_ASSUMED, LEFT_OUT % 1 + FOLLOWED % '--transitional' + ASSUMED),
    'logs that differ, and an option': ('--own-sends', _both(FIRST + ' sends=taken', ''), AS_SENT, LEFT_OUT % 1 + MOVED),
    'an option, and the other key': (
        '--own-sends', _both(*[FIRST + ' sends=taken transitional=late'] * 2), AS_SENT, LEFT_OUT % 2 + FOLLOWED % '--late-changes' + NO_GAP + MOVED),
    'an option in place of what they say': (
        '--transitional', {'1.log': FIRST + ' transitional=late\n' + STRAIGHT}, AS_ASSUMED, LEFT_OUT % 1 + ASSUMED),
    'the other option in place of what they say': (
        '--late-changes', {'1.log': FIRST + ' transitional=untold\n' + STRAIGHT}, AS_STRAIGHT, LEFT_OUT % 1 + NO_GAP),
    'as written': ('--as-written', _both(FIRST + ' sends=taken', FIRST + ' sends=ordered'), AS_TAKEN, LEFT_OUT % 2),
    'as written, whatever the line is': ('--as-written', _both('# totem-log 2', FIRST + ' sends=never sends'), AS_TAKEN, LEFT_OUT % 2),
    'as written, but for an option': (
        '--as-written --own-sends', _both(FIRST + ' sends=taken', FIRST + ' transitional=untold'), AS_SENT, LEFT_OUT % 2 + MOVED),
    'a log without an entry': (
        '', {**_both(*[FIRST + ' sends=taken'] * 2), '3.log': FIRST + ' sends=ordered\n'}, AS_SENT,
        LEFT_OUT % 3 + FOLLOWED % '--own-sends' + 'logs: 3.log has no entry, and is left out\n' + MOVED),
    'a first line that was cut off': (
        '', {**_both(*[FIRST + ' sends=taken'] * 2), '3.log': FIRST + ' sends=or'}, AS_SENT,
        'logs: 3.log: the last line was cut off, and is left out\n' + LEFT_OUT % 2 + FOLLOWED % '--own-sends'
        + 'logs: 3.log has no entry, and is left out\n' + MOVED),
    'a line that is not the first one': (
        '', {'1.log': '\n%s sends=taken\n%s' % (FIRST, TAKEN), '2.log': '#\n%s sends=none\n%s' % (FIRST, OTHER)}, AS_TAKEN, LEFT_OUT % 4),
    'lines that only look so': (
        '', {'1.log': '# totem-logs 2\n' + TAKEN, '2.log': '1 # totem-log 2\n' + OTHER}, AS_TAKEN,
        'logs: left out of the logs: blank lines and comments 2, times 1\n'),
}
# Folders that are refused: the arguments, the files, and the messages.
FIRST_LINES_REFUSED = {
    'taken and ordered': (
        '', _both(FIRST + ' sends=taken', FIRST + ' sends=ordered'),
        'logs: the first line of 1.log says sends=taken, and that of 2.log says sends=ordered: if one way holds for all logs, say --own-sends; '
        '--as-written does nothing of what first lines say\n'),
    'none and taken': (
        '', _both('', FIRST + ' sends=taken'),
        'logs: the first line of 2.log says sends=taken, and 1.log has none that says so: if one way holds for all logs, say --own-sends; '),
    'late and untold': (
        '--own-sends', _both(FIRST + ' sends=taken transitional=late', FIRST + ' transitional=untold'),
        'logs: the first line of 1.log says transitional=late, and that of 2.log says transitional=untold: if one way holds for all logs, say '
        '--transitional or --late-changes; --as-written does '),
    'late and a line that says nothing of it': (
        '', _both(FIRST + ' transitional=late', FIRST), 'logs: the first line of 1.log says transitional=late, and 2.log has none that says so: '),
    'another version': ('', _both('', '# totem-log 2 sends=taken'), 'logs: 2.log, line 1: the line is not of version 1: # totem-log 2 sends=taken '
                        '(--as-written passes over first lines)\n'),
    'a version with more digits': ('', _both('# totem-log 10', ''), 'logs: 1.log, line 1: the line is not of version 1: # totem-log 10 ('),
    'no version': ('', _both('', '# totem-log'), 'logs: 2.log, line 1: the line is not of version 1: # totem-log ('),
    'an unknown value': ('', _both(FIRST + ' node=1 sends=later', ''), 'logs: 1.log, line 1: sends is ordered or delivered or taken, not later ('),
    'an unknown value of the other key': (
        '', _both(FIRST + ' transitional=', ''), 'logs: 1.log, line 1: transitional is told or late or untold, not  ('),
    'a key that comes twice': ('', _both(FIRST + ' sends=taken sends=taken', ''), 'logs: 1.log, line 1: sends comes twice ('),
    'a word without a value': ('', _both(FIRST + ' sends', ''), 'logs: 1.log, line 1: this is not KEY=VALUE: sends ('),
    'two blanks': ('', _both(FIRST + '  sends=taken', ''), 'logs: 1.log, line 1: this is not KEY=VALUE:  ('),
    'a line end of another system': (
        '', _both(FIRST + ' sends=taken\r', ''), 'logs: 1.log, line 1: sends is ordered or delivered or taken, not taken? ('),
}
