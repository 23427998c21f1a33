"""The forms of answers: which statuses a command has, and what its output and its errors look like.
(docs/SPECIFICATIONS.md defines them.)"""
import re

RUN_FAULTS = ('Header', 'Word', 'Number', 'Order', 'Members', 'End', 'Truncated', 'TooMany')
CERTIFICATE_FAULTS = ('Header', 'Word', 'Number', 'Order', 'Truncated', 'TooMany', 'End')
REFUSALS = ('Count', 'NotRising', 'SendNotBefore', 'TwinsDiffer', 'SharedPosition')
SCRIPT_FAULTS = ('Header', 'Word', 'Number', 'Order', 'Members', 'Place', 'End', 'Truncated', 'TooMany')

NUMBER = r'[1-9][0-9]*'
RING = r'%s\.%s' % (NUMBER, NUMBER)
CONFIGURATION = r'(?:r%s|t%s/%s)' % (RING, RING, NUMBER)
MESSAGE = r'%s#%s' % (RING, NUMBER)


class _Texts:
    """The forms of texts of one version, in which a process is written in this way."""

    def __init__(self, version, process):
        self.fault = r'fault [1-7](?:\.[1-4])?(?: %s@%s)+\n' % (process, NUMBER)
        self.left_open = r'(?:pending %s %s\n)*(?:waiting %s %s %s\n)*' % (
            process, MESSAGE, process, CONFIGURATION, process)
        self.certificate = r'totem-cert %d\n(?:pos %s(?: %s)+\n)*' % (version, process, NUMBER)
        entry = r'(?:conf {c}(?: {p})+|send r{r} [as] {m}|dlv {c} {m}|fail {c})\n'.format(
            c=CONFIGURATION, p=process, r=RING, m=MESSAGE)
        self.run = r'totem-run %d\n(?:log %s\n(?:%s)+(?:open|failed)\n)*end\n' % (version, process, entry)
        self.missing = r'totem: run refused: 9 MissingLog %s\n' % process
        self.apart = (r'verdict (?:yes|no)\n(?:parting {c}(?: together(?: {c})+)?(?: never)?\n(?:side {c} (?:to {c}|open|quiet|failed) by(?: {p})+ '
                      r'sends (?:0|{n}) delivers (?:0|{n})\n)+)*(?:apart {m} {m} {n} has(?: {p})+ lacks(?: {p})+\n)*end\n').format(
                          c=CONFIGURATION, p=process, m=MESSAGE, n=NUMBER)


TEXTS = (_Texts(1, NUMBER), _Texts(2, NUMBER + ':' + NUMBER))


def _of_either(form):
    """The form of a text of either version."""
    return '(?:%s)' % '|'.join(form(texts) for texts in TEXTS)


RUN = _of_either(lambda texts: texts.run)


def _named(front, names):
    """The lines of errors of these faults."""
    return ['totem: %s: %d %s\n' % (front, number, name) for number, name in enumerate(names, 1)]


def _one_of(lines):
    return '(?:%s)' % '|'.join(map(re.escape, lines))


RUN_REFUSED = '(?:%s|%s)' % (
    _one_of(_named('run refused', RUN_FAULTS)), _of_either(lambda texts: texts.missing))
CERTIFICATE_REFUSED = _one_of(
    _named('certificate unreadable', CERTIFICATE_FAULTS) + _named('certificate refused', REFUSALS))
SCRIPT_REFUSED = _one_of(_named('script refused', SCRIPT_FAULTS))
# An explanation, without its first line.
LINES = r'(?:[ -~]*\n)+'
PICTURE = r'<svg [ -~]+\n%s' % LINES
COUNTS = r'(?:count [a-z0-9.-]+ (?:0|%s)\n)+' % NUMBER
UNTESTED = r'totem: not tested: [a-z0-9., -]+\n'
APART = _of_either(lambda texts: texts.apart)
VIEWS = r'The run: [ -~]+\n' + '(?:%s)?' % LINES
YES, NO = r'Yes: [ -~]+\n' + LINES, r'No: [ -~]+\n' + LINES

# The output and the errors for each status of each command (with its options other than workers).
FORMS = {
    'audit': {0: (_of_either(lambda texts: 'verdict yes\n%s%send\n' % (texts.left_open, texts.certificate)), ''),
              1: (_of_either(lambda texts: 'verdict no\n(?:%s)+end\n' % texts.fault), ''),
              2: ('', RUN_REFUSED)},
    'audit --brief': {0: (_of_either(lambda texts: 'verdict yes\n%send\n' % texts.left_open), ''),
                      1: (_of_either(lambda texts: 'verdict no\n(?:%s)+end\n' % texts.fault), ''),
                      2: ('', RUN_REFUSED)},
    'check': {0: (_of_either(lambda texts: 'verdict yes\n%send\n' % texts.left_open), ''),
              1: (_of_either(lambda texts: 'verdict no\n%send\n' % texts.fault), ''),
              2: ('', '(?:%s|%s)' % (RUN_REFUSED, CERTIFICATE_REFUSED))},
    'explain': {0: (YES, ''), 1: (NO, ''), 2: ('', RUN_REFUSED + LINES)},
    'explain --require': {0: (YES, ''), 1: (NO, ''), 2: ('', RUN_REFUSED + LINES), 5: (YES, UNTESTED)},
    'explain --counts': {0: (COUNTS, ''), 1: (COUNTS, ''), 2: ('', RUN_REFUSED + LINES)},
    'explain --counts --require': {0: (COUNTS, ''), 1: (COUNTS, ''), 2: ('', RUN_REFUSED + LINES), 5: (COUNTS, UNTESTED)},
    'explain --svg': {0: (PICTURE, ''), 1: (PICTURE, ''), 2: ('', RUN_REFUSED + LINES)},
    'explain --views': {0: (VIEWS, ''), 1: (VIEWS, ''), 2: ('', RUN_REFUSED + LINES)},
    'explain --svg --views': {0: (PICTURE, ''), 1: (PICTURE, ''), 2: ('', RUN_REFUSED + LINES)},
    'explain --svg --fault': {1: (PICTURE, ''), 2: ('', RUN_REFUSED + LINES), 6: ('', r'totem: there is no fault [0-9]+: [ -~]+\n')},
    'explain --apart': {0: (APART, ''), 1: (APART, ''), 2: ('', RUN_REFUSED + LINES)},
    'explain --message': {0: (r'Message [0-9.#]+\n' + LINES, ''), 2: ('', RUN_REFUSED + LINES),
                          6: (r'No log sends or delivers [0-9.#]+\.\n', '')},
    'explain --script': {0: (RUN, ''), 2: ('', SCRIPT_REFUSED + LINES)},
    'sim': {0: (RUN, ''), 2: ('', SCRIPT_REFUSED)},
}
FORMS = {
    verb: {status: tuple(re.compile(form.encode()) for form in both) for status, both in statuses.items()}
    for verb, statuses in FORMS.items()
}


def asked_for(words):
    """The key of the forms that the answer to these arguments may have."""
    names = [word.partition('=')[0] for word in words]
    flags = [flag for flag in ('--svg', '--script', '--counts', '--require', '--views', '--apart', '--message', '--fault', '--brief') if flag in names]
    return ' '.join([words[0], *flags])


def flaw(words, answer):
    """What was expected, if an answer has none of the allowed forms; otherwise None. (There is enough memory,
    and the streams don't fail.)"""
    statuses = FORMS[asked_for(words)]
    forms = statuses.get(answer.status)
    if forms is None:
        return 'a status of %s' % ', '.join(map(str, statuses))
    for name, form, content in zip(('output', 'errors'), forms, (answer.output, answer.errors)):
        if not form.fullmatch(content):
            return '%s of the form of status %d' % (name, answer.status)
    return None
