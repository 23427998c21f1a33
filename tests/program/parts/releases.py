"""Archives by `tools/release`, over a small repository with a stand-in for `rt`: what is in them, and what stops them."""
import os
import re
import shutil
import signal
import subprocess
import tempfile
from contextlib import contextmanager
from functools import partial

from harness import process
from harness.small_repository import REPOSITORY, differs, end, scene
from parts.shrunk import DELIVERED_TWICE

NAME = 'totem-1.2.3-x86_64-linux'
BUILT = '#!/bin/sh\necho totem 1.2.3\n'
RUN = 'totem-run 1\nend\n'
# Names that a line of a list has to spell in another way, or that a shell takes apart.
NAMES = ('first.run', 'a b.run', "a'b.run", 'a"b.run', 'a\nb.run', 'a\\b.run', '-a.run', 'ä.run', '$(a).run')


def prepare(it):
    """What a release needs."""
    it.write('examples/first.run', RUN)
    shutil.copytree(os.path.join(REPOSITORY, 'docs'), os.path.join(it.top, 'docs'))
    for name in ('README.md', 'CHANGELOG.md'):
        shutil.copy(os.path.join(REPOSITORY, name), it.top)
    # (the real one takes no script)
    it.replace('strip', '#!/bin/sh\ncp "$4" "$3"\n')
    it.say(built=BUILT)


def folder_of(it):
    """Where the archive comes."""
    return os.path.join(it.top, 'released')


def unpack(it):
    """Unpacks the archive. The lines of PROVED.txt, and what `sha256sum -c` says if anything is wrong."""
    came = subprocess.run('sha256sum -c --quiet %s.tar.gz.sha256 && tar xzf %s.tar.gz && cd %s && sha256sum -c --quiet SHA256SUMS && '
                          './totem >&2 && cat PROVED.txt' % (NAME, NAME, NAME), shell=True, cwd=folder_of(it), env=it.environment,
                          capture_output=True, text=True, check=False)
    return came.stdout.splitlines(), came.returncode or came.stderr != 'totem 1.2.3\n' and came.stderr


def commit(it):
    """Makes a commit of the repository, and returns its name."""
    words = ['git', '-c', 'user.name=a', '-c', 'user.email=a@b', '-C', it.top]
    it.write('.gitignore', 'out/\nreleased/\n')
    subprocess.run([*words, 'init', '-q'], check=True, env=it.environment)
    subprocess.run([*words, 'add', '.'], check=True, env=it.environment)
    subprocess.run([*words, 'commit', '-qm', 'a'], check=True, env=it.environment)
    return subprocess.run([*words, 'rev-parse', 'HEAD'], check=True, env=it.environment, capture_output=True, text=True).stdout.strip()


def release(_program):
    """The archive has the program, the examples, the lines of what was proved, and correct checksums."""
    with scene() as it:
        prepare(it)
        it.say(kept='low\n')
        came = it.run_tool('tools/release', folder_of(it))
        wrong = differs(came, 0, os.path.join(folder_of(it), NAME + '.tar.gz') + '\n', '3 of 3 proved')
        if wrong or it.told('calls') != ['version', 'ci --anew', 'version']:
            return wrong or 'rt was called so: %r' % it.told('calls')
        lines, trouble = unpack(it)
        wanted = ['%s: logic=proved functions=1' % crate for crate in ('low', 'high', 'totem')]
        return trouble or (lines[1] != 'commit: unknown' or lines[4:] != wanted) and 'it has: %r' % lines


def dead_links(folder):
    """The links in the pages of a folder that lead to no file, or to no title of a page."""
    for at, _, names in os.walk(folder):
        for name in (name for name in names if name.endswith('.md')):
            with open(os.path.join(at, name), encoding='utf-8') as page:
                links = re.findall(r'\]\(([^)]*)\)', page.read())
            for link in links:
                path, _, title = link.partition('#')
                path = os.path.join(at, path) if path else os.path.join(at, name)
                if not os.path.exists(path) or title and title not in titles(path):
                    yield '%s: %s' % (name, link)


def titles(path):
    """The titles of a page, as links name them."""
    with open(path, encoding='utf-8') as page:
        lines = re.findall(r'(?m)^#+ (.*)', page.read())
    return [re.sub(r'[^\w -]', '', line.lower()).replace(' ', '-') for line in lines]


def commands(path, title):
    """The commands in a section of a page."""
    with open(path, encoding='utf-8') as page:
        section = page.read().partition('\n## %s\n' % title)[2].partition('\n## ')[0]
    return re.findall(r'(?m)^    (.*)', section)


@contextmanager
def archive(program):
    """An archive with the real program and the real examples, unpacked; nothing is left of the repository that it came from."""
    with scene() as it, tempfile.TemporaryDirectory() as elsewhere:
        prepare(it)
        it.say(built='#!/bin/sh\nexec %s "$@"\n' % program)
        shutil.rmtree(os.path.join(it.top, 'examples'))
        shutil.copytree(os.path.join(REPOSITORY, 'examples'), os.path.join(it.top, 'examples'))
        came = it.run_tool('tools/release', folder_of(it))
        shutil.unpack_archive(came.output.decode().strip(), elsewhere)
        shutil.rmtree(it.top)
        yield os.path.join(elsewhere, *os.listdir(elsewhere))


def shell(line, folder, **environment):
    """The answer of a shell to a line in this folder."""
    came = subprocess.run(['sh', '-c', line], cwd=folder, env={**process.ENVIRONMENT, **environment}, capture_output=True, check=False,
                          timeout=process.allowed(process.SECONDS))
    return process.Answer(came.returncode, came.stdout, came.stderr)


def content_of(*path):
    """What is in a file."""
    with open(os.path.join(*path), 'rb') as file:
        return file.read()


def archive_suffices(program):
    """With the archive alone the commands of its README join, explain, shrink, audit and check; its recorder explains itself; its links lead
    somewhere."""
    with archive(program) as folder:
        dead = list(dead_links(folder))
        if dead:
            return 'the links lead nowhere: %s' % dead
        answers = [shell(line, folder) for line in commands(os.path.join(folder, 'README.md'), 'From logs to a verdict')]
        is_right = [answer.status for answer in answers] == [0, 0, 0, 1, 0, 0, 0] and answers[-1].output == b'verdict yes\nend\n'
        helped = shell('tools/record --help', folder)
        if helped.status or b'docs/COROSYNC.md' not in helped.output:
            return 'tools/record came: %s' % helped
        shown = shell("tools/play --run '--nodes 2 --ticks 8'", folder)
        if shown.status or not shown.output.startswith(b'tick 1:\n'):
            return 'tools/play came: %s' % shown
        is_noted = any(b'note:' in answer.errors for answer in answers)
        if not is_right or is_noted or content_of(folder, 'small.run') != DELIVERED_TWICE:
            return 'came: %s' % '\n  '.join(map(str, answers))
    return None


def script_of_page(logs, status, kept, program):
    """The script of docs/CI.md has the status of the verdict, also when it is called again, and keeps these files."""
    with archive(program) as folder, tempfile.TemporaryDirectory() as room:
        script, = re.findall(r'(?ms)^```sh\n(.*?)^```', content_of(folder, 'docs', 'CI.md').decode())
        with open(os.path.join(room, 'judge.sh'), 'w', encoding='ascii') as file:
            file.write(script)
        os.mkdir(os.path.join(room, 'empty'))
        for _ in range(2):
            came = shell('sh judge.sh %s' % logs.replace('EXAMPLES', os.path.join(folder, 'examples')), room, TOTEM=folder)
            there = sorted(os.listdir(os.path.join(room, 'kept')))
            explained = content_of(room, 'kept', 'explained') if 'explained' in there else b''
            if (came.status, came.output, there) != (status, explained, kept.split()):
                return 'came: %s, and there is %r' % (came, there)
    return None


# The words for the script of docs/CI.md, its status, and what it keeps.
JUDGED = {
    'a yes': ('EXAMPLES/own-logs kept', 0, 'changes explained my.map my.run'),
    'a yes with what is known': ('EXAMPLES/own-logs kept --failed 3 --quiet all', 0, 'changes explained my.map my.run'),
    'a no': ('EXAMPLES/logs/lost-tail kept', 1, 'changes explained my.map my.run my.svg report small small.run'),
    'a refusal': ('EXAMPLES/logs/lost-first-life kept --lives --member r4.1=2:1', 2, 'changes explained my.map my.run'),
    'no logs': ('empty kept', 2, 'my.run'),
}


def release_names(_program):
    """Any name of an example is in the archive, and its checksum is right."""
    with scene() as it:
        prepare(it)
        for name in NAMES:
            it.write('examples/' + name, RUN)
        wrong = differs(it.run_tool('tools/release', folder_of(it)), 0, os.path.join(folder_of(it), NAME + '.tar.gz') + '\n')
        trouble = wrong or unpack(it)[1]
        came = sorted(os.listdir(os.path.join(folder_of(it), NAME, 'examples'))) if not trouble else []
        return trouble or came != sorted(NAMES) and 'the examples are: %r' % came


def release_of_commit(change, wanted, _program):
    """PROVED.txt names the commit of the sources that were proved, and says if they differ from it."""
    with scene() as it:
        prepare(it)
        name = commit(it)
        change(it)
        wrong = differs(it.run_tool('tools/release', folder_of(it)), 0, os.path.join(folder_of(it), NAME + '.tar.gz') + '\n')
        lines, trouble = ([], wrong) if wrong else unpack(it)
        return trouble or lines[1] != 'commit: ' + name + wanted and 'it says: %r' % lines[1]


# What happens after a commit, and what is said of it.
AFTER = {
    'nothing': (lambda it: None, ''),
    'another source': (lambda it: it.write('crates/low/src/lib.rt', 'fn g() {}\n'), ', with changes'),
    'one source more': (lambda it: it.write('crates/low/src/more.rt', 'fn g() {}\n'), ', with changes'),
    'a source that git ignores': (lambda it: (it.write('.gitignore', '*.rt\nreleased/\n'), it.write('crates/low/src/more.rt', '')), ', with changes'),
    'one source less': (lambda it: os.remove(os.path.join(it.top, 'crates/low/src/lib.rt')), ', with changes'),
    'other handles': (lambda it: it.write('HANDLES', 'Handles allowed: none.\n'), ', with changes'),
    'another line of crates.txt': (lambda it: it.write('crates.txt', 'low:\nhigh: low\ntotem: low high\n'), ', with changes'),
    'a crate that no program uses': (lambda it: it.write('crates/other/src/lib.rt', 'fn g() {}\n'), ''),
}


def release_in_hook(_program):
    """Where git's variables name another repository, as in a hook, the commit is still that of this one."""
    with scene() as it, scene() as other:
        prepare(it)
        name = commit(it)
        commit(other)
        it.environment.update(GIT_DIR=os.path.join(other.top, '.git'), GIT_WORK_TREE=other.top)
        wrong = differs(it.run_tool('tools/release', folder_of(it)), 0, os.path.join(folder_of(it), NAME + '.tar.gz') + '\n')
        lines, trouble = ([], wrong) if wrong else unpack(it)
        return trouble or lines[1] != 'commit: ' + name and 'it says: %r' % lines[1]


def release_kept(_program):
    """With --kept the kit is the one that proved the program, not the one of today."""
    with scene() as it:
        prepare(it)
        it.run('prove')
        with open(os.path.join(it.stand_in, 'version'), encoding='ascii') as file:
            version = file.read()
        it.say(version=version.replace('-0', '-1'))
        wrong = differs(it.run_tool('tools/release', '--kept', folder_of(it)), 0, os.path.join(folder_of(it), NAME + '.tar.gz') + '\n')
        lines, trouble = ([], wrong) if wrong else unpack(it)
        return trouble or lines[0] != 'kit: ' + version.strip() and 'it says: %r' % lines[0]


def release_beside_proof(_program):
    """A release waits until another call has proved, and that one's program is not taken for one that was proved from nothing."""
    with scene() as it:
        prepare(it)
        it.say(slow='high\n', seconds='2')
        first = it.start('prove')
        it.is_slow_at()
        second = it.start_tool('tools/release', folder_of(it))
        wrong = differs(end(first), 0, '', '3 of 3')
        wrong = wrong or differs(end(second), 0, os.path.join(folder_of(it), NAME + '.tar.gz') + '\n', 'totem: another call is proving here; waiting')
        return wrong or (it.told('calls').count('ci --anew') != 1 and 'rt was called so: %r' % it.told('calls'))


def proof_beside_release(_program):
    """A call waits until a release is made."""
    with scene() as it:
        prepare(it)
        it.say(slow='high\n', seconds='2')
        first = it.start_tool('tools/release', folder_of(it))
        it.is_slow_at()
        second = it.start('prove')
        wrong = differs(end(first), 0, os.path.join(folder_of(it), NAME + '.tar.gz') + '\n', '3 of 3')
        wrong = wrong or differs(end(second), 0, '', 'totem: another call is proving here; waiting')
        return wrong or ([call for call in it.told('calls') if call != 'version'] != ['ci --anew'] and 'rt was called so: %r' % it.told('calls'))


# What stops a release: something that happens before it, and what is said.
STOPS = {
    'a strip that fails': (lambda it: it.replace('strip', '#!/bin/sh\nexit 1\n'), 'totem: there is no release: strip ended with status 1'),
    'a program that names no version': (lambda it: it.say(built='#!/bin/sh\necho "Totem 1/../2"\n'), 'totem: there is no release: the program names no version'),
    'a program that fails': (lambda it: it.say(built='#!/bin/sh\nexit 3\n'), 'totem: there is no release: the program ended with status 3'),
    'a crate that is not proved': (lambda it: it.say(refused='high\n'), 'totem: high was not proved'),
    'no examples': (lambda it: os.rename(os.path.join(it.top, 'examples'), os.path.join(it.top, 'other')), 'examples'),
    'a kit that says nothing': (lambda it: it.say(version=''), 'this needs a Rattle kit'),
}


def stop(how, told, words, _program):
    """Nothing is written."""
    with scene() as it:
        prepare(it)
        how(it)
        wrong = differs(it.run_tool('tools/release', *words, folder_of(it)), 70, '', told)
        return wrong or (os.listdir(folder_of(it)) and 'there is %r' % os.listdir(folder_of(it)))


def change_after_proof(_program):
    """A source that changes while the program is proved from nothing: the program is not that of the sources."""
    with scene() as it:
        prepare(it)
        it.say(slow='high\n', seconds='1')
        started = it.start_tool('tools/release', folder_of(it))
        it.is_slow_at()
        it.write('crates/low/src/lib.rt', 'fn g() {}\n')
        wrong = differs(end(started), 70, '', 'totem: there is no release: a source changed since the program was proved')
        return wrong or (os.listdir(folder_of(it)) and 'there is %r' % os.listdir(folder_of(it)))


def interrupt(_program):
    """An interrupt has the status 130, and leaves nothing."""
    with scene() as it:
        prepare(it)
        it.say(slow='high\n', seconds='60')
        started = it.start_tool('tools/release', folder_of(it))
        it.is_slow_at()
        os.killpg(started.pid, signal.SIGINT)
        wrong = differs(end(started), 130, '', 'totem: interrupted: 1 of 3')
        return wrong or (os.listdir(folder_of(it)) and 'there is %r' % os.listdir(folder_of(it)))


def use(words, _program):
    """Usage errors get the usage and the status 64, and nothing begins."""
    with scene() as it:
        return differs(it.run_tool('tools/release', *words), 64, '', 'usage: tools/release') or (it.told('calls') and 'it began')


def releases():
    """The archive, and what stops it."""
    yield 'a release', release
    yield 'an archive that suffices', archive_suffices
    for what, given in JUDGED.items():
        yield 'the script of a page, ' + what, partial(script_of_page, *given)
    yield 'names of examples', release_names
    for what, (change, wanted) in AFTER.items():
        yield 'after a commit, ' + what, partial(release_of_commit, change, wanted)
    yield 'in a hook of another repository', release_in_hook
    yield 'a release of what is kept', release_kept
    yield 'a release beside a proof', release_beside_proof
    yield 'a proof beside a release', proof_beside_release
    for what, (how, told) in STOPS.items():
        for words in ([], ['--kept']):
            yield ' '.join([what, *words]), partial(stop, how, told, words)
    yield 'a change meanwhile', change_after_proof
    yield 'an interrupt', interrupt
    for words in ([], ['--nothing', 'a'], ['a', 'b']):
        yield 'the words ' + ' '.join(words), partial(use, words)
