"""Cases that have to be type errors, each with a twin that compiles."""
import os
import re
import shutil
import subprocess
from concurrent.futures import ThreadPoolExecutor
from dataclasses import dataclass

from harness import process

HOSTILE = os.path.dirname(os.path.dirname(os.path.abspath(__file__)))
REPOSITORY = os.path.dirname(os.path.dirname(HOSTILE))
FOLDER = os.path.join(HOSTILE, 'not_compiled')
HEAD = re.compile(r'(?m)^// (uses|error|right|wrong): (.*)$')
TEST = '#[cfg(test)]\n#[test]\nfn is_compiled() {}\n'
SECONDS = 300


@dataclass(frozen=True)
class Case:
    """A module, the crates that it uses, the text that is changed in it, and the error that this
    makes."""

    name: str
    uses: tuple
    error: str
    right: str
    wrong: str
    module: str

    def changed(self):
        """The module with its error."""
        return self.module.replace(self.right, self.wrong)


def read(name):
    """Reads a case: lines that say what is changed, and then the module."""
    with open(os.path.join(FOLDER, name + '.case'), encoding='utf-8') as it:
        text = it.read()
    said = dict(HEAD.findall(text))
    module = re.sub(r'(?m)^//.*\n', '', text)
    return Case(name, tuple(said['uses'].split()), said['error'], said['right'], said['wrong'], module)


def compiled(folder, cases, modules):
    """What `rt try --test` prints for a crate of these modules, in a copy of the repository. Nothing is
    proved."""
    without = shutil.ignore_patterns('out', 'must-fail', 'proofs')
    shutil.copytree(os.path.join(REPOSITORY, 'crates'), os.path.join(folder, 'crates'), ignore=without)
    for name in ('crates.txt', 'HANDLES'):
        shutil.copy(os.path.join(REPOSITORY, name), folder)
    subprocess.run(['git', 'init', '-q'], cwd=folder, check=True)
    crate = os.path.join(folder, 'crates', 'case')
    os.makedirs(os.path.join(crate, 'src'))
    with open(os.path.join(folder, 'crates.txt'), 'a', encoding='utf-8') as it:
        it.write('\ncase: %s\n' % ' '.join(sorted({used for case in cases for used in case.uses})))
    files = {case.name: module for case, module in zip(cases, modules)}
    files['lib'] = '#![tactic(auto)]\n' + ''.join('mod %s;\n' % case.name for case in cases) + TEST
    for name, text in files.items():
        with open(os.path.join(crate, 'src', name + '.rt'), 'w', encoding='utf-8') as it:
            it.write(text)
    ran = subprocess.run(['rt', 'try', '--test'], cwd=crate, stdin=subprocess.DEVNULL, stdout=subprocess.PIPE,
                         stderr=subprocess.STDOUT, timeout=process.allowed(SECONDS), check=False)
    return ran.returncode, ran.stdout.decode(errors='replace')


def not_compiled(asked, tally):
    """All cases make one crate. Unchanged, it compiles; with all changes, it has the error of each case, and
    no other."""
    cases = [read(name[:-5]) for name in sorted(os.listdir(FOLDER)) if name.endswith('.case')]
    for case in cases:
        if case.module.count(case.right) != 1:
            came = 'stands there %d times' % case.module.count(case.right)
            tally.judge(case.name, 'the text that is changed', came, 'once')
    folders = [os.path.join(asked.folder, 'not-compiled', name) for name in ('right', 'wrong')]
    modules = [[case.module for case in cases], [case.changed() for case in cases]]
    for folder in folders:
        os.makedirs(folder)
    with ThreadPoolExecutor(asked.jobs) as pool:
        runs = pool.map(lambda folder, texts: compiled(folder, cases, texts), folders, modules)
        (status, told), (_, refused) = runs
    is_compiled = status == 0 and 'test is_compiled ... ok' in told
    came = 'they compile' if is_compiled else told[-2000:]
    tally.judge('all cases', 'as they stand', came, 'they compile')
    errors = re.findall(r'(?m)^src/(\w+)\.rt:\d+:\d+: error\[([\w-]+)\]', refused)
    for case in cases:
        came = [error for name, error in errors if name == case.name]
        tally.judge(case.name, 'with %r' % case.wrong, came or refused[-2000:], [case.error])
