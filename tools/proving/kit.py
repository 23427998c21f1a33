"""The kit that proves this repository."""
import os
import subprocess

from proving.copies import TOP
from proving.telling import Unmade


def words_for_anew():
    """The words with which this kit's `rt ci` takes nothing from earlier runs: none, if it never does."""
    came = subprocess.run(['rt', 'help'], stdin=subprocess.DEVNULL, stdout=subprocess.PIPE, stderr=subprocess.DEVNULL,
                          encoding='utf-8', errors='replace', check=False)
    return ['--anew'] * ('--anew' in came.stdout)


def kit():
    """What `rt version` prints; raises if that is no kit of this repository's logic. (All kits of this logic prove the same.)"""
    with open(os.path.join(TOP, 'tools', 'proving', 'LOGIC'), encoding='ascii') as it:
        logic = it.read().strip()
    try:
        came = subprocess.run(['rt', 'version'], stdin=subprocess.DEVNULL, stdout=subprocess.PIPE, stderr=subprocess.DEVNULL,
                              encoding='utf-8', errors='replace', check=False)
    except FileNotFoundError as error:
        raise Unmade('the command rt of the Rattle kit is not in the PATH, and the program is not built yet') from error
    told = ' '.join(came.stdout.split()) if came.returncode == 0 else ''
    if ' logic %s ' % logic not in ' %s ' % told:
        raise Unmade('this needs a Rattle kit of the logic %s, but `rt version` says: %s' % (logic, told or 'nothing'))
    return told
