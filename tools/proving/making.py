"""Makes a program: proves it, builds it, and puts it in place."""
import os
import shutil
import traceback

from proving import leftovers, record
from proving.commit import commit_of
from proving.copies import TOP, copy_crates, crates_of, is_fresh, sum_of
from proving.kit import kit
from proving.progress import Progress
from proving.provers import Log, prove
from proving.room import check_room
from proving.telling import Unmade, tell
from running import signals, streams

LAST_LINES = 20


def out_of(program):
    """The folder in which a program is built."""
    return os.path.join(TOP, 'crates', program, 'out')


def _last_lines(path):
    """The last lines of a file."""
    with open(path, encoding='utf-8', errors='replace') as it:
        return ''.join(it.readlines()[-LAST_LINES:])


def _prove_told(crates, copies, progress, log, anew):
    """Proves the copy; if that fails, prints the last lines of the prover, or how far it came."""
    try:
        return prove(crates, copies, progress, Log(log), anew)
    except Unmade:
        streams.say(_last_lines(log.name), end='')
        raise
    except KeyboardInterrupt:
        tell('interrupted: %d of %d crates are proved, and the next call continues from there' % (len(progress.proved), len(crates)))
        raise


def _prove_logged(crates, copies, progress, path, anew):
    """Proves the copy, with all that the prover says in a file."""
    try:
        with open(path, 'w', encoding='utf-8') as log:
            return _prove_told(crates, copies, progress, log, anew)
    except OSError as error:
        if error.filename:
            raise
        raise Unmade('proving failed, and %s says how far it came: %s' % (path, error.strerror)) from error


def make(program, anew):
    """Proves and builds a program, and puts it in place, unless it is there already. Whoever calls this has the lock."""
    before = kit()
    if not anew and is_fresh(program):
        return
    room = os.path.abspath(os.environ.get('TMPDIR') or '/var/tmp')
    check_room(room)
    sources = sum_of(TOP, program)
    # (first here, so that nothing is copied of crates in no order)
    crates_of(program)
    os.makedirs(out_of(program), exist_ok=True)
    with leftovers.folder_in(room) as copies:
        folder = os.path.join(copies, 'whole')
        copy_crates(program, folder)
        if sum_of(folder, program) != sources:
            raise Unmade('a source changed while the sources were copied: call it again')
        crates = crates_of(program, folder)
        commit = commit_of(folder, program)
        progress = Progress(crates, folder)
        tell('proving and building %s, only once: %d crates, perhaps %d min on %d processors; '
             './totem try ARGUMENTS answers at once, NOT PROVED' % (
                 program, len(crates), progress.minutes(progress.seconds_left()), progress.lanes))
        said = _prove_logged(crates, copies, progress, os.path.join(out_of(program), 'build.log'), anew)
        if kit() != before:
            raise Unmade('another kit came into the PATH during the proof, so the program is not built: call it again')
        if sum_of(folder, program) != sources:
            raise Unmade('the copies in %s changed during the proof, so the program is not built' % folder)
        built = os.path.join(folder, 'crates', program, 'out', program)
        record.put_in_place(built, os.path.join(out_of(program), program), kit=before, commit=commit, sources=sources, said=said)


def end_well(call):
    """Does what `call` does, and returns its status, 70 if it could not be done, or 130 after an interrupt."""
    streams.reserve()
    signals.on_ending(signals.interrupt)
    try:
        return call()
    except KeyboardInterrupt:
        return 130
    except Unmade as why:
        tell(str(why))
        return 70
    except shutil.Error as error:
        tell('; '.join(str(it[-1]) for it in error.args[0]))
        return 70
    except OSError as error:
        tell(str(error))
        return 70
    except Exception:  # pylint: disable=broad-except
        # (1 would be taken for a verdict)
        streams.say(traceback.format_exc(), end='')
        return 70
