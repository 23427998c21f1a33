"""Packets and nodes in words, for people who watch a script."""
from playing.node import COMMIT, GATHER, RECOVERY
from playing.packets import Commit, Join, Mark, Message, Old, Token


def spans(numbers):
    """Ascending numbers, with a dash for those in a row: 1-3 5."""
    made = []
    for number in sorted(numbers):
        if made and number == made[-1][1] + 1:
            made[-1][1] = number
        else:
            made.append([number, number])
    return ' '.join('%d' % first if first == last else '%d-%d' % (first, last) for first, last in made) or 'none'


def _message(packet):
    body = packet.body
    if isinstance(body, Mark):
        what = 'mark'
    elif isinstance(body, Old):
        what = 'old message %s#%d of %d' % (body.ring, body.number, body.sender)
    else:
        what = 'safe' if body.is_safe else 'agreed'
    return 'message %s#%d of %d (%s)' % (packet.ring, packet.number, packet.sender, what)


def _token(packet):
    held = ', aru_id %d' % packet.holder if packet.holder else ''
    asked = ', asks for ' + spans(packet.asked) if packet.asked else ''
    return 'token %d of ring %s (messages to %d, aru %d%s%s)' % (packet.token_seq, packet.ring, packet.seq, packet.aru, held, asked)


def _join(packet):
    failed = ', failed: ' + spans(packet.failed) if packet.failed else ''
    return 'join of %d (%s%s, number %d)' % (packet.sender, spans(packet.processes), failed, packet.number)


def _obliged(processes):
    return ', obliged to ' + spans(processes) if processes else ''


def _report(report):
    if not report:
        return 'no report'
    return 'ring %s, aru %d, delivered to %d%s' % (report.ring, report.aru, report.delivered, _obliged(report.obligation))


def _commit(packet):
    reports = ('%d: %s' % (member, _report(report)) for member, report in zip(packet.members, packet.reports))
    return 'commit token of ring %s, round %d (%s)' % (packet.ring, packet.round, ' / '.join(reports))


_SHOWS = {Message: _message, Token: _token, Join: _join, Commit: _commit}


def packet_text(packet):
    """A packet."""
    return _SHOWS[type(packet)](packet)


def _ring_text(ring):
    kept = ', keeps token %d' % ring.kept.token_seq if ring.kept else ''
    return 'ring %s (holds %s, delivered to %d, safe to %d%s)' % (ring.name, spans(ring.held), ring.handed, ring.safe_to, kept)


def _gathering_text(gathering):
    """Whom it takes to be there, and of the processes whose Joins it has noted, which see the same."""
    failed = '; failed: ' + spans(gathering.failed) if gathering.failed else ''
    same = [process for process, noted in gathering.noted.items() if noted == (gathering.processes, gathering.failed)]
    return 'gathers %s%s; noted Joins of %s, the same of %s' % (spans(gathering.processes), failed, spans(gathering.noted), spans(same))


def node_text(node):
    """A node's state: its rings with what it holds of them, what it waits for."""
    if node.has_crashed:
        return 'Crashed'
    parts = ['%s, %s%s' % (node.state, _ring_text(node.installed), _obliged(node.obligation))]
    if node.state == GATHER:
        parts.append(_gathering_text(node.gathering))
    elif node.state == COMMIT:
        parts.append('agrees on %s%s' % (spans(node.gathering.gathered), ', filled ring %s' % (node.filled,) if node.filled else ''))
    elif node.state == RECOVERY:
        parts.append('recovers on ' + _ring_text(node.recovery.ring))
    if node.waiting:
        parts.append('%d to send' % len(node.waiting))
    if node.quiet:
        parts.append('timer %d' % node.quiet)
    return '; '.join(parts)


def states(actors, version, names, known):
    """The nodes whose state is another one than `known` has, a line each. Then `known` has their states."""
    lines = []
    for process, actor in actors.items():
        text = 'node %d%s%s: %s' % (process, ':%d' % actor.node.life if version == 2 else '', names.beside(str(process)), node_text(actor.node))
        if known.get(process) != text:
            lines.append(text)
            known[process] = text
    return lines
