"""Corosync's library of closed process groups, `libcpg`, with the numbers and structures of its header corosync/cpg.h."""
import ctypes
from ctypes import CFUNCTYPE, POINTER, Structure, byref, c_char, c_int, c_size_t, c_uint, c_uint32, c_uint64, c_void_p

from recording.views import Member, Moved

NAME = 'libcpg.so.4'
OK, TRY_AGAIN, ACCESS, TOO_BIG = 1, 6, 11, 26
# The answers if the daemon is gone.
GONE = 2, 9
# What the errors mean, as far as the library says it.
ERRORS = {2: 'library error', 3: 'version error', 4: 'initialization error', 5: 'timeout', 6: 'try again', 7: 'invalid parameter', 8: 'no memory',
          9: 'bad handle', 10: 'busy', 11: 'no right', 12: 'does not exist', 13: 'name too long', 14: 'exists already', 15: 'no space',
          16: 'interrupted', 18: 'no resources', 19: 'not supported', 20: 'bad operation', 21: 'failed operation', 22: 'message error',
          23: 'queue full', 25: 'bad flags', 26: 'too big', 28: 'context not found', 30: 'too many groups', 100: 'security error'}
MODEL, AGREED, DISPATCH_ALL, INITIAL_RING = 1, 2, 2, 1
MOST_OF_A_NAME = 128


class _Name(Structure):
    _fields_ = [('length', c_uint32), ('value', c_char * MOST_OF_A_NAME)]


class _Address(Structure):
    _fields_ = [('node', c_uint32), ('process', c_uint32), ('reason', c_uint32)]


class _Ring(Structure):
    _fields_ = [('node', c_uint32), ('number', c_uint64)]


class _Piece(Structure):
    _fields_ = [('base', c_void_p), ('length', c_size_t)]


_Handle = c_uint64
_DELIVER = CFUNCTYPE(None, _Handle, POINTER(_Name), c_uint32, c_uint32, c_void_p, c_size_t)
_GROUP = CFUNCTYPE(None, _Handle, POINTER(_Name), POINTER(_Address), c_size_t, POINTER(_Address), c_size_t, POINTER(_Address), c_size_t)
_RING = CFUNCTYPE(None, _Handle, _Ring, c_uint32, POINTER(c_uint32))


class _Model(Structure):
    _fields_ = [('model', c_int), ('deliver', _DELIVER), ('group', _GROUP), ('ring', _RING), ('flags', c_uint)]


class Failed(Exception):
    """A call of the library failed."""

    def __init__(self, call, error):
        super().__init__('%s: error %d of libcpg (%s)' % (call, error, ERRORS.get(error, 'unknown')))
        self.error = error


def load():
    """The library. Raises an OSError if it is not installed."""
    library = ctypes.CDLL(NAME)
    library.cpg_model_initialize.argtypes = [POINTER(_Handle), c_int, c_void_p, c_void_p]
    library.cpg_local_get.argtypes = [_Handle, POINTER(c_uint)]
    library.cpg_fd_get.argtypes = [_Handle, POINTER(c_int)]
    library.cpg_join.argtypes = [_Handle, POINTER(_Name)]
    library.cpg_leave.argtypes = [_Handle, POINTER(_Name)]
    library.cpg_mcast_joined.argtypes = [_Handle, c_int, POINTER(_Piece), c_uint]
    library.cpg_dispatch.argtypes = [_Handle, c_int]
    return library


class Group:
    """A connection to the daemon, and a group of processes. The callbacks are methods of `listener`: `group(members, left, joined)`,
    `ring_changed(representative, number, nodes)` and `message(node, process, contents)`."""

    def __init__(self, library, listener, name):
        self.library = library
        self.name = _Name(len(name), name)
        self.handle = _Handle()
        # What a callback raised: the library can't hand it on.
        self.raised = None
        callbacks = (_DELIVER(self._guarded(self._deliver)), _GROUP(self._guarded(self._change)), _RING(self._guarded(self._ring)))
        self.listener, self.model = listener, _Model(MODEL, *callbacks, INITIAL_RING)

    def _guarded(self, call):
        def guarded(*given):
            try:
                if self.raised is None:
                    call(*given)
            except BaseException as error:  # pylint: disable=broad-exception-caught
                self.raised = error
        return guarded

    def _deliver(self, _handle, _name, node, process, contents, length):
        self.listener.message(node, process, ctypes.string_at(contents, length))

    def _change(self, _handle, _name, *lists):
        members, left, joined = ([them[index] for index in range(count)] for them, count in zip(lists[::2], lists[1::2]))
        self.listener.group([Member(it.node, it.process) for it in members],
                            *([Moved(Member(it.node, it.process), it.reason) for it in them] for them in (left, joined)))

    def _ring(self, _handle, ring, count, nodes):
        self.listener.ring_changed(ring.node, ring.number, [nodes[index] for index in range(count)])

    def connect(self):
        """Connects to the daemon. Returns the library's answer."""
        return self.library.cpg_model_initialize(byref(self.handle), MODEL, byref(self.model), None)

    def node(self):
        """The number of this node, or None if the daemon is too busy to say it."""
        node = c_uint()
        return node.value if self._is_done('cpg_local_get', self.library.cpg_local_get(self.handle, byref(node))) else None

    def descriptor(self):
        """A file descriptor that can be read when callbacks wait."""
        descriptor = c_int()
        self._is_done('cpg_fd_get', self.library.cpg_fd_get(self.handle, byref(descriptor)))
        return descriptor.value

    def join(self):
        """Asks to join the group. Returns False if the daemon is too busy."""
        return self._is_done('cpg_join', self.library.cpg_join(self.handle, byref(self.name)))

    def leave(self):
        """Asks to leave the group. Returns False if the daemon is too busy."""
        return self._is_done('cpg_leave', self.library.cpg_leave(self.handle, byref(self.name)))

    def send(self, contents):
        """Hands a message over. Returns False if the daemon is too busy."""
        piece = _Piece(ctypes.cast(ctypes.c_char_p(contents), c_void_p), len(contents))
        return self._is_done('cpg_mcast_joined', self.library.cpg_mcast_joined(self.handle, AGREED, byref(piece), 1))

    def dispatch(self):
        """Makes the callbacks that wait."""
        answer = self.library.cpg_dispatch(self.handle, DISPATCH_ALL)
        if self.raised is not None:
            raise self.raised
        self._is_done('cpg_dispatch', answer)

    @staticmethod
    def _is_done(call, answer):
        if answer not in (OK, TRY_AGAIN):
            raise Failed(call, answer)
        return answer == OK
