"""What another process has set of its sockets, as the system lets its parent see them."""

import ctypes
import os
import socket
import struct

# The system's call that copies an open file of another process.
PIDFD_GETFD = 438


def sockets_of(job):
    """A socket of this process for each that another one has open; None if the system does not let it be seen."""
    try:
        handle = os.pidfd_open(job)
    except (AttributeError, OSError):
        return None
    call, found = ctypes.CDLL(None, use_errno=True).syscall, []
    try:
        for number in os.listdir('/proc/%d/fd' % job):
            if os.readlink('/proc/%d/fd/%s' % (job, number)).startswith('socket:['):
                file = call(PIDFD_GETFD, handle, int(number), 0)
                if file < 0:
                    return None
                found.append(socket.socket(fileno=file))
    finally:
        os.close(handle)
    return found


def is_listening(one):
    return bool(one.getsockopt(socket.SOL_SOCKET, socket.SO_ACCEPTCONN))


def known_to_be_gone(one):
    """Within how many seconds it is known of a socket's other end that is gone without a word; 0 if it is never asked."""
    if not one.getsockopt(socket.SOL_SOCKET, socket.SO_KEEPALIVE):
        return 0
    quiet, between, questions = (one.getsockopt(socket.IPPROTO_TCP, name)
                                 for name in (socket.TCP_KEEPIDLE, socket.TCP_KEEPINTVL, socket.TCP_KEEPCNT))
    return quiet + between * questions


def options(job):
    """Of each connection that another process has open: whether its bytes leave at once; within how many seconds its
    other end is known to be gone if nothing was sent, and if something was; and for how many milliseconds a read waits.
    None if the system does not let them be seen."""
    sockets = sockets_of(job)
    if sockets is None:
        return None
    found = []
    for one in sockets:
        if not is_listening(one):
            seconds, micros = struct.unpack('ll', one.getsockopt(socket.SOL_SOCKET, socket.SO_RCVTIMEO, 16))
            found.append((bool(one.getsockopt(socket.IPPROTO_TCP, socket.TCP_NODELAY)),
                          known_to_be_gone(one),
                          one.getsockopt(socket.IPPROTO_TCP, socket.TCP_USER_TIMEOUT) // 1000,
                          1000 * seconds + micros // 1000))
        one.close()
    return sorted(found)
