"""Of the network of a sandbox: what keeps it from carrying notes of other sandboxes.

Linux chooses the port of a new connection by a table that all networks of a machine
share, and goes on there by two or more each time. So a program that connects to itself
again and again sets a number for others: for some seconds, and on older systems for
good. Where only two ports can be chosen, the first that is free is, and that tells
nothing.
"""
import ctypes
import fcntl
import os

# the only ports that a program's connections come from
PORTS = "32768 32769"
RANGE = "/proc/sys/net/ipv4/ip_local_port_range"
# of Linux: which users a network belongs to, and what is entered
NS_GET_USERNS = 0xB701
NEW_USER = 0x10000000
NEW_NET = 0x40000000
LIBC = ctypes.CDLL(None, use_errno=True)


class NetworkSetupError(OSError):
    """A network cannot be bounded."""


def bound(process: int) -> None:
    """Bounds the network of a process of a sandbox, before its program begins. A child
    enters that network: who has entered it cannot come back."""
    child = os.fork()
    if child == 0:
        status = 1
        try:
            write_range(process)
            status = 0
        finally:
            os._exit(status)
    if os.waitpid(child, 0)[1] != 0:
        raise NetworkSetupError(
            f"{RANGE} cannot be written for the network of a sandbox"
        )


def write_range(process: int) -> None:
    """Enters the network of a process, as whoever may set it up, and writes its range
    of ports."""
    network = os.open(f"/proc/{process}/ns/net", os.O_RDONLY)
    owner = fcntl.ioctl(network, NS_GET_USERNS)
    for namespace, kind in ((owner, NEW_USER), (network, NEW_NET)):
        if LIBC.setns(namespace, kind) != 0:
            raise NetworkSetupError(ctypes.get_errno())
    descriptor = os.open(RANGE, os.O_WRONLY)
    os.write(descriptor, PORTS.encode())
