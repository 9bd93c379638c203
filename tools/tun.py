"""TUN devices and network namespaces of Linux, for gateway.py and bridge.py. It needs only Python's standard library."""
import contextlib
import ctypes
import errno
import fcntl
import os
import socket
import struct

SET_DEVICE, GET_DEVICE, GET_NAMESPACE, GET_FLAGS = 0x400454CA, 0x800454D2, 0x54E3, 0x8913  # TUNSETIFF, TUNGETIFF, TUNGETDEVNETNS, SIOCGIFFLAGS
TUN, NO_HEADER, UP, NEW_NETWORK = 0x0001, 0x1000, 0x0001, 0x40000000  # IFF_TUN, IFF_NO_PI, IFF_UP, CLONE_NEWNET
DEVICE = struct.Struct("16sH22s")  # struct ifreq: a name and flags
THIS_NAMESPACE = "/proc/self/ns/net"


def system_call(name, *words):
    """A call of the C library whose result isn't 0 on failure."""
    library = ctypes.CDLL(None, use_errno=True)
    if getattr(library, name)(*words):
        number = ctypes.get_errno()
        raise OSError(number, f"{name}: {os.strerror(number)}")


def path_of(netns):
    """The file of a namespace that `ip netns` knows by this name, or whose path this is; without a name, that of this process."""
    if not netns:
        return THIS_NAMESPACE
    return netns if "/" in netns else f"/run/netns/{netns}"


@contextlib.contextmanager
def inside(netns):
    """What is opened or started in here is in this network namespace; without a name, in the one in which it is anyway."""
    with open(THIS_NAMESPACE, "rb") as home, open(path_of(netns), "rb") as there:
        system_call("setns", there.fileno(), NEW_NETWORK)
        try:
            yield
        finally:
            system_call("setns", home.fileno(), NEW_NETWORK)


def attach(name):
    """A descriptor of the TUN device of this name, by which packets are read and written one at a time. The device is made if there is none, and then ends with
    its last descriptor."""
    device = os.open("/dev/net/tun", os.O_RDWR | os.O_NONBLOCK)
    try:
        fcntl.ioctl(device, SET_DEVICE, DEVICE.pack(name.encode(), TUN | NO_HEADER, b""))
    except OSError as why:
        os.close(device)
        raise OSError(why.errno, f"{name}: {why.strerror}") from None
    return device


def is_of(device, name, netns):
    """Whether a descriptor is of the TUN device of this name in this namespace. Where the kernel can't tell, or the device is gone, it isn't."""
    try:
        found, _, _ = DEVICE.unpack(fcntl.ioctl(device, GET_DEVICE, bytes(DEVICE.size)))
        space = fcntl.ioctl(device, GET_NAMESPACE)
        try:
            return found.rstrip(b"\0") == name.encode() and os.path.samestat(os.fstat(space), os.stat(path_of(netns)))
        finally:
            os.close(space)
    except OSError:
        return False


def is_up(name):
    """Whether the device of this name is up; None where there is no device of this name."""
    with socket.socket(socket.AF_INET, socket.SOCK_DGRAM) as link:
        try:
            _, flags, _ = DEVICE.unpack(fcntl.ioctl(link, GET_FLAGS, DEVICE.pack(name.encode(), 0, b"")))
        except OSError as why:
            if why.errno == errno.ENODEV:
                return None
            raise
    return bool(flags & UP)
