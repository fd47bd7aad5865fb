"""A block device that writes down what comes to it: a file of a file system in user space (FUSE), to be mounted by a loop device.

From what it wrote down, what a power loss leaves at any moment can be made: all blocks that were written before the last flush that was
done, and of those after it any. It needs root, /dev/fuse and a loop device.
"""

import ctypes
import errno
import os
import stat
import struct
import threading

BLOCK = 4096
LARGEST = 128 << 10
# the kinds of requests (linux/fuse.h)
LOOKUP, FORGET, GETATTR, SETATTR, OPEN, READ, WRITE, STATFS, RELEASE, FSYNC, FLUSH, INIT, ACCESS, INTERRUPT, DESTROY, FORGETS = (
    *(1, 2, 3, 4, 14, 15, 16, 17, 18, 20, 25, 26, 34, 36, 38, 42),
)
HEADER = struct.Struct("<IIQQIIII")
NAME = b"disk"
LIBRARY = ctypes.CDLL(None, use_errno=True)


def called(result):
    """Of a call into the C library: its result, or its error raised."""
    if result < 0:
        raise OSError(ctypes.get_errno(), os.strerror(ctypes.get_errno()))
    return result


def own_mounts():
    """From now on what this process mounts is seen by it and its children alone, and ends with them."""
    new_namespace, private, recursive = 0x00020000, 1 << 18, 1 << 14
    called(LIBRARY.unshare(new_namespace))
    called(LIBRARY.mount(b"none", b"/", None, private | recursive, None))


class Blocks:
    """The device. `moment()` is asked at each write and each flush, and kept with it."""

    def __init__(self, size, moment=lambda: None):
        self.content = bytearray(size)
        # (place, bytes, moment) of a write, (None, None, moment) of a flush
        self.done = []
        self.moment = moment
        self.is_kept = False

    def mount(self, folder):
        """Mounts it: the device is the file `disk` in the folder."""
        self.handle = os.open("/dev/fuse", os.O_RDWR)
        words = f"fd={self.handle},rootmode=40000,user_id=0,group_id=0".encode()
        called(LIBRARY.mount(b"blocks", folder.encode(), b"fuse", 0, words))
        threading.Thread(target=self.serve, daemon=True).start()

    def serve(self):
        try:
            while True:
                request = os.read(self.handle, LARGEST + 65536)
                size, kind, unique, node, *_ = HEADER.unpack_from(request)
                body = request[HEADER.size : size]
                if kind in (FORGET, FORGETS, INTERRUPT):
                    continue
                answer = self.answer(kind, node, body)
                fault, answer = (-answer, b"") if isinstance(answer, int) else (0, answer)
                os.write(self.handle, struct.pack("<IiQ", 16 + len(answer), fault, unique) + answer)
                if kind == DESTROY:
                    return
        except OSError as error:
            # (it was unmounted)
            if error.errno not in (errno.ENODEV, errno.EBADF):
                raise

    def attributes(self, node):
        is_root = node == 1
        mode = stat.S_IFDIR | 0o700 if is_root else stat.S_IFREG | 0o600
        size = 0 if is_root else len(self.content)
        return struct.pack("<QQQQQQIIIIIIIIII", node, size, size // 512, 0, 0, 0, 0, 0, 0, mode, 1, 0, 0, 0, BLOCK, 0)

    def answer(self, kind, node, body):
        """The answer's bytes, or the number of an error."""
        if kind == INIT:
            # version 7.31, and large writes
            return struct.pack("<IIIIHHIIHHI28x", 7, 31, LARGEST, 1 << 5, 16, 12, LARGEST, 1, 0, 0, 0)
        if kind == LOOKUP:
            if body.rstrip(b"\0") != NAME:
                return errno.ENOENT
            return struct.pack("<QQQQII", 2, 0, 3600, 3600, 0, 0) + self.attributes(2)
        if kind in (GETATTR, SETATTR):
            return struct.pack("<QII", 3600, 0, 0) + self.attributes(node)
        if kind == OPEN:
            return struct.pack("<QII", 1, 0, 0)
        if kind == READ:
            _, place, size = struct.unpack_from("<QQI", body)
            return bytes(self.content[place : place + size])
        if kind == WRITE:
            _, place, size = struct.unpack_from("<QQI", body)
            self.write(place, body[40 : 40 + size])
            return struct.pack("<II", size, 0)
        if kind == FSYNC:
            if self.is_kept:
                self.done.append((None, None, self.moment()))
            return b""
        if kind == STATFS:
            return struct.pack("<QQQQQIIII24x", 0, 0, 0, 2, 0, BLOCK, 255, BLOCK, 0)
        if kind in (FLUSH, RELEASE, ACCESS, DESTROY):
            return b""
        return errno.ENOSYS

    def write(self, place, content):
        self.content[place : place + len(content)] = content
        if self.is_kept:
            self.done.append((place, content, self.moment()))
