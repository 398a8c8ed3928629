"""A disk that writes down what comes to it: one file over FUSE, on which a loop device lies. It is a program
of its own, since who waits for its disk can't serve it:
python3 -m cuts.device IMAGE FOLDER EVENTS COUNT ANSWERS

IMAGE holds the bytes, and FOLDER is where the file `disk` appears. EVENTS gets each write and each flush
before it is answered, in order; COUNT is a file of 8 bytes that says how many they are. ANSWERS is what a
program has said: each event tells how long it was by then."""

import ctypes
import errno
import mmap
import os
import stat
import struct
import sys

# The numbers of requests, as linux/fuse.h has them.
LOOKUP, FORGET, GETATTR, SETATTR, OPEN, READ, WRITE, STATFS, RELEASE = 1, 2, 3, 4, 14, 15, 16, 17, 18
FSYNC, FLUSH, INIT, OPENDIR, RELEASEDIR, INTERRUPT, DESTROY, BATCH_FORGET = 20, 25, 26, 27, 29, 36, 38, 42
UNANSWERED = (FORGET, INTERRUPT, BATCH_FORGET)
ROOT, DISK = 1, 2
HEAD, ANSWER = struct.Struct("<IIQQIIIHH"), struct.Struct("<IiQ")
MOST_WRITTEN, BIG_WRITES = 131072, 1 << 5
# An event: how many bytes it has, or FLUSHED, where they are, and how many bytes of answers there were.
EVENT, FLUSHED = struct.Struct("<qqq"), -1
LONG = 3600


def mounted(folder):
    """Mounts a file system of FUSE there, for as long as this name space is: what its requests come by."""
    fd = os.open("/dev/fuse", os.O_RDWR)
    words = f"fd={fd},rootmode=40000,user_id=0,group_id=0".encode()
    libc = ctypes.CDLL(None, use_errno=True)
    if libc.mount(b"recorded", folder.encode(), b"fuse.recorded", 0, words) != 0:
        raise OSError(ctypes.get_errno(), "mount of fuse")
    return fd


class Device:
    """The file, and what it writes down."""

    def __init__(self, image, events, count, answers):
        self.image, self.answers = os.open(image, os.O_RDWR), os.open(answers, os.O_RDONLY)
        self.size = os.fstat(self.image).st_size
        self.events = open(events, "wb", buffering=0)
        self.count = mmap.mmap(os.open(count, os.O_RDWR), 8)
        self.many = 0

    def note(self, size, offset, text=b""):
        """Writes an event down. It is counted before anybody may know that it is over."""
        self.events.write(EVENT.pack(size, offset, os.fstat(self.answers).st_size) + text)
        self.many += 1
        self.count[:] = struct.pack("=q", self.many)

    def attributes(self, node):
        """What a stat of the folder or of the file says."""
        mode, size = (stat.S_IFDIR | 0o700, 0) if node == ROOT else (stat.S_IFREG | 0o600, self.size)
        return struct.pack("<6Q10I", node, size, size // 512, *[0] * 6, mode, 1, 0, 0, 0, 4096, 0)

    def begun(self, _, body):
        major, minor, readahead, _ = struct.unpack_from("<IIII", body)
        words = major, min(minor, 31), readahead, BIG_WRITES, 12, 9, MOST_WRITTEN, 1
        return struct.pack("<IIIIHHII", *words) + bytes(32)

    def looked_up(self, _, body):
        if body.rstrip(b"\0") != b"disk":
            raise OSError(errno.ENOENT, "another name")
        return struct.pack("<QQQQII", DISK, 0, LONG, LONG, 0, 0) + self.attributes(DISK)

    def asked(self, node, _):
        return struct.pack("<QII", LONG, 0, 0) + self.attributes(node)

    def opened(self, *_):
        return struct.pack("<QII", 0, 0, 0)

    def read(self, _, body):
        _, offset, size = struct.unpack_from("<QQI", body)
        return os.pread(self.image, size, offset)

    def written(self, _, body):
        _, offset, size = struct.unpack_from("<QQI", body)
        text = body[40:40 + size]
        os.pwrite(self.image, text, offset)
        self.note(size, offset, text)
        return struct.pack("<II", size, 0)

    def flushed(self, *_):
        self.note(FLUSHED, 0)
        return b""

    def nothing(self, *_):
        return b""

    def statistics(self, *_):
        return struct.pack("<5Q10I", *[0] * 5, 4096, 255, 4096, *[0] * 7)

    def answer(self, request):
        """The answer to a request; nothing to those that want none."""
        _, kind, unique, node, *_ = HEAD.unpack_from(request)
        if kind in UNANSWERED:
            return None
        try:
            if kind not in KINDS:
                raise OSError(errno.ENOSYS, "no such request")
            body, fault = KINDS[kind](self, node, request[HEAD.size:]), 0
        except OSError as told:
            body, fault = b"", -told.errno
        return ANSWER.pack(ANSWER.size + len(body), fault, unique) + body

    def serve(self, fd):
        """Answers requests until the file system is gone."""
        while True:
            try:
                request = os.read(fd, MOST_WRITTEN + 4096)
                answer = self.answer(request)
                if answer:
                    os.write(fd, answer)
            except OSError as fault:
                if fault.errno == errno.ENODEV:
                    return
                if fault.errno not in (errno.ENOENT, errno.EINTR, errno.EAGAIN):
                    raise


KINDS = {
    INIT: Device.begun, LOOKUP: Device.looked_up, GETATTR: Device.asked, SETATTR: Device.asked,
    OPEN: Device.opened, OPENDIR: Device.opened, READ: Device.read, WRITE: Device.written,
    STATFS: Device.statistics, FSYNC: Device.flushed, FLUSH: Device.nothing, RELEASE: Device.nothing,
    RELEASEDIR: Device.nothing, DESTROY: Device.nothing,
}


def main(image, folder, events, count, answers):
    device = Device(image, events, count, answers)
    fd = mounted(folder)
    print("mounted", flush=True)
    device.serve(fd)


if __name__ == "__main__":
    main(*sys.argv[1:])
