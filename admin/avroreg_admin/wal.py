"""SQLite's write-ahead log: its header, its frames, and the chain of their checksums.

The log of a database F is F-wal. It begins with a header of 32 bytes. Each frame is a header of 24
bytes and a page. A frame's checksum continues that of the frame before, so a chain of checksums
runs through the whole log. The last frame of a transaction is a commit frame. The next start reads
the log up to the last commit frame before the chain breaks, and ignores the rest.

The guard loads this module, so it imports little. It opens nothing for writing.
"""

import os
import struct

HEADER_BYTES = 32
FRAME_HEADER_BYTES = 24
# A server that was killed right after its start may leave a shorter log, with an unfinished header and no frame.
FIRST_FRAME_BYTES = HEADER_BYTES + FRAME_HEADER_BYTES
MAGIC_NUMBERS = (b"\x37\x7f\x06\x82", b"\x37\x7f\x06\x83")
PAGE_BYTES = tuple(1 << power for power in range(9, 17))


def log_of(database) -> str:
    """The write-ahead log of a database."""
    return f"{database}-wal"


def add_checksum(state: tuple[int, int], data: bytes, is_big_endian: bool) -> tuple[int, int]:
    """SQLite's checksum of these bytes, continued from an earlier one."""
    words = struct.unpack((">" if is_big_endian else "<") + f"{len(data) // 4}I", data)
    first, second = state
    for even, odd in zip(words[::2], words[1::2]):
        first = first + even + second & 0xFFFFFFFF
        second = second + odd + first & 0xFFFFFFFF
    return first, second


def is_big_endian(header: bytes) -> bool:
    """The last bit of the magic number gives the order of bytes for checksums."""
    return bool(header[3] & 1)


def is_valid(header: bytes) -> bool:
    """Whether these bytes are a whole header with its magic number and its checksum."""
    if len(header) != HEADER_BYTES or not header.startswith(MAGIC_NUMBERS):
        return False
    return struct.pack(">2I", *add_checksum((0, 0), header[:24], is_big_endian(header))) == header[24:]


def opened(path) -> int:
    """A descriptor for reading. Refuses links, and doesn't wait for a pipe's writer."""
    return os.open(path, os.O_RDONLY | os.O_NOFOLLOW | os.O_NONBLOCK | os.O_CLOEXEC)


def valid_header(log) -> bytes | None:
    """The header of a log, or None if it is missing, is being rewritten or is damaged."""
    try:
        descriptor = opened(log)
    except FileNotFoundError:
        return None
    with open(descriptor, "rb") as file:
        header = file.read(HEADER_BYTES)
    return header if is_valid(header) else None


def page_bytes_of(header: bytes) -> int:
    """The size of a page, or 0 if SQLite has no such size."""
    (size,) = struct.unpack(">I", header[8:12])
    return size if size in PAGE_BYTES else 0


def chain_of(log, header: bytes, page_bytes: int) -> tuple[int, int, int]:
    """Follows the chain of an opened log that is positioned behind its header.

    Returns the number of frames and of commit frames up to the break, and of commit frames of this log behind it.
    """
    state = struct.unpack(">2I", header[24:])
    frames = commits = later = 0
    holds = True
    while len(frame := log.read(FRAME_HEADER_BYTES + page_bytes)) == FRAME_HEADER_BYTES + page_bytes:
        has_salts, is_commit = frame[8:16] == header[16:24], frame[4:8] != b"\0\0\0\0"
        if holds:
            state = add_checksum(state, frame[:8] + frame[FRAME_HEADER_BYTES:], is_big_endian(header))
            holds = has_salts and struct.pack(">2I", *state) == frame[16:24]
        frames += holds
        commits += holds and is_commit
        later += not holds and has_salts and is_commit
    return frames, commits, later


def fault_of(log, page_bytes: int = 0) -> str:
    """Why the next start would drop acknowledged writes of this log, or an empty text.

    One commit frame behind a break of the chain is a torn last transaction, as after a power cut. Two are a damage. A missing
    or short log has no frame. `page_bytes` is the size of F's pages, if it is known: a log of another size isn't F's.
    """
    try:
        descriptor = opened(log)
    except FileNotFoundError:
        return ""
    with open(descriptor, "rb") as file:
        if os.fstat(descriptor).st_size < FIRST_FRAME_BYTES:
            return ""
        header = file.read(HEADER_BYTES)
        size = page_bytes_of(header) if is_valid(header) else 0
        if not size or page_bytes and size != page_bytes:
            return f"the header of {log} is invalid"
        frames, _, later = chain_of(file, header, size)
    return f"{log} is damaged after frame {frames}: {later} later writes would be dropped" if later > 1 else ""
