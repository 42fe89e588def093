"""A product file as it is distributed: text header, message header, description block, symbology packed or plain, trailing bytes."""
from __future__ import annotations

import bz2
import os
import struct
from typing import NamedTuple, Optional, Tuple, Union

from .bzip2 import unpack
from .errors import BadFile
from .library import Library

#: The most bytes that a file may have, and that are unpacked from it. The largest picture that the library takes, 4,000,000 cells of
#: packet 28, has 16 million bytes of data.
FILE_CAP = 64 << 20
UNPACK_CAP = 32 << 20

_HEADER, _BLOCK = 18, 102
_FIRST_BLOCK, _OTHER_BLOCKS = 1, (2, 3)  # symbology; graphic and tabular blocks


class ProductFile(NamedTuple):
    """The parts of a product file. Nothing of the picture has been read yet."""

    name: str
    #: All bytes of the file up to the end of the description block.
    head: bytes
    #: Places of the AWIPS token, the message header and the description block.
    token: int
    header: int
    block: int
    code: int
    #: The unpacked symbology block, and the other blocks that stood after it.
    body: bytes
    others: bytes
    packed: bool
    trailing: bytes

    @property
    def product(self) -> str:
        """The AWIPS product, such as N0B."""
        return self.head[self.token:self.token + 3].decode("ascii")

    @property
    def site(self) -> str:
        """The site, such as LOT."""
        return self.head[self.token + 3:self.token + 6].decode("ascii")

    def with_body(self, body: bytes) -> bytes:
        """The bytes of a product file like this one with another body, packed if this one was. Other blocks are left out."""
        data = bz2.compress(body) if self.packed else body
        head = bytearray(self.head)
        struct.pack_into(">i", head, self.header + 8, _HEADER + _BLOCK + len(data))
        struct.pack_into(">h", head, self.header + 14, 3)  # blocks of the message: header, description, symbology
        struct.pack_into(">iii", head, self.block + 90, (_HEADER + _BLOCK) // 2, 0, 0)
        return bytes(head) + data + self.trailing


def read_bytes(path: Union[str, os.PathLike], cap: int = FILE_CAP) -> bytes:
    """The bytes of a file of at most cap bytes."""
    with open(path, "rb", buffering=0) as file:
        # a read takes room for all that it may give, so the first asks for what the file says it has
        size = os.fstat(file.fileno()).st_size
        data = file.read(min(size, cap) + 1)
        more = file.read(min(cap + 1 - len(data), 1 << 16)) if data and len(data) != size and len(data) <= cap else b""
        if more:
            parts = bytearray(data)
            while more and len(parts) <= cap:
                parts += more
                more = file.read(min(cap + 1 - len(parts), 1 << 20)) if len(parts) <= cap else b""
            data = bytes(parts)
    if len(data) > cap:
        raise BadFile("the file has more than %d bytes" % cap)
    return data


def split_blocks(data: bytes) -> Tuple[bytes, bytes, bytes]:
    """The symbology block at the front of data, the blocks after it, and what is left, by the lengths that the blocks declare.

    A length that does not fit the bytes is not followed: the block then goes to the end.
    """
    ends = []
    at = 0
    while len(data) - at >= 8:
        divider, number, length = struct.unpack_from(">hhi", data, at)
        if divider != -1 or not (number in _OTHER_BLOCKS if ends else number == _FIRST_BLOCK) or not 8 <= length <= len(data) - at:
            break
        at += length
        ends.append(at)
    if not ends:
        return data, b"", b""
    return data[:ends[0]], data[ends[0]:ends[-1]], data[ends[-1]:]


def parse_head(library: Library, data: bytes, name: str = "") -> ProductFile:
    """What stands plain before the body, which is left empty, and need not be one. Refused or BadFile if no product can be told from it."""
    if not data:
        raise BadFile("the file is empty")
    token = library.call("l3_token", data, len(data))[0][0]
    header = library.call("l3_message_header", data, len(data))[0][0]
    block = header + _HEADER
    code = struct.unpack_from(">h", data, header)[0]
    fields = library.call("l3_pdb", data, len(data), block)[0]
    if fields[1] != code:
        raise BadFile("the message header has product code %d, the description block %d" % (code, fields[1]))
    start = block + _BLOCK
    return ProductFile(name, data[:start], token, header, block, code, b"", b"", data[start:start + 3] == b"BZh", b"")


def parse(library: Library, data: bytes, name: str = "", cap: int = UNPACK_CAP) -> ProductFile:
    """The parts of a product file's bytes. Refused or BadFile if they are not those of one."""
    file = parse_head(library, data, name)
    block = file.block
    fields = library.call("l3_pdb", data, len(data), block)[0]
    if not (abs(fields[16]) <= 90_000 and abs(fields[17]) <= 180_000):
        raise BadFile("no such place on the earth: latitude %.3f, longitude %.3f" % (fields[16] / 1000, fields[17] / 1000))
    start = block + _BLOCK
    if len(data) < start:
        raise BadFile("the file ends %d bytes before the end of its description block" % (start - len(data)))
    offset = struct.unpack_from(">i", data, block + 90)[0]  # of the symbology, in halfwords from the message header; 0: not said
    if offset not in (0, (_HEADER + _BLOCK) // 2):
        raise BadFile("the symbology is said to stand %d halfwords after the message header, where it stands %d after it"
                      % (offset, (_HEADER + _BLOCK) // 2))
    if file.packed:
        inside, trailing = unpack(data, start, cap)
        body, others, left = split_blocks(inside)
        if left:
            body, others = inside, b""
    else:
        if len(data) - start > cap:
            raise BadFile("the body has more than %d bytes" % cap)
        body, others, trailing = split_blocks(data[start:])
    library.call("l3_trailing", trailing, len(trailing))
    return file._replace(body=body, others=others, trailing=trailing)


def open_product(library: Library, source: Union[str, os.PathLike, bytes], cap: int = UNPACK_CAP) -> ProductFile:
    """A product file by its path or its bytes."""
    if isinstance(source, (bytes, bytearray, memoryview)):
        return parse(library, bytes(source), "", cap)
    return parse(library, read_bytes(source), os.fspath(source), cap)


def places(body: bytes, most_radials: int, most_cells: int) -> Tuple[int, int]:
    """How many radials and cells an accepted sweep of this body can have at the most."""
    packet: Optional[int] = struct.unpack_from(">H", body, 16)[0] if len(body) >= 30 else None
    if packet in (16, 0xAF1F):
        bins, radials = struct.unpack_from(">H6xH", body, 20)
        return radials, min(radials * bins, most_cells)
    return min(len(body) // 24, most_radials), min(len(body) // 4, most_cells)  # a radial of packet 28 has 24 bytes, a cell 4
