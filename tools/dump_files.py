"""Makes the files that transcripts of ptdump read, of their lines after '@ '.

    @ file dump raw 16 frames from 0x100000    begins the file `dump`: physical memory from an address on (0 if none is said)
    @ 0x100000[3] 0x2003                       a word of a table: the address of its frame, its index and its value
    @ 0x100000[3] 0x2003 [4] 0x3003            several words of a table
    @ 0x100000[0-9] 0x2003                     equal words, from one index to another; [*] is every index
    @ 0x100000[0-9] 0x2003 by 0x1000           words of which each is greater by a step
    @ line 0x100018 OSRELEASE=6.1.0            a line of text in memory, from an address on
    @ line NUMBER(phys_base)=0                 likewise behind the line before
    @ line_end NUMBER(phys_base)=0             likewise without a line feed
    @ file dump core                           an ELF core as QEMU writes it: a segment of notes, and the segments below
    @ processor 0x9000 0x1020                  a note of QEMU's, of a processor with these CR3 and CR4, and CR0 0x80000001
    @ processor 0x9000 0x1020 0x1              likewise with another CR0
    @ processor 0x9000                         a note that ends before CR4
    @ info NUMBER(phys_base)=0                 a line of Linux's note VMCOREINFO in the core
    @ info_end NUMBER(phys_base)=0             its end, without a line feed
    @ info_line 1000                           a line of so many bytes
    @ virtualbox                               a note of VirtualBox's in the core
    @ segment 16 frames from 0x100000          memory in the core; the words after it are in it
    @ field class 1                            another value of a field of the ELF header, see FIELDS
    @ file dump elf                            an ELF file of its parts: the header, these program headers and the bytes below
    @ header load 120 0x1000 4096              a program header: its kind (load, note or a number), where its bytes begin in
                                               the file, their physical address, and how many they are
    @ file dump bytes                          a file of the bytes below
    @ file dump lime                           a LiME file: the ranges below, each behind its header
    @ range 2 frames from 0x1000               memory in the LiME file, from an address on; the words after it are in it
    @ numbers 0 to 511                         words, each a number times 4096: 0x0, 0x1000, 0x2000 ..
    @ note QEMU 100 to 154                     a note of an ELF file with this name, and such words in it
    @ note QEMU 100 to 154 [49] 0x80000000     likewise with another word at an index
    @ hex 7f 45 4c 46                          bytes
    @ text KDUMP                               bytes of a text
    @ zeros 8192                               bytes that are 0
    @ cut 63                                   of any file: its first bytes alone; -4096: all but its last ones
"""

import re
import struct
from collections.abc import Callable
from dataclasses import dataclass, field
from pathlib import Path

FRAME_SIZE = 4096
LOAD, NOTE = 1, 4
HEADER_SIZE, ENTRY_SIZE = 64, 56
WORDS_OF_A_TABLE = 512
# CR0 of a processor with paging
PAGING = 0x8000_0001
# the words at an index, from one to another or at all of them; and words of a table
WORD = re.compile(r" ?\[(?:(\d+)(?:-(\d+))?|\*)\] (0x[0-9a-f]+)(?: by (0x[0-9a-f]+))?")
WORDS = re.compile(rf"(0x[0-9a-f]+)((?:{WORD.pattern})+)")
PLACED = re.compile(r"(0x[0-9a-f]+) (.*)", re.DOTALL)
FRAMES = re.compile(r"(\d+) frames?(?: from (0x[0-9a-f]+))?")
# the fields of the ELF header that a file may change, as `struct` has them in order
FIELDS = {
    "class": 2,
    "order": 1,
    "type": 4,
    "machine": 62,
    "headers": HEADER_SIZE,
    "sections": 0,
    "entry_size": ENTRY_SIZE,
    "count": None,
}
# the kinds of program headers that have a name, and words that are numbers
KINDS = {"load": LOAD, "note": NOTE}
NUMBERS = re.compile(r"(\d+) to (\d+)")


class Mistake(Exception):
    """A line of a transcript that can't be read, or a case that ends else than it says, with the number of its line."""

    def __init__(self, number: int, text: str) -> None:
        super().__init__(f"{number}: {text}")


@dataclass
class Memory:
    """Frames of physical memory from an address on."""

    address: int
    bytes: bytearray

    def set_word(self, frame: int, index: int, word: int) -> bool:
        """Sets a word, and tells whether it is in this memory."""
        offset = frame - self.address + 8 * index
        if not 0 <= offset < len(self.bytes):
            return False
        struct.pack_into("<Q", self.bytes, offset, word)
        return True

    def set_bytes(self, address: int, content: bytes) -> bool:
        """Sets bytes from an address on, and tells whether all are in this memory."""
        offset = address - self.address
        if not 0 <= offset <= len(self.bytes) - len(content):
            return False
        self.bytes[offset : offset + len(content)] = content
        return True


@dataclass
class File:
    """What the lines of a file say of it."""

    kind: str
    memory: list[Memory] = field(default_factory=list)
    processors: list[list[int]] = field(default_factory=list)
    info: bytearray = field(default_factory=bytearray)
    behind_line: int = 0
    is_of_virtualbox: bool = False
    fields: dict[str, int] = field(default_factory=dict)
    headers: list[bytes] = field(default_factory=list)
    content: bytearray = field(default_factory=bytearray)
    end: int | None = None

    def bytes(self) -> bytes:
        """Returns its bytes."""
        made = {"raw": self.raw, "core": self.core, "lime": self.lime, "elf": self.elf, "bytes": lambda: bytes(self.content)}[self.kind]()
        return made[: self.end]

    def raw(self) -> bytes:
        """Returns the bytes of physical memory."""
        return b"".join(bytes(part.bytes) for part in self.memory)

    def core(self) -> bytes:
        """Returns the bytes of an ELF core: its header, the program headers, the notes and the memory."""
        notes = b"".join(processor_note(*registers) for registers in self.processors)
        if self.info:
            notes += note("VMCOREINFO", bytes(self.info))
        if self.is_of_virtualbox:
            notes += note("VBCPU", bytes(64))
        parts = [(NOTE, 0, notes), *((LOAD, part.address, bytes(part.bytes)) for part in self.memory)]
        offset = HEADER_SIZE + ENTRY_SIZE * len(parts)
        headers, contents = b"", b""
        for kind, address, content in parts:
            at, size = offset + len(contents), len(content)
            headers += program_header(kind, at, address, size)
            contents += content
        return header({**FIELDS, "count": len(parts), **self.fields}) + headers + contents

    def lime(self) -> bytes:
        """Returns the bytes of a LiME file: each range behind its header."""
        return b"".join(range_header(part.address, len(part.bytes)) + bytes(part.bytes) for part in self.memory)

    def elf(self) -> bytes:
        """Returns the bytes of an ELF file: its header, the program headers and the bytes."""
        fields = {**FIELDS, "count": len(self.headers), **self.fields}
        return header(fields) + b"".join(self.headers) + bytes(self.content)


def program_header(kind: int, offset: int, address: int, size: int) -> bytes:
    """Returns a program header."""
    return struct.pack("<IIQQQQQQ", kind, 0, offset, 0, address, size, size, 0)


def range_header(address: int, size: int) -> bytes:
    """Returns LiME's header of a range."""
    return b"EMiL" + struct.pack("<IQQQ", 1, address, address + size - 1, 0)


def header(fields: dict[str, int]) -> bytes:
    """Returns an ELF header."""
    begin = b"\x7fELF" + bytes([fields["class"], fields["order"], 1]) + bytes(9)
    values = (fields["type"], fields["machine"], 1, 0, fields["headers"], fields["sections"], 0)
    return begin + struct.pack("<HHIQQQI", *values) + struct.pack("<HHHHHH", HEADER_SIZE, fields["entry_size"], fields["count"], 0, 0, 0)


def padded(content: bytes) -> bytes:
    """Returns bytes, padded to a multiple of four."""
    return content + bytes(-len(content) % 4)


def note(name: str, content: bytes) -> bytes:
    """Returns a note. Its name ends with a byte that is 0."""
    ended = name.encode() + b"\0"
    return struct.pack("<III", len(ended), len(content), 0) + padded(ended) + padded(content)


def processor_note(cr3: int, cr4: int | None = None, cr0: int = PAGING) -> bytes:
    """Returns QEMU's note of a processor, which ends before CR4 if there is none."""
    registers = bytes(392) + struct.pack("<QQQQ", cr0, 0, 0, cr3)
    if cr4 is not None:
        registers += struct.pack("<Q", cr4) + bytes(8)
    return note("QEMU", registers)


# ---- the lines


def add_memory(file: File, text: str) -> None:
    """Adds memory to a file: '16 frames' or '16 frames from 0x100000'."""
    found = FRAMES.fullmatch(text)
    if found is None:
        raise ValueError("memory is written as 16 frames from 0x100000")
    file.memory.append(Memory(int(found[2] or "0", 16), bytearray(FRAME_SIZE * int(found[1]))))


def add_processor(file: File, text: str) -> None:
    """Adds the note of a processor."""
    registers = [int(number, 0) for number in text.split()]
    if len(registers) not in (1, 2, 3):
        raise ValueError("a processor has CR3, CR4 and CR0")
    file.processors.append(registers)


def add_words(file: File, frame: int, text: str) -> None:
    """Sets words of a table: '[0] 0x2003 [1-9] 0x3003 by 0x1000'."""
    for found in WORD.finditer(text):
        first, last = int(found[1] or "0"), int(found[2] or found[1] or WORDS_OF_A_TABLE - 1)
        for index in range(first, last + 1):
            word = int(found[3], 16) + int(found[4] or "0", 16) * (index - first)
            if index >= WORDS_OF_A_TABLE or not any(part.set_word(frame, index, word) for part in reversed(file.memory)):
                raise ValueError("the word is in no memory of the file")


def add_text(file: File, text: str) -> None:
    """Sets bytes of a text in memory, at an address or behind the text before: '0x100018 OSRELEASE=6.1.0'."""
    found = PLACED.fullmatch(text)
    address = int(found[1], 16) if found else file.behind_line
    content = (found[2] if found else text).encode()
    if not any(part.set_bytes(address, content) for part in reversed(file.memory)):
        raise ValueError("the text is in no memory of the file")
    file.behind_line = address + len(content)


def set_field(file: File, text: str) -> None:
    """Sets a field of the header."""
    name, value = text.split()
    if name not in FIELDS:
        raise ValueError(f"the fields are {', '.join(FIELDS)}")
    file.fields[name] = int(value, 0)


def add_header(file: File, text: str) -> None:
    """Adds a program header: 'load 120 0x1000 4096'."""
    kind, offset, address, size = text.split()
    numbers = (int(number, 0) for number in (offset, address, size))
    file.headers.append(program_header(KINDS[kind] if kind in KINDS else int(kind, 0), *numbers))


def words(text: str) -> bytes:
    """Returns words that are numbers times 4096: '0 to 511'."""
    found = NUMBERS.fullmatch(text)
    if found is None:
        raise ValueError("numbers are written as 0 to 511")
    numbers = range(int(found[1]), int(found[2]) + 1)
    return b"".join(struct.pack("<Q", FRAME_SIZE * number) for number in numbers)


def add_note(file: File, text: str) -> None:
    """Adds a note: 'QEMU 100 to 154', with other words behind it, as in a table."""
    name, _, rest = text.partition(" ")
    numbers, _, others = rest.partition(" [")
    content = bytearray(words(numbers))
    for found in WORD.finditer(f"[{others}" if others else ""):
        struct.pack_into("<Q", content, 8 * int(found[1]), int(found[3], 16))
    file.content.extend(note(name, bytes(content)))


def mark_virtualbox(file: File, text: str) -> None:
    """Adds a note of VirtualBox's."""
    file.is_of_virtualbox = True


def set_end(file: File, text: str) -> None:
    """Cuts a file off."""
    file.end = int(text, 0)


COMMANDS: dict[str, Callable[[File, str], None]] = {
    "segment": add_memory,
    "range": add_memory,
    "processor": add_processor,
    "info": lambda file, text: file.info.extend(f"{text}\n".encode()),
    "info_end": lambda file, text: file.info.extend(text.encode()),
    "info_line": lambda file, text: file.info.extend(b"x" * (int(text, 0) - 1) + b"\n"),
    "line": lambda file, text: add_text(file, f"{text}\n"),
    "line_end": add_text,
    "virtualbox": mark_virtualbox,
    "field": set_field,
    "header": add_header,
    "numbers": lambda file, text: file.content.extend(words(text)),
    "note": add_note,
    "cut": set_end,
    "hex": lambda file, text: file.content.extend(bytes.fromhex(text)),
    "text": lambda file, text: file.content.extend(text.encode()),
    "zeros": lambda file, text: file.content.extend(bytes(int(text, 0))),
}


def begin(text: str) -> tuple[str, File]:
    """Returns the name of a file, and the file, of the line that begins it."""
    _, name, kind, *rest = text.split(maxsplit=3)
    if kind not in ("raw", "core", "lime", "elf", "bytes"):
        raise ValueError("a file is raw, core, lime, elf or bytes")
    file = File(kind)
    if kind == "raw":
        add_memory(file, "".join(rest))
    return name, file


def add_line(file: File, text: str) -> None:
    """Adds to a file what a line says."""
    found = WORDS.fullmatch(text)
    if found:
        add_words(file, int(found[1], 16), found[2])
        return
    name, _, rest = text.partition(" ")
    if name not in COMMANDS:
        raise ValueError(f"a line after '@ ' begins with one of file, {', '.join(COMMANDS)}, or is a word as 0x1000[0] 0x2003")
    COMMANDS[name](file, rest)


def write_files(folder: Path, lines: list[tuple[int, str]]) -> None:
    """Writes the files of lines, each with its number, into a folder."""
    files: dict[str, File] = {}
    name = ""
    for number, text in lines:
        try:
            if text.startswith("file "):
                name, files[name] = begin(text)
            elif not name:
                raise ValueError("a file begins with its name, as @ file dump raw 16 frames")
            else:
                add_line(files[name], text)
        except (ValueError, struct.error) as mistake:
            raise Mistake(number, f"{mistake}: {text!r}") from None
    for name, file in files.items():
        (folder / name).write_bytes(file.bytes())
