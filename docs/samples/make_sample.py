#!/usr/bin/env python3
"""The sample capture of the listing, and what the listing has to print for it.

  make_sample.py DIR              write DIR/stdin and DIR/stdout (the repository's: crates/listing)
  make_sample.py DIR --check      say whether the two files are those, and write nothing
  make_sample.py --large MIB FILE [TEXT]
                                  write a capture of about so many MiB, to time the listing with, and its listing to TEXT

What is printed is worked out here from document 01 and requests Two, Four and Seven of document 02 alone, by the class Chip.
Each packet of the sample also says what it is there for and what it has to get, its error or the reason it is dropped
for, and a good digest command the bytes whose digest it is. A packet that gets something else stops the script.
"""
import hashlib
import pathlib
import struct
import sys

END, ESC = 0xC0, 0xDB
WORDS_AT = 0x40100000
SECTOR = 4096
LONGEST = 4120
SHORTEST = 8
REASONS = ("ESC", "CUT", "LONG", "SHORT", "DIR")


# ---- document 01 and requests Two, Four and Seven, the chip's end

def up(x, step):
    return (x + step - 1) // step * step


def checksum(data):
    value = 0xEF
    for byte in data:
        value ^= byte
    return value


def packed(direction, command, word, body, size=None):
    """Requests and answers: the word is the checksum of the one and the value of the other."""
    return struct.pack("<BBHI", direction, command, len(body) if size is None else size, word) + body


class Chip:
    """A fresh loader with 64 KiB of 0xFF flash and 4,096 zero words. `feed` answers None, or what a closed packet got."""

    LENGTHS = {0x02: 16, 0x04: 4, 0x05: 16, 0x06: 8, 0x08: 36, 0x09: 16, 0x0A: 4, 0x0D: 4, 0x13: 16}
    DATA = (0x03, 0x07)
    COMMANDS = (0x02, 0x03, 0x04, 0x05, 0x06, 0x07, 0x08, 0x09, 0x0A, 0x0D, 0x13)

    def __init__(self):
        self.flash = bytearray(b"\xFF" * 65536)
        self.words = [0] * 4096
        self.attach = 0
        self.session = None
        self.opened = False
        self.stretch = bytearray()

    # framing: the stretch between two C0, unescaped when it is closed

    def feed(self, byte):
        if byte != END:
            if self.opened:
                self.stretch.append(byte)
            return None
        stretch, self.stretch = self.stretch, bytearray()
        opened, self.opened = self.opened, True
        if not opened or not stretch:
            return None
        return self.closed(stretch)

    @staticmethod
    def unescape(stretch):
        """The packet, or the reason that comes first in the stretch."""
        packet, at = bytearray(), 0
        while at < len(stretch):
            byte = stretch[at]
            if byte == ESC:
                at += 1
                if at == len(stretch):
                    return "CUT"
                if stretch[at] not in (0xDC, 0xDD):
                    return "ESC"
                byte = END if stretch[at] == 0xDC else ESC
            packet.append(byte)
            if len(packet) > LONGEST:
                return "LONG"
            at += 1
        return packet

    def closed(self, stretch):
        """(command, status, error, answer) of a packet that is read, the reason of one that is dropped."""
        packet = self.unescape(stretch)
        if isinstance(packet, str):
            return packet
        if len(packet) < SHORTEST:
            return "SHORT"
        if packet[0] != 0:
            return "DIR"
        command, size, total = struct.unpack_from("<xBHI", packet)
        body = bytes(packet[8:])
        error = self.error(command, size, total, body)
        status = 1 if error else 0
        value, digest = (0, b"") if error else self.carry_out(command, body)
        return (command, status, error, packed(1, command, value, digest + bytes([status, error])))

    # commands: the table of errors, from the top

    def error(self, command, size, total, body):
        if command not in self.COMMANDS:
            return 0xFF
        if size != len(body):
            return 0xC0
        data = command in self.DATA
        if data and (len(body) < 16 or struct.unpack_from("<I", body)[0] != len(body) - 16):
            return 0xC0
        if not data and len(body) != self.LENGTHS[command]:
            return 0xC0
        word = struct.unpack("<%dI" % (len(body[:16]) // 4), body[:len(body[:16]) // 4 * 4])
        kind = {0x03: "flash", 0x04: "flash", 0x06: "memory", 0x07: "memory"}.get(command)
        s = self.session
        if kind and (s is None or s["kind"] != kind):
            return 0xC6
        if data and word[0] != s["b"]:
            return 0xC2
        if not self.parameters(command, word, body):
            return 0xC5
        if command == 0x0D and word[0] not in (0, 1) and len(set(self.fields(word[0]))) < 5:
            return 0xC7
        if data:
            if s["k"] == s["n"]:
                return 0xC9
            if word[1] != s["k"]:
                return 0xC3
            if total != checksum(body[16:]):
                return 0xC1
            kept = min((s["k"] + 1) * s["b"], s["S"]) - min(s["k"] * s["b"], s["S"])
            if any(byte != 0xFF for byte in body[16 + kept:]):
                return 0xC4
        if command in (0x04, 0x06) and s["k"] < s["n"]:
            return 0xC8
        return 0

    def parameters(self, command, word, body):
        end = WORDS_AT + 4 * len(self.words)
        if command in (0x02, 0x05):
            S, n, b, offset = word
            if not 1 <= b <= 4096 or n != up(S, b) // b:
                return False
            if command == 0x02:
                return offset % SECTOR == 0 and offset + up(S, SECTOR) <= len(self.flash)
            return S % 4 == b % 4 == offset % 4 == 0 and offset >= WORDS_AT and offset + S <= end
        if command in self.DATA:
            return word[2] == 0 and word[3] == 0
        if command == 0x04:
            return word[0] in (0, 1)
        if command == 0x06:
            return word[0] == 1 or word[0] == 0 and WORDS_AT <= word[1] < end
        if command == 0x08:
            return body == b"\x07\x07\x12\x20" + b"\x55" * 32
        if command == 0x13:
            return word[2] == 0 and word[3] == 0 and word[0] + word[1] <= len(self.flash)
        if command in (0x09, 0x0A):
            inside = word[0] % 4 == 0 and WORDS_AT <= word[0] < end
            return inside and (command == 0x0A or word[3] == 0)
        return word[0] in (0, 1) or word[0] >> 30 == 0 and all(field <= 31 for field in self.fields(word[0]))

    @staticmethod
    def fields(word):
        """HD, Q, D, CS, CLK."""
        return [word >> shift & 63 for shift in (24, 18, 12, 6, 0)]

    def carry_out(self, command, body):
        """The value and the digest of the answer."""
        word = struct.unpack("<%dI" % (len(body[:16]) // 4), body[:len(body[:16]) // 4 * 4])
        s = self.session
        if command in (0x02, 0x05):
            kind = "flash" if command == 0x02 else "memory"
            self.session = dict(kind=kind, S=word[0], n=word[1], b=word[2], offset=word[3], k=0)
        elif command in self.DATA:
            old = min(s["k"] * s["b"], s["S"])
            s["k"] += 1
            new = min(s["k"] * s["b"], s["S"])
            data = body[16:16 + new - old]
            if command == 0x03:
                self.flash[s["offset"] + old:s["offset"] + new] = data
                self.flash[s["offset"] + new:s["offset"] + up(new, SECTOR)] = b"\xFF" * (up(new, SECTOR) - new)
            else:
                at = (s["offset"] + old - WORDS_AT) // 4
                self.words[at:at + len(data) // 4] = struct.unpack("<%dI" % (len(data) // 4), data)
        elif command in (0x04, 0x06):
            self.session = None
        elif command == 0x09:
            at = (word[0] - WORDS_AT) // 4
            self.words[at] = self.words[at] & ~word[2] | word[1] & word[2]
        elif command == 0x0A:
            return self.words[(word[0] - WORDS_AT) // 4], b""
        elif command == 0x0D:
            self.attach = word[0]
        elif command == 0x13:
            return 0, hashlib.md5(self.flash[word[0]:word[0] + word[1]]).digest()
        return 0, b""


# ---- the host's end: packets as they stand on the line

def words(*values):
    return struct.pack("<%dI" % len(values), *values)


def packet(command, body, total=0, size=None, direction=0):
    return packed(direction, command, total, body, size)


def block(command, sequence, data, third=0, fourth=0, total=None, length=None):
    body = words(len(data) if length is None else length, sequence, third, fourth) + data
    return packet(command, body, checksum(data) if total is None else total)


def escaped(raw):
    return raw.replace(b"\xDB", b"\xDB\xDD").replace(b"\xC0", b"\xDB\xDC")


def framed(raw):
    return b"\xC0" + escaped(raw) + b"\xC0"


def digest(address, size, third=0, fourth=0):
    return packet(0x13, words(address, size, third, fourth))


SYNC = packet(0x08, b"\x07\x07\x12\x20" + b"\x55" * 32)


def image(size, seed):
    """Bytes that are all different from their neighbours, C0 and DB among them."""
    return bytes((seed + 7 * at + at // 256) % 256 for at in range(size))


def load(kind, S, b, offset, data, last):
    """The packets of a whole load: BEGIN, blocks padded by FF, END."""
    begin, one, end = (0x02, 0x03, 0x04) if kind == "flash" else (0x05, 0x07, 0x06)
    n = up(S, b) // b
    yield packet(begin, words(S, n, b, offset))
    for k in range(n):
        yield block(one, k, data[k * b:(k + 1) * b].ljust(b, b"\xFF"))
    yield packet(end, last)


# ---- the sample

class Capture:
    def __init__(self):
        self.bytes = bytearray()
        self.expected = []
        self.digests = {}

    def raw(self, line, why, *closes):
        """Bytes of the line as they are, and what the packets that they close have to get: an error or a reason."""
        self.bytes += line
        self.expected += [(close, why) for close in closes]

    def send(self, request, why, close=0):
        self.raw(framed(request), why, close)

    def digest(self, address, size, why, of):
        """A good digest command, and the bytes whose digest it has to get."""
        self.send(digest(address, size), "the digest of " + why)
        self.digests[len(self.expected)] = hashlib.md5(of).digest()


def sample():
    c = Capture()
    good = 0

    c.raw(b"boot\xDB\xDB\x00\r\n", "bytes before the first C0, a bad escape among them, are ignored")
    c.send(SYNC, "document 01's example: a good SYNC")
    c.send(packet(0x04, words(0)), "and FLASH_END with word 0, no session open", 0xC6)
    c.raw(b"\xC0\xC0\xC0\xC0", "empty stretches make no packet")

    # a whole flash load, case 6's numbers, with every kind of dropped packet between
    data = image(5000, 0xB0)
    begin, b0, b1, b2, b3, b4, end = load("flash", 5000, 1024, 8192, data, words(1))
    c.send(begin, "FLASH_BEGIN: 5,000 bytes in 5 blocks of 1,024 at 8,192")
    c.send(b0, "block 0, with C0 and DB in its data")
    c.raw(b"\xC0" + escaped(b1)[:40] + b"\xDB\x41" + escaped(b1)[40:] + b"\xC0", "a bad escape, DB 41", "ESC")
    c.send(b1, "block 1 again, whole")
    c.raw(b"\xC0" + escaped(b2)[:60] + b"\xDB\xC0", "an escape cut by the closing C0", "CUT")
    c.raw(escaped(b2) + b"\xC0", "block 2, opened by that C0", good)
    c.raw(b"\xDB\xC0", "a cut escape with no byte stored: a packet all the same", "CUT")
    c.raw(b"\xC0" + b"\x00\x08" + b"\x55" * 4119 + b"\xC0", "4,121 bytes", "LONG")
    c.raw(b"\xC0" + b"\x00\x08" + b"\x55" * 4118 + b"\xDB\x41\xC0", "4,120 bytes and then a bad escape", "ESC")
    c.raw(b"\xC0" + b"\x00\x08" + b"\x55" * 4118 + b"\xDB\xDC\x11\xDB\xC0", "4,120 bytes, an escaped one too many, and more", "LONG")
    c.send(SYNC[:7], "7 bytes", "SHORT")
    c.send(b"\x00", "1 byte", "SHORT")
    c.send(packet(0x08, words(0), direction=1), "direction 1: an answer", "DIR")
    c.send(packet(0x04, words(0), direction=0xC0), "direction C0, escaped", "DIR")
    c.send(b3, "block 3: the drops changed nothing")
    c.send(end, "FLASH_END while block 4 is missing", 0xC8)
    c.send(b4, "block 4, 904 bytes and 120 times FF")
    c.send(block(0x03, 5, data[:1024]), "a sixth block", 0xC9)
    c.send(block(0x03, 0, data[:1024], total=0), "all blocks are accepted: before sequence and checksum", 0xC9)
    c.send(end, "FLASH_END, stay")
    c.send(end, "the session is closed", 0xC6)

    # each error of a data command, in the order of the checks
    c.send(packet(0x02, words(7000, 2, 4096, 0)), "FLASH_BEGIN of two blocks, the second with 2,904 bytes of data")
    d0, d1 = image(4096, 0x11), image(2904, 0x22)
    c.send(packet(0x03, words(0, 0, 0)), "data under 16 bytes", 0xC0)
    c.send(block(0x03, 0, d0, length=4095), "the data size field is not the length less 16", 0xC0)
    c.send(packet(0x03, words(4096, 0, 0, 0) + d0[:4000], size=4112), "the size field is not the body's length", 0xC0)
    c.send(block(0x07, 0, d0), "MEM_DATA in a flash session", 0xC6)
    c.send(packet(0x06, words(1, 0)), "MEM_END in a flash session", 0xC6)
    c.send(block(0x03, 0, d0[:4095]), "a byte short of the announced block", 0xC2)
    c.send(block(0x03, 0, d0[:512], third=1), "the block's size comes before its third word", 0xC2)
    c.send(block(0x03, 0, d0, third=1), "the third word is not 0", 0xC5)
    c.send(block(0x03, 0, d0, fourth=0x1000000), "the fourth word is not 0", 0xC5)
    c.send(block(0x03, 7, d0, third=1), "the third word comes before the sequence", 0xC5)
    c.send(block(0x03, 1, d0), "block 1 before block 0", 0xC3)
    c.send(block(0x03, 1, d0, total=0), "the sequence comes before the checksum", 0xC3)
    c.send(block(0x03, 0, d0, total=checksum(d0) ^ 1), "a wrong checksum", 0xC1)
    c.send(block(0x03, 0, d0, total=checksum(d0) + 0x100), "right in its low byte alone", 0xC1)
    c.send(block(0x03, 0, d0), "a packet of 4,120 bytes, the longest")
    c.send(block(0x03, 0, d0), "block 0 again", 0xC3)
    c.send(block(0x03, 1, d1.ljust(4096, b"\x00")), "bytes past the announced size are not FF", 0xC4)
    c.send(block(0x03, 1, d1.ljust(4095, b"\xFF") + b"\xFE"), "the last of them is not", 0xC4)
    c.send(block(0x03, 1, d1.ljust(4095, b"\xFF") + b"\xFE", total=0), "the checksum comes before them", 0xC1)
    c.send(packet(0x04, words(2)), "FLASH_END with 2: its word comes before the missing block", 0xC5)
    c.send(packet(0x04, words(0)), "a block is missing", 0xC8)
    c.send(packet(0x02, words(7000, 2, 0, 0)), "a FLASH_BEGIN that fails keeps the session", 0xC5)
    c.send(block(0x03, 1, d1.ljust(4096, b"\xFF")), "block 1")
    c.send(packet(0x04, words(0, 0)), "FLASH_END of two words", 0xC0)
    c.send(packet(0x04, words(0)), "FLASH_END, reboot")

    # FLASH_BEGIN's rules
    for S, n, b, offset, why, error in (
        (5000, 4, 1024, 8192, "n 4 for 5,000 bytes", 0xC5),
        (5000, 6, 1024, 8192, "n 6", 0xC5),
        (4096, 1, 4096, 61440, "the last sector", good),
        (4097, 2, 4096, 61440, "a byte past it", 0xC5),
        (1, 1, 4096, 65536, "past the flash", 0xC5),
        (0, 0, 1, 65536, "nothing at the very end", good),
        (0, 1, 1, 0, "n 1 for nothing", 0xC5),
        (0, 0, 0, 0, "block size 0", 0xC5),
        (4097, 1, 4097, 0, "block size 4,097", 0xC5),
        (4096, 1, 4096, 100, "an offset in the middle of a sector", 0xC5),
        (0xFFFFFFFF, 0x100000, 4096, 4096, "a size that rounds up to 2 to the 32", 0xC5),
        (4096, 1, 4096, 0xFFFFF000, "an offset whose sum with the size runs over 32 bits", 0xC5),
        (65536, 65536, 1, 0, "all of the flash, a byte at a time", good),
    ):
        c.send(packet(0x02, words(S, n, b, offset)), "FLASH_BEGIN: " + why, error)
    c.send(packet(0x02, words(0, 0, 16, 0)), "a FLASH_BEGIN of nothing drops the open session")
    c.send(packet(0x04, words(1)), "no block is missing")

    # the neighbour's sector: the last block reaches past the announced size
    for request in load("flash", 4096, 3000, 4096, image(4096, 0x77), words(1)):
        c.send(request, "4,096 bytes in 2 blocks of 3,000")

    # a whole load of memory, and what it left
    begin, m0, m1, end = load("memory", 12, 8, WORDS_AT + 16, image(12, 0xBD), words(1, 0xDEADBEEF))
    c.send(begin, "MEM_BEGIN: 12 bytes in 2 blocks of 8")
    c.send(m0, "block 0")
    c.send(block(0x03, 1, b"\x00" * 8), "FLASH_DATA in a memory session", 0xC6)
    c.send(packet(0x04, words(1)), "FLASH_END in a memory session", 0xC6)
    c.send(end, "MEM_END while block 1 is missing", 0xC8)
    c.send(m1, "block 1, 4 bytes and 4 times FF")
    c.send(packet(0x06, words(2, WORDS_AT)), "MEM_END with flag 2", 0xC5)
    c.send(packet(0x06, words(0, WORDS_AT + 16384)), "a jump past the words", 0xC5)
    c.send(packet(0x06, words(0, WORDS_AT - 1)), "a jump before them", 0xC5)
    c.send(packet(0x06, words(0)), "MEM_END of one word", 0xC0)
    c.send(end, "MEM_END, stay: the entry is not looked at")
    c.send(packet(0x0A, words(WORDS_AT + 16)), "READ_REG of a loaded word")
    c.send(packet(0x09, words(WORDS_AT, 0x12345678, 0xFFFFFFFF, 0)), "WRITE_REG")
    c.send(packet(0x09, words(WORDS_AT, 0xFFFF0000, 0x00FF00FF, 0)), "WRITE_REG under a mask")
    c.send(packet(0x0A, words(WORDS_AT)), "READ_REG of 12FF5600")
    for request in load("memory", 16384, 4096, WORDS_AT, image(16384, 0x01), words(0, WORDS_AT + 16383)):
        c.send(request, "all of the words, and a jump to the last byte")

    # MEM_BEGIN's rules
    for S, n, b, offset, why in (
        (10, 1, 12, WORDS_AT, "a size of 10"),
        (12, 2, 6, WORDS_AT, "a block size of 6"),
        (0, 0, 0, WORDS_AT, "a block size of 0"),
        (12, 1, 12, WORDS_AT + 2, "an address between words"),
        (12, 1, 12, WORDS_AT - 4, "an address below the words"),
        (16, 1, 16, WORDS_AT + 16372, "an end past the words"),
        (4100, 1, 4100, WORDS_AT, "a block size of 4,100"),
        (12, 2, 12, WORDS_AT, "n 2 for one block"),
    ):
        c.send(packet(0x05, words(S, n, b, offset)), "MEM_BEGIN: " + why, 0xC5)
    c.send(packet(0x05, words(0, 0, 4)), "MEM_BEGIN of three words", 0xC0)
    c.send(packet(0x05, words(0, 0, 4, WORDS_AT + 16384)), "nothing at the very end")
    c.send(packet(0x06, words(0, WORDS_AT + 1)), "a jump between words")

    # the commands without a session
    c.send(packet(0x08, SYNC[8:43]), "SYNC of 35 bytes", 0xC0)
    c.send(packet(0x08, SYNC[8:43] + b"\x54"), "SYNC with a wrong last byte", 0xC5)
    c.send(packet(0x08, b"\x07\x07\x20\x12" + b"\x55" * 32), "SYNC with two bytes changed over", 0xC5)
    c.send(packet(0x08, SYNC[8:], size=35), "SYNC with a wrong size field", 0xC0)
    c.send(packet(0x08, SYNC[8:], total=0x12345678), "SYNC: its checksum field is not compared")
    c.send(packet(0x0A, words(WORDS_AT + 16384)), "READ_REG past the words", 0xC5)
    c.send(packet(0x0A, words(WORDS_AT + 2)), "READ_REG between words", 0xC5)
    c.send(packet(0x0A, words(WORDS_AT, 0)), "READ_REG of two words", 0xC0)
    c.send(packet(0x0A, words(0x6001A00C)), "the READ_REG of document 003's trace", 0xC5)
    c.send(packet(0x09, words(WORDS_AT, 1, 1, 1)), "WRITE_REG with a delay", 0xC5)
    c.send(packet(0x09, words(WORDS_AT - 4, 1, 1, 0)), "WRITE_REG before the words", 0xC5)
    c.send(packet(0x09, words(WORDS_AT, 1, 1)), "WRITE_REG of three words", 0xC0)
    c.send(packet(0x0D, words(0)), "SPI_ATTACH, default")
    c.send(packet(0x0D, words(1)), "HSPI")
    c.send(packet(0x0D, words(0x091C82C6)), "case 9's pins")
    c.send(packet(0x0D, words(0x091C82DF)), "CLK at pin 33, field 31")
    c.send(packet(0x0D, words(0x091C82E0)), "field 32", 0xC5)
    c.send(packet(0x0D, words(0x091C82C6 | 1 << 30)), "a bit above the five fields", 0xC5)
    c.send(packet(0x0D, words(0, 0)), "SPI_ATTACH of two words, as the ESP32's ROM takes it", 0xC0)
    names, pins = ("HD", "Q", "D", "CS", "CLK"), (9, 7, 8, 11, 6)
    for one in range(5):
        for other in range(one + 1, 5):
            shared = [pins[one] if at == other else pin for at, pin in enumerate(pins)]
            word = sum(pin << shift for pin, shift in zip(shared, (24, 18, 12, 6, 0)))
            c.send(packet(0x0D, words(word)), "%s and %s on one pin" % (names[one], names[other]), 0xC7)
    c.send(packet(0x0D, words(0x00000002)), "four lines on pin 0", 0xC7)
    c.send(packet(0x0D, words(0x091C72C6 | 1 << 30)), "two lines on one pin and a bit above the fields: C5 comes first", 0xC5)
    c.send(packet(0x0D, words(0x208082C6)), "two fields of 32: C5 comes first", 0xC5)
    c.send(packet(0x0D, words(0)), "the default again")
    for command in (0x00, 0x0B, 0x0C, 0x0E, 0x0F, 0x12, 0xC0, 0xD0, 0xDB, 0xFF):
        c.send(packet(command, b""), "a command that is not in the list", 0xFF)
    c.send(packet(0x0B, words(0), size=9), "and whose size is wrong: the command comes first", 0xFF)

    # the reasons, alone, two and three of them at once, and packets one byte beside those: ESC, CUT and LONG by what
    # came first in the stream, then SHORT, then DIR. No session is open, and one C0 stands between each two, so that
    # every reason has to be forgotten at its C0
    seven = SYNC[:7]
    answer = packet(0x08, b"\x00\x00", direction=1)
    full, back = (start.ljust(LONGEST, b"\x55") for start in (SYNC, answer))
    for stretch, why, reason in (
        (SYNC + b"\xDB\x41", "a bad escape at the end", "ESC"),
        (SYNC + b"\xDB\xDE", "DE, the byte after the two good ones", "ESC"),
        (SYNC[:20] + b"\xDB\x41" + SYNC[20:] + b"\xDB\x42", "two bad escapes", "ESC"),
        (SYNC + b"\xDB", "a good SYNC and a cut escape", "CUT"),
        (SYNC + b"\xDB\xDC\xDB", "a good escape and then a cut one", "CUT"),
        # ESC and CUT
        (SYNC + b"\xDB\x41\xDB", "a bad escape, and then DB before C0", "ESC"),
        (SYNC[:20] + b"\xDB\x41" + SYNC[20:] + b"\xDB", "the same with bytes between", "ESC"),
        (SYNC + b"\xDB\xDB", "DB DB: a bad escape, and the second DB opens none", "ESC"),
        (SYNC + b"\xDB\xDB\xDC", "DB DB DC: neither does it here", "ESC"),
        (b"\xDB\xDB", "DB DB with no byte stored", "ESC"),
        (b"\xDB\xDB\xDB", "and a third DB before C0", "ESC"),
        # ESC and LONG
        (SYNC + b"\xDB\x41" + b"\x55" * 4121, "a bad escape and 4,121 bytes behind it", "ESC"),
        (b"\xDB\x41" + full + b"\x55", "a bad escape in front of 4,121 bytes", "ESC"),
        (full + b"\x55\xDB\x41", "4,121 bytes and then a bad escape", "LONG"),
        (full + b"\xDB\x41", "4,120 bytes and then a bad escape: no byte 4,121", "ESC"),
        (full + b"\xDB\x41\x55", "and one more byte", "ESC"),
        (full + b"\xDB\xDB\xDC", "4,120 bytes and DB DB DC", "ESC"),
        (full + b"\xDB\xDC", "4,120 bytes and DB DC", "LONG"),
        (full + b"\xDB\xDD", "4,120 bytes and DB DD", "LONG"),
        (full + b"\xDB\xDC\xDB\x41", "4,120 bytes, DB DC and a bad escape", "LONG"),
        (full[:2000] + b"\xDB\xDC" + full[2000:], "4,121 bytes by way of an escape in the middle", "LONG"),
        # CUT and LONG
        (full + b"\x55\xDB", "4,121 bytes and then a cut escape", "LONG"),
        (full + b"\xDB", "4,120 bytes and then a cut escape", "CUT"),
        (full[:-1] + b"\xDB\xDC\xDB", "4,120 bytes, the last one escaped, and then a cut escape", "CUT"),
        (full + b"\xDB\xDD\xDB", "4,120 bytes, DB DD and a cut escape", "LONG"),
        # ESC and SHORT
        (b"\xDB\x41", "a bad escape and nothing else", "ESC"),
        (b"\xDB\x41" + SYNC[:3], "a bad escape and few bytes behind it", "ESC"),
        (SYNC[:3] + b"\xDB\x41", "few bytes and a bad escape", "ESC"),
        (SYNC[:3] + b"\xDB\x41" + SYNC[3:5], "few bytes before it and few behind", "ESC"),
        (seven + b"\xDB\x41", "7 bytes and a bad escape", "ESC"),
        (seven + b"\xDB\x41" + SYNC[7:], "and many bytes behind it", "ESC"),
        # ESC and DIR
        (answer + b"\xDB\x41", "direction 1 and then a bad escape", "ESC"),
        (answer[:1] + b"\xDB\x41" + answer[1:], "a bad escape right behind direction 1", "ESC"),
        (b"\xDB\x41" + answer, "a bad escape where the direction would stand, and then 01", "ESC"),
        (b"\xDB" + answer, "DB 01: the bad escape is the direction itself", "ESC"),
        (b"\x01\xDB\x41", "direction 1, a bad escape, and too short as well", "ESC"),
        # CUT and SHORT, CUT and DIR
        (b"\xDB", "a cut escape and nothing else", "CUT"),
        (SYNC[:3] + b"\xDB", "few bytes and a cut escape", "CUT"),
        (seven + b"\xDB", "7 bytes and a cut escape", "CUT"),
        (answer + b"\xDB", "direction 1 and a cut escape", "CUT"),
        (back + b"\xDB", "4,120 bytes with direction 1 and a cut escape", "CUT"),
        (b"\x01\xDB", "direction 1, a cut escape, and too short as well", "CUT"),
        # LONG and DIR
        (back + b"\x55", "4,121 bytes with direction 1", "LONG"),
        (back + b"\xDB\xDC", "the last of them escaped", "LONG"),
        (b"\xDB\xDC" + full, "4,121 bytes with direction C0, escaped", "LONG"),
        (back, "4,120 bytes with direction 1: the longest that is not LONG", "DIR"),
        (back[:-1] + b"\xDB\xDD", "the last of them escaped: 4,121 on the line", "DIR"),
        # SHORT and DIR
        (b"\x01", "1 byte, 01", "SHORT"),
        (b"\xDB\xDC", "1 byte, C0", "SHORT"),
        (answer[:7], "7 bytes with direction 1", "SHORT"),
        (answer[:6] + b"\xDB\xDC", "7 bytes with direction 1, 8 on the line", "SHORT"),
        (seven[:6] + b"\xDB\xDD", "7 bytes with direction 0, 8 on the line", "SHORT"),
        (answer[:8], "8 bytes with direction 1", "DIR"),
        (answer[:7] + b"\xDB\xDC", "8 bytes with direction 1, 9 on the line", "DIR"),
        (b"\xDB\xDD" + SYNC[1:], "direction DB, escaped", "DIR"),
        (b"\xFF" + SYNC[1:], "direction FF", "DIR"),
        (SYNC, "a good SYNC behind them all", good),
    ):
        c.raw(stretch + b"\xC0", why, reason)

    # the digest: good ones, and that they leave a load as it is, and then the errors
    low, high = image(4096, 0x11), image(4096, 0x77)
    flash = (low + high + data).ljust(65536, b"\xFF")
    c.digest(0, 0, "no bytes", b"")
    c.digest(65536, 0, "no bytes at the very end", b"")
    c.digest(0, 65536, "all of the flash", flash)
    c.digest(65535, 1, "the last byte", b"\xFF")
    c.digest(8192, 5000, "the load at 8,192", data)
    c.digest(8191, 5003, "that with a byte before it and two behind", high[-1:] + data + b"\xFF\xFF")
    fresh = image(1500, 0x3C)
    begin, f0, f1, end = load("flash", 1500, 1024, 4096, fresh, words(1))
    c.send(begin, "FLASH_BEGIN: 1,500 bytes in 2 blocks of 1,024 at 4,096")
    c.digest(4096, 4096, "its sector, which BEGIN does not write", high)
    c.send(f0, "block 0")
    c.digest(4096, 4096, "its sector between two blocks", fresh[:1024].ljust(4096, b"\xFF"))
    c.send(digest(4096, 4096, third=1), "a digest command that fails between two blocks", 0xC5)
    c.send(f1, "block 1")
    c.digest(4096, 1500, "the load before its END", fresh)
    c.send(end, "FLASH_END: the load ends well")
    c.digest(4096, 1500, "the load behind its END", fresh)
    begin, m0, m1, end = load("memory", 8, 4, WORDS_AT, image(8, 0x5A), words(1, 0))
    c.send(begin, "MEM_BEGIN: 8 bytes in 2 blocks of 4")
    c.digest(0, 4096, "a sector while a memory session is open", low)
    c.send(m0, "block 0")
    c.digest(0, 64, "64 bytes between two blocks", low[:64])
    c.send(m1, "block 1")
    c.send(end, "MEM_END: the load ends well")
    body = words(0, 1, 0, 0, 0)
    c.send(packet(0x13, b""), "a digest command without a body", 0xC0)
    c.send(packet(0x13, body[:15]), "of 15 bytes", 0xC0)
    c.send(packet(0x13, body[:17]), "of 17 bytes", 0xC0)
    c.send(packet(0x13, body), "of five words", 0xC0)
    c.send(packet(0x13, body[:16], size=15), "of 16 bytes with size 15", 0xC0)
    c.send(packet(0x13, body[:15], size=16), "of 15 bytes with size 16", 0xC0)
    c.send(packet(0x13, words(65537, 1, 1)), "of three words, with a bad address: its length comes first", 0xC0)
    for address, size, third, fourth, why in (
        (0, 1, 1, 0, "the third word is 1"),
        (0, 1, 0, 1, "the fourth word is 1"),
        (0, 0, 0x1000000, 0, "the third word is not 0 in its highest byte alone"),
        (0, 65537, 0, 0, "a byte more than the flash has"),
        (65535, 2, 0, 0, "one past the end"),
        (65536, 1, 0, 0, "a byte at the very end"),
        (65537, 0, 0, 0, "no bytes one past the end"),
        (0xFFFFFFFF, 1, 0, 0, "an address whose sum with the size runs over 32 bits"),
        (1, 0xFFFFFFFF, 0, 0, "a size whose sum with the address runs over 32 bits"),
        (0xFFFFFFFF, 0xFFFFFFFF, 0, 0, "the highest of both"),
    ):
        c.send(digest(address, size, third, fourth), "a digest command: " + why, 0xC5)
    c.send(packet(0x13, words(0, 1, 0, 0), total=0x12345678), "a digest command: its checksum field is not compared")
    c.send(packet(0x14, words(0, 1, 0, 0)), "a number more than the digest command's", 0xFF)
    c.digest(0, 65536, "all of the flash behind all that", flash[:4096] + fresh.ljust(4096, b"\xFF") + flash[8192:])

    # one C0 between two packets, and the end of the capture in the middle of one
    c.raw(b"\xC0" + escaped(SYNC) + b"\xC0" + escaped(SYNC) + b"\xC0", "one C0 closes a packet and opens the next", good, good)
    c.raw(escaped(SYNC), "a packet that nothing closes")
    return c


# ---- the listing

def line(number, got):
    fields = ["--", "--", got] if got in REASONS else ["%02X" % value for value in got[:3]]
    return "\t".join([str(number)] + fields) + "\n"


def listing(capture):
    chip, text, answers = Chip(), ["no\tcommand\tstatus\terror\n"], []
    for byte in capture:
        got = chip.feed(byte)
        if got is not None:
            answers.append(got)
            text.append(line(len(answers), got))
    return "".join(text).encode(), answers


def made():
    capture = sample()
    text, answers = listing(capture.bytes)
    assert len(answers) == len(capture.expected), (len(answers), len(capture.expected))
    for number, (got, (meant, why)) in enumerate(zip(answers, capture.expected), 1):
        has = got if got in REASONS else got[2]
        assert has == meant, "packet %d (%s): %s, and %s was meant" % (number, why, got, meant)
        if number in capture.digests:
            assert got[3][8:-2] == capture.digests[number], "packet %d (%s): another digest" % (number, why)
    missing = set(REASONS) - set(answers)
    assert not missing, "no packet for %s" % missing
    return bytes(capture.bytes), text


def large(mib):
    """Loads of all of the flash, and short packets behind each."""
    out = bytearray()
    turn = 0
    while len(out) < mib << 20:
        for request in load("flash", 65536, 4096, 0, image(65536, turn), words(1)):
            out += framed(request)
        for short in range(200):
            out += b"\xC0" + bytes([1 + (turn + short) % 16]) + b"\xC0"
        turn += 1
    return bytes(out[:mib << 20])


def main(args):
    if args[:1] == ["--large"]:
        capture = large(int(args[1]))
        pathlib.Path(args[2]).write_bytes(capture)
        if args[3:]:
            pathlib.Path(args[3]).write_bytes(listing(capture)[0])
        return 0
    folder = pathlib.Path(args[0])
    files = list(zip((folder / "stdin", folder / "stdout"), made()))
    if args[1:] == ["--check"]:
        wrong = [str(path) for path, content in files if not path.exists() or path.read_bytes() != content]
        print("not as this script makes them: " + " ".join(wrong) if wrong else "the sample is as this script makes it")
        return 1 if wrong else 0
    for path, content in files:
        path.write_bytes(content)
    return 0


if __name__ == "__main__":
    sys.exit(main(sys.argv[1:]))
