#!/usr/bin/env python3
"""The sample load of the program send, and what send has to write for it.

  make_load.py DIR              write DIR/args, DIR/data/image.bin and DIR/stdout (the repository's: crates/send)
  make_load.py DIR --check      say whether the three files are those, and write nothing
  make_load.py --compare SEND [LISTING]
                                run the program SEND on loads at every edge, on refused ones and on wrong arguments, and compare what it
                                writes with this script; with LISTING, also that the listing of each load that fits the listing's flash is all 00 00

What is written is worked out here from document 01 and request Six of document 02 alone, with the packets and the chip of
make_sample.py. Each line that the script makes is fed to that chip first, wherever FLASH is 65,536: every packet has to succeed,
and the image has to stand at its offset.
"""
import pathlib
import random
import subprocess
import sys
import tempfile

sys.dont_write_bytecode = True
import make_sample as line

LONGEST_FLASH = 4194304
CHIP_FLASH = 65536
LARGEST = 2 ** 64 - 1
ARGUMENTS = ("image.bin", "0x2000", "256", "0x10000")


# ---- request Six

def refusal(size, offset, block, flash):
    """The number that a load is refused with, or 0."""
    if flash == 0 or flash % line.SECTOR or flash > LONGEST_FLASH:
        return 3
    if not 1 <= block <= 4096 or offset % line.SECTOR or offset + line.up(size, line.SECTOR) > flash:
        return 15
    return 0


def sent(image, offset, block, flash):
    """All of an accepted load, framed."""
    requests = [line.SYNC, *line.load("flash", len(image), block, offset, image, line.words(1))]
    whole = b"".join(line.framed(request) for request in requests)
    if flash == CHIP_FLASH:
        arrives(whole, len(requests), image, offset)
    return whole


def arrives(whole, count, image, offset):
    chip = line.Chip()
    answers = [answer for answer in map(chip.feed, whole) if answer is not None]
    assert [answer[2] for answer in answers] == [0] * count, "a packet fails"
    upto = offset + line.up(len(image), line.SECTOR)
    assert chip.flash[offset:upto] == image.ljust(upto - offset, b"\xFF"), "the image does not stand at its offset"
    assert chip.flash[:offset] + chip.flash[upto:] == b"\xFF" * (CHIP_FLASH - upto + offset), "other flash is written"


# ---- the sample

def sample():
    """700 bytes in blocks of 256, the last one padded: the framing's own bytes side by side, and at both ends of the image."""
    image = bytearray(line.image(700, 0x11))
    image[0] = line.END
    image[20:28] = b"\xC0\xDB\xC0\xC0\xDB\xDB\xDC\xDD"
    image[-1] = line.ESC
    # the checksums of the first two blocks are C0 and DB, so that their headers are escaped too
    for last, total in ((255, line.END), (511, line.ESC)):
        image[last] ^= line.checksum(image[last - 255:last + 1]) ^ total
    return bytes(image)


def made():
    image = sample()
    offset, block, flash = (int(word, 0) for word in ARGUMENTS[1:])
    return {
        "args": "".join(word + "\n" for word in ARGUMENTS).encode(),
        "data/image.bin": image,
        "stdout": sent(image, offset, block, flash),
    }


# ---- the program against this script

def loads():
    """Images, offsets, block sizes and flash lengths."""
    draw = random.Random(6)
    plain = lambda size: bytes(draw.randrange(256) for _ in range(size))
    escapes = lambda size: bytes(draw.choice((0xC0, 0xDB, 0xDC, 0xDD, 0x00)) for _ in range(size))
    for block in (1, 3, 16, 256, 1000, 4095, 4096):
        for size in sorted({0, 1, block - 1, block, block + 1, 2 * block - 1, 2 * block, 4095, 4096, 4097, 8192, 12289}):
            yield plain(size), 4096 * draw.randrange(4), block, CHIP_FLASH
            yield escapes(size), 0, block, CHIP_FLASH
    for byte in (0xC0, 0xDB, 0xFF, 0x00):
        yield bytes([byte]) * 8193, 4096, 4096, CHIP_FLASH
    # up to the very end of the flash, and past it
    for size in (0, 1, 4096, 4097):
        for offset in (0, 57344, 61440, 65536, 69632, 61441, 61439):
            yield escapes(size), offset, 512, CHIP_FLASH
    yield plain(65536), 0, 4096, CHIP_FLASH
    yield plain(65537), 0, 4096, CHIP_FLASH
    yield plain(4096), 0, 4096, 4096
    yield plain(4097), 0, 4096, 4096
    # the refusals, and which comes first
    for flash in (0, 1, 4095, 4097, 65535, 65537, 4194303, 4194305, 4198400, 2 ** 32, 2 ** 32 + 65536, LARGEST, 2 ** 64 + 4096):
        yield plain(10), 0, 16, flash
    yield plain(10), 1, 0, 0
    for block in (0, 4097, 65536, 2 ** 32, 2 ** 32 + 16, LARGEST, 2 ** 64 + 16):
        yield plain(10), 0, block, CHIP_FLASH
    for offset in (1, 4095, 4097, 8191, 2 ** 32, 2 ** 32 + 4096, 2 ** 64 - 4096, LARGEST, 2 ** 64, 2 ** 64 + 4096):
        yield plain(10), offset, 16, CHIP_FLASH
    # the longest flash, and a byte too much for it
    whole = draw.randbytes(LONGEST_FLASH)
    yield whole, 0, 4096, LONGEST_FLASH
    yield whole[:-1], 0, 1000, LONGEST_FLASH
    yield whole + b"\xFF", 0, 4096, LONGEST_FLASH
    yield whole * 2, 0, 4096, LONGEST_FLASH
    yield whole, 4096, 4096, LONGEST_FLASH
    yield whole[:65536], LONGEST_FLASH - 65536, 1, LONGEST_FLASH


WRONG = (
    "", "12a", "0x", "0X", "-1", "+1", "1 ", " 1", "0xG", "0xg", "0x@", "0x`", "0x-1", "0x0x1", "00x1", "x10", "1x0", "0b1", "1_0", "1.0", "a",
    "/", ":", "\u0661", "0" * 4097,
)


def spelled(number, way):
    return (str(number), hex(number), "0X%X" % number, "0x000%x" % number, "000" + str(number))[way % 5]


def compare(send, listing):
    count = 0

    def run(*words):
        return subprocess.run([send, *words], stdout=subprocess.PIPE, stderr=subprocess.PIPE)

    def same(what, got, *wanted):
        nonlocal count
        count += 1
        assert (got.stdout, got.stderr) == wanted, "%s: %s and %r" % (what, "other packets" if got.stdout != wanted[0] else "the packets", got.stderr)

    with tempfile.TemporaryDirectory() as room:
        file = pathlib.Path(room) / "image.bin"
        for way, (image, offset, block, flash) in enumerate(loads()):
            file.write_bytes(image)
            got = run(str(file), *(spelled(number, way + k) for k, number in enumerate((offset, block, flash))))
            what = "%d bytes, offset %d, block %d, flash %d" % (len(image), offset, block, flash)
            number = refusal(len(image), *(min(number, LARGEST) for number in (offset, block, flash)))
            if number:
                assert got.stderr.startswith(b"send: refused, %d: " % number) and got.stderr.endswith(b"\n"), "%s: %r" % (what, got.stderr)
                same(what, got, b"", got.stderr)
                continue
            same(what, got, sent(image, offset, block, flash), b"")
            if listing and offset + line.up(len(image), line.SECTOR) <= CHIP_FLASH:
                text = subprocess.run([listing], input=got.stdout, stdout=subprocess.PIPE).stdout.split(b"\n")[1:-1]
                blocks = line.up(len(image), block) // block
                assert [row.split(b"\t") for row in text] == [
                    [b"%d" % (at + 1), command, b"00", b"00"]
                    for at, command in enumerate([b"08", b"02"] + [b"03"] * blocks + [b"04"])], "the listing of " + what
        file.write_bytes(b"image")
        usage = run().stderr
        assert usage.startswith(b"usage: send IMAGE OFFSET BLOCK FLASH\n"), usage
        good = [str(file), "0", "16", "65536"]
        for words in ([], good[:1], good[:3], good + ["1"]):
            same("%d arguments" % len(words), run(*words), b"", usage)
        for wrong in WRONG:
            for place in (1, 2, 3):
                same(repr(wrong), run(*good[:place], wrong, *good[place + 1:]), b"", usage)
        for name, why in ((str(file) + "x", b"No such file or directory"), ("", b"No such file or directory"), (room, b"Is a directory")):
            same(repr(name), run(name, *good[1:]), b"", name.encode() + b": " + why + b"\n")
        with open("/dev/full", "wb") as full:
            got = subprocess.run([send, *good], stdout=full, stderr=subprocess.PIPE)
        assert got.stderr == b"standard output: No space left on device\n", got.stderr
    print("%d runs are as this script makes them" % (count + 1))
    return 0


def main(args):
    if args[:1] == ["--compare"]:
        return compare(args[1], args[2] if args[2:] else None)
    folder = pathlib.Path(args[0])
    files = [(folder / name, content) for name, content in made().items()]
    if args[1:] == ["--check"]:
        wrong = [str(path) for path, content in files if not path.exists() or path.read_bytes() != content]
        print("not as this script makes them: " + " ".join(wrong) if wrong else "the sample is as this script makes it")
        return 1 if wrong else 0
    for path, content in files:
        path.parent.mkdir(exist_ok=True)
        path.write_bytes(content)
    return 0


if __name__ == "__main__":
    sys.exit(main(sys.argv[1:]))
