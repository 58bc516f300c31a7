"""Images of at most 256 colours as files: PNG, and GIF with several frames. A pixel is one byte, the number of its
colour in the palette.
"""

import struct
import zlib
from collections.abc import Iterable, Iterator, Sequence
from dataclasses import dataclass

Colour = tuple[int, int, int]

# Codes of a GIF have at most so many bits, and its blocks of data so many bytes.
MOST_BITS, MOST_BLOCK = 12, 255


@dataclass
class Image:
    """An image: its size, and its pixels, row after row."""

    width: int
    height: int
    pixels: bytearray

    def row(self, y: int) -> bytearray:
        """The pixels of a row."""
        return self.pixels[y * self.width:(y + 1) * self.width]


# PNG.

def png(image: Image, palette: Sequence[Colour]) -> bytes:
    """The file of an image."""
    head = struct.pack(">IIBBBBB", image.width, image.height, 8, 3, 0, 0, 0)
    rows = b"".join(b"\0" + image.row(y) for y in range(image.height))
    chunks = (b"IHDR", head), (b"PLTE", bytes_of(palette)), (b"IDAT", zlib.compress(rows, 9)), (b"IEND", b"")
    return b"\x89PNG\r\n\x1a\n" + b"".join(chunk(name, data) for name, data in chunks)


def chunk(name: bytes, data: bytes) -> bytes:
    """A part of a PNG."""
    return struct.pack(">I", len(data)) + name + data + struct.pack(">I", zlib.crc32(name + data))


def bytes_of(palette: Sequence[Colour]) -> bytes:
    """The colours one after another, three bytes each."""
    return b"".join(map(bytes, palette))


# GIF.

def gif(frames: Iterable[tuple[Image, int]], palette: Sequence[Colour], transparent: int) -> Iterator[bytes]:
    """The parts of the file that shows these frames over and over, each for so many hundredths of a second. No frame
    has the colour `transparent`: it stands for what stays as it was in the frame before.
    """
    bits = max(2, (len(palette) - 1).bit_length())
    before: Image | None = None
    for image, delay in frames:
        if before is None:
            colours = bytes_of(palette).ljust(3 << bits, b"\0")
            yield struct.pack("<6sHHBBB", b"GIF89a", image.width, image.height, 0xF0 | bits - 1, 0, 0) + colours
            yield b"\x21\xff\x0bNETSCAPE2.0\x03\x01\0\0\0"
        yield frame(image, before, delay, bits, transparent)
        before = image
    yield b"\x3b"


def frame(image: Image, before: Image | None, delay: int, bits: int, transparent: int) -> bytes:
    """A frame: of the least rectangle with all that changed, what did so."""
    left, top, right, bottom = changed(image, before) if before else (0, 0, image.width, image.height)
    pixels = bytearray()
    for y in range(top, bottom):
        row = image.row(y)[left:right]
        old = before.row(y)[left:right] if before else None
        pixels += row if old is None else bytes(transparent if a == b else b for a, b in zip(old, row))
    control = struct.pack("<4sHBB", b"\x21\xf9\x04\x05", delay, transparent, 0)
    place = struct.pack("<BHHHHB", 0x2C, left, top, right - left, bottom - top, 0)
    data = compressed(pixels, bits)
    blocks = (data[at:at + MOST_BLOCK] for at in range(0, len(data), MOST_BLOCK))
    return control + place + bytes([bits]) + b"".join(bytes([len(block)]) + block for block in blocks) + b"\0"


def changed(image: Image, before: Image) -> tuple[int, int, int, int]:
    """The least rectangle with all pixels that differ: its left, its top, and what is right of it and below. Where none
    differs, it is the first pixel.
    """
    left, right, rows = image.width, 0, []
    for y in range(image.height):
        new, old = image.row(y), before.row(y)
        if new != old:
            differ = int.from_bytes(new, "big") ^ int.from_bytes(old, "big")
            left = min(left, image.width - (differ.bit_length() + 7) // 8)
            right = max(right, image.width - ((differ & -differ).bit_length() - 1) // 8)
            rows.append(y)
    return (left, rows[0], right, rows[-1] + 1) if rows else (0, 0, 1, 1)


def compressed(pixels: bytes | bytearray, bits: int) -> bytes:
    """The pixels by the method of Lempel, Ziv and Welch, as GIF has it. Each is less than 2 to the power of `bits`."""
    clear, end = 1 << bits, (1 << bits) + 1
    out, waiting, held = bytearray(), clear, bits + 1
    size, last, codes = bits + 1, end, {}
    code = pixels[0]
    for pixel in memoryview(pixels)[1:]:
        key = code << 8 | pixel
        known = codes.get(key)
        if known is not None:
            code = known
            continue
        waiting |= code << held
        held += size
        last += 1
        codes[key] = last
        if last >> size:
            size += 1
        if last == (1 << MOST_BITS) - 1:
            waiting |= clear << held
            held += size
            size, last, codes = bits + 1, end, {}
        while held >= 8:
            out.append(waiting & 255)
            waiting >>= 8
            held -= 8
        code = pixel
    waiting |= code << held
    held += size
    size += last + 1 >> size  # a reader has one more code by then
    waiting |= end << held
    return bytes(out) + waiting.to_bytes((held + size + 7) // 8, "little")
