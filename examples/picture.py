#!/usr/bin/env python3
"""picture.py [SCALE] < ROWS > PICTURE.png: the `row` lines of a sheet or of an answer, or a PAM file, as a picture over a checkerboard.

Other lines than rows are passed over, so a sheet gives its source and an answer its last layer. The pixels of rows are premultiplied
(RULES 2.1); those of a PAM file are not.
"""
import struct
import sys
import zlib


def from_rows(text):
    """Rows of premultiplied pixels."""
    lines = [line.split("\t")[1:] for line in text.decode().split("\n") if line.startswith("row\t")]
    return [[tuple(bytes.fromhex(pixel)) for pixel in line] for line in lines]


def from_pam(data):
    """Rows of premultiplied pixels of an RGB_ALPHA file."""
    head, body = data.split(b"ENDHDR\n", 1)
    said = dict(line.split(None, 1) for line in head.decode().split("\n") if " " in line)
    width, height = int(said["WIDTH"]), int(said["HEIGHT"])
    pixels = [body[i : i + 4] for i in range(0, 4 * width * height, 4)]
    premultiplied = [tuple((c * p[3] + 127) // 255 for c in p[:3]) + (p[3],) for p in pixels]
    return [premultiplied[y * width : (y + 1) * width] for y in range(height)]


def over(pixel, x, y):
    """A premultiplied pixel over the checkerboard's square at (x, y)."""
    ground = 255 if (x // 8 + y // 8) % 2 else 220
    return bytes(c + ground * (255 - pixel[3]) // 255 for c in pixel[:3])


def chunk(name, data):
    body = name + data
    return struct.pack(">I", len(data)) + body + struct.pack(">I", zlib.crc32(body))


def png(rows, scale):
    width, height = scale * len(rows[0]), scale * len(rows)
    lines = bytearray()
    for y in range(height):
        lines.append(0)
        for x in range(width):
            lines += over(rows[y // scale][x // scale], x, y)
    head = struct.pack(">IIBBBBB", width, height, 8, 2, 0, 0, 0)
    return b"\x89PNG\r\n\x1a\n" + chunk(b"IHDR", head) + chunk(b"IDAT", zlib.compress(bytes(lines), 9)) + chunk(b"IEND", b"")


def main():
    scale = int(sys.argv[1]) if len(sys.argv) > 1 else 12
    data = sys.stdin.buffer.read()
    rows = from_pam(data) if data.startswith(b"P7\n") else from_rows(data)
    if not rows:
        sys.exit("picture.py: no rows")
    sys.stdout.buffer.write(png(rows, scale))


main()
