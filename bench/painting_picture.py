#!/usr/bin/env python3
"""Prints the SHA-256 of the picture that mix_painting paints of twelve layers, by the rules.

    bench/painting_picture.py

Each pixel is worked out by itself, channel by channel, in the order of the layers.
"""

import hashlib

WIDTH, HEIGHT = 1920, 1080
BARS = [(235, 235, 235), (235, 235, 16), (16, 235, 235), (16, 235, 16),
        (235, 16, 235), (235, 16, 16), (16, 16, 235), (16, 16, 16)]


def laid(added, above, alpha, below):
    """A channel over another: what the mode makes of both counts as the alpha says, to the nearest."""
    met = min(255, above + below) if added else above
    return (met * alpha + below * (255 - alpha) + 127) // 255


def line(layers):
    """The bytes of a line of the canvas with these layers over the lowest one."""
    pixels = [BARS[x // 4 * 8 // 480 % 8] for x in range(WIDTH)]
    for layer in layers:
        left, alpha = 83 * layer % 960, 64 + 16 * layer
        for x in range(left, left + 960):
            bar = BARS[((x - left) // 2 * 8 // 480 + layer) % 8]
            pixels[x] = [laid(layer % 2 == 0, s, alpha, d) for s, d in zip(bar, pixels[x])]
    return bytes(channel for pixel in pixels for channel in (*pixel, 255))


def digest():
    """All lines that the same layers cross look the same, since a raster's do."""
    lines = {}
    picture = hashlib.sha256()
    for y in range(HEIGHT):
        layers = tuple(i for i in range(1, 12) if 47 * i % 540 <= y < 47 * i % 540 + 540)
        if layers not in lines:
            lines[layers] = line(layers)
        picture.update(lines[layers])
    return picture.hexdigest()


if __name__ == "__main__":
    print(digest())
