#!/usr/bin/env python3
"""Makes pictures with photon noise, for compare.py: photons.py KIND FILE

KIND is `sky` or `diffraction`. Writes 32 pictures of 256 rows of 512 samples to FILE, 8 MiB: samples of two bytes, the least
significant first. Each kind is a smooth picture of how much light falls on each place. A sample is the number of photons there, drawn
from the Poisson distribution, and the noise of reading, drawn from the normal distribution. The seed is fixed: each run writes the same
bytes. Takes half a minute, and needs no numpy.

- sky, 12 bits: a camera behind a telescope. An even sky that is darker in the corners, and in each picture 120 other stars.
- diffraction, 16 bits: an X-ray detector. A background that falls from the middle on, six rings, and 60 spots.
"""

import math
import random
import struct
import sys
from typing import NamedTuple

PICTURES, ROWS, COLUMNS = 32, 256, 512


class Detector(NamedTuple):
    """How photons become samples: `offset + photons * gain + noise`, at most `greatest`."""

    bits: int
    offset: float
    gain: float
    noise: float

    @property
    def greatest(self):
        return (1 << self.bits) - 1


class Spot(NamedTuple):
    """A round spot of light: its middle, its width (the standard deviation), and its photons at the middle."""

    row: float
    column: float
    width: float
    height: float


CAMERA = Detector(bits=12, offset=100, gain=0.5, noise=2.5)
PANEL = Detector(bits=16, offset=1000, gain=4, noise=6)


def poisson(chance, mean):
    """Returns a number drawn from the Poisson distribution of a mean of at least 10, by Hoermann's method PTRS ("The transformed
    rejection method for generating Poisson random variables", 1993)."""
    width = 0.931 + 2.53 * math.sqrt(mean)
    slope = 0.02483 * width - 0.059
    scale = math.log(1.1239 + 1.1328 / (width - 3.4))
    sure = 0.9277 - 3.6224 / (width - 2)
    while True:
        aside, height = chance.random() - 0.5, 1 - chance.random()
        edge = 0.5 - abs(aside)
        if edge == 0:
            continue
        number = math.floor((2 * slope / edge + width) * aside + mean + 0.43)
        if edge >= 0.07 and height <= sure:
            return number
        if number < 0 or (edge < 0.013 and height > edge):
            continue
        least = number * math.log(mean) - mean - math.lgamma(number + 1)
        if math.log(height) + scale - math.log(slope / (edge * edge) + width) <= least:
            return number


def from_middle(row, column):
    """Returns how far a place is from the middle, where a corner has the distance 1."""
    return math.hypot(row - ROWS / 2, column - COLUMNS / 2) / math.hypot(ROWS / 2, COLUMNS / 2)


def smooth(light):
    """Returns the photons at each place of a picture without spots, given a function of the distance from the middle."""
    return [light(from_middle(row, column)) for row in range(ROWS) for column in range(COLUMNS)]


def with_spots(light, spots):
    """Returns a picture to which the light of spots is added, up to five times their width from the middle."""
    light = list(light)
    for spot in spots:
        reach = 5 * spot.width
        for row in range(max(0, math.ceil(spot.row - reach)), min(ROWS, math.ceil(spot.row + reach))):
            for column in range(max(0, math.ceil(spot.column - reach)), min(COLUMNS, math.ceil(spot.column + reach))):
                apart = math.hypot(row - spot.row, column - spot.column) / spot.width
                light[row * COLUMNS + column] += spot.height * math.exp(-apart * apart / 2)
    return light


def spots(chance, count, width, heights):
    """Returns spots at random places. Ten times as bright ones are ten times as rare."""
    least, most = heights
    return [
        Spot(chance.uniform(0, ROWS), chance.uniform(0, COLUMNS), width, min(least / (1 - chance.random()), most))
        for _ in range(count)
    ]


def sensed(chance, light, detector):
    """Returns the samples of a detector."""
    numbers = (
        round(detector.offset + detector.gain * poisson(chance, photons) + chance.gauss(0, detector.noise)) for photons in light
    )
    return struct.pack(f"<{len(light)}H", *(min(max(number, 0), detector.greatest) for number in numbers))


def sky(chance):
    """Returns the samples of one picture of the sky after the other."""
    even = smooth(lambda distance: 600 * (1 - 0.2 * distance * distance))
    for _ in range(PICTURES):
        yield sensed(chance, with_spots(even, spots(chance, 120, 1.4, (100, 20000))), CAMERA)


def rings(distance):
    """Returns the photons of the background and of six rings."""
    bright = sum(300 / (1 + number) * math.exp(-(((distance - 0.15 * number - 0.1) / 0.008) ** 2)) for number in range(6))
    return 40 + 400 * math.exp(-6 * distance) + bright


def diffraction(chance):
    """Returns the samples of one picture of diffracted X-rays after the other."""
    background = smooth(rings)
    for _ in range(PICTURES):
        yield sensed(chance, with_spots(background, spots(chance, 60, 1.8, (100, 12000))), PANEL)


KINDS = {"sky": (CAMERA, sky), "diffraction": (PANEL, diffraction)}


def samples_of(kind):
    """Returns the stored samples of all pictures of a kind."""
    return b"".join(KINDS[kind][1](random.Random(kind)))


def main():
    if len(sys.argv) != 3 or sys.argv[1] not in KINDS:
        raise SystemExit(__doc__)
    with open(sys.argv[2], "wb") as file:
        file.write(samples_of(sys.argv[1]))


if __name__ == "__main__":
    main()
