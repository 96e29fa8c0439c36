"""How far colours are apart: their lightness on grey paper, and their distance as each kind of colour blindness sees them."""

import math

# what an eye sees that lacks one kind of cones wholly, of linear red, green and blue (Machado, Oliveira and Fernandes, 2009)
EYES = {
    "normal": ((1, 0, 0), (0, 1, 0), (0, 0, 1)),
    "protanopia": ((0.152286, 1.052583, -0.204868), (0.114503, 0.786281, 0.099216), (-0.003882, -0.048116, 1.051998)),
    "deuteranopia": ((0.367322, 0.860646, -0.227968), (0.280085, 0.672501, 0.047413), (-0.011820, 0.042940, 0.968881)),
    "tritanopia": ((1.255528, -0.076749, -0.178779), (-0.078411, 0.930809, 0.147602), (0.004733, 0.691367, 0.303900)),
}


def linear(colour):
    """Red, green and blue of `#rrggbb`, as amounts of light."""
    parts = [int(colour[at : at + 2], 16) / 255 for at in (1, 3, 5)]
    return [it / 12.92 if it <= 0.04045 else ((it + 0.055) / 1.055) ** 2.4 for it in parts]


def lab(red, green, blue):
    """The colour in CIE L*a*b*, of which the first number is the lightness, from 0 to 100."""
    red, green, blue = (min(1, max(0, it)) for it in (red, green, blue))
    x = (0.4124564 * red + 0.3575761 * green + 0.1804375 * blue) / 0.95047
    y = 0.2126729 * red + 0.7151522 * green + 0.0721750 * blue
    z = (0.0193339 * red + 0.1191920 * green + 0.9503041 * blue) / 1.08883
    x, y, z = (it ** (1 / 3) if it > 216 / 24389 else (24389 / 27 * it + 16) / 116 for it in (x, y, z))
    return 116 * y - 16, 500 * (x - y), 200 * (y - z)


def lightness(colour):
    return lab(*linear(colour))[0]


def contrast(one, other):
    """How many times as bright the one is as the other, as readers of pages count it: from 1 to 21."""
    bright, dark = sorted((sum(a * b for a, b in zip((0.2126, 0.7152, 0.0722), linear(it))) + 0.05 for it in (one, other)), reverse=True)
    return bright / dark


def seen(colour, eye):
    light = linear(colour)
    return lab(*(sum(a * b for a, b in zip(row, light)) for row in EYES[eye]))


def pairs(colours):
    return [(one, other) for at, one in enumerate(colours) for other in colours[:at]]


def least_lightness(colours):
    """The least difference in lightness of two of the colours."""
    return min(abs(lightness(one) - lightness(other)) for one, other in pairs(colours))


def least_beside(colours):
    """The same of two that follow each other."""
    return min(abs(lightness(one) - lightness(other)) for one, other in zip(colours, colours[1:]))


def least_distance(colours, eye):
    """The least distance of two of the colours, as the eye sees them. One of 2 is just seen where they touch."""
    return min(math.dist(seen(one, eye), seen(other, eye)) for one, other in pairs(colours))
