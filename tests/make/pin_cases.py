#!/usr/bin/env python3
"""Stored cases of pins: seconds to degrees, by whole numbers alone.

Written into crates/part_cases. A line is

    pin NORTH EAST          the bit patterns of latitude and longitude
    sixteenths SECONDS      sixteen times the degrees, or - where the seconds are no multiple of 225
    range FIRST LAST        a digest of the patterns of n seconds north and n seconds west, for n from FIRST to LAST

The ranges together are every second from -648,000 to 648,000. The pattern of a quotient is worked out here without a
division of doubles: of the fraction's binary digits 53 are kept, and the rest rounds them, a tie to the even one.
Rattle's compiled division, which the program runs, has no part in it.
"""
from stored import write_cases

LAST = 648000
STEP = 9000
PRIME = 4294967291


def pattern(seconds):
    """The bits of the double that is nearest to seconds / 3600."""
    if seconds == 0:
        return 0
    numerator, denominator = abs(seconds), 3600
    exponent = numerator.bit_length() - denominator.bit_length()
    # numerator / denominator is from 2 ** exponent up to below 2 ** (exponent + 1), after this.
    if (numerator << max(-exponent, 0)) < (denominator << max(exponent, 0)):
        exponent -= 1
    shift = 52 - exponent
    numerator <<= max(shift, 0)
    denominator <<= max(-shift, 0)
    digits, rest = divmod(numerator, denominator)
    if 2 * rest > denominator or (2 * rest == denominator and digits % 2 == 1):
        digits += 1
    # A carry out of the 53 digits is one more in the exponent's field, as it should be.
    return (seconds < 0) << 63 | ((exponent + 1023) << 52) + digits - (1 << 52)


def pin(north, east):
    return "pin %d %d" % (north, east), "%016x %016x" % (pattern(north), pattern(east))


def sixteenths(seconds):
    return "sixteenths %d" % seconds, "-" if seconds % 225 else "%d" % (seconds // 225)


def digest(first, last):
    d = 0
    for n in range(first, last + 1):
        for p in pattern(n), pattern(-n):
            d = (d * 65599 + p) % PRIME
    return "range %d %d" % (first, last), "%d" % d


# 3 tells a product with the double of 1 / 3600 from the quotient, 5 two divisions by 60; 0 is +0.
cases = [pin(0, 0), pin(3, 5), pin(-3, -5), pin(324000, 648000), pin(-324000, -648000), pin(1800, -1), pin(215700, 38700)]
cases += [pin(2147483647, -2147483647)]
cases += [sixteenths(n) for n in (0, 225, -225, 224, -226, 3600, 324000, -324000, 647775, 648000, -648000, 647999)]
cases += [digest(0, 0), digest(1, 0)]
cases += [digest(first, min(first + STEP - 1, LAST)) for first in range(0, LAST + 1, STEP)]
write_cases("pin_cases", cases)
