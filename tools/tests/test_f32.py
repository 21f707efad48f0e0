"""f32 numbers: text to the nearest, and back to the shortest text."""

from __future__ import annotations

import random
import struct
import unittest
from decimal import Context, Decimal
from fractions import Fraction

from mowfrost import f32

# Decimals that are hard to round, and the bits that are right.
HARD = {
    # Half-way between 3f800001 and 3f800002, and a little beside it; by way of f64 all three are the same.
    "1.00000017881393432617187499": 0x3F800001,
    "1.000000178813934326171875": 0x3F800002,
    "1.00000017881393432617187501": 0x3F800002,
    # Half-way between 3f800000 and 3f800001.
    "1.000000059604644775390625": 0x3F800000,
    "1.0000000596046447753906250000000000000000000000000000000000000001": 0x3F800001,
    "1.000000059604644775390625" + "0" * 5000 + "1": 0x3F800001,
    "1.000000059604644775390625" + "0" * 5000: 0x3F800000,
    "-1.00000017881393432617187499": 0xBF800001,
    # Whole numbers from 2^24 on.
    "16777216": 0x4B800000,
    "16777217": 0x4B800000,
    "16777217.0000000000000000000000001": 0x4B800001,
    "16777218.9999999999999999999999999": 0x4B800001,
    "16777219": 0x4B800002,
    # A carry into the next power of two.
    "1.99999997": 0x40000000,
    "0.99999999": 0x3F800000,
    # The least normal number, the greatest below it, and on either side of half-way between them.
    "1.1754943508222875e-38": 0x00800000,
    "1.1754942e-38": 0x007FFFFF,
    "1.17549428075736429172e-38": 0x007FFFFF,
    "1.17549428075736429173e-38": 0x00800000,
    # 2^-150, half of the least above zero: to even, that is to 0.
    "7.00649232162408535461864791644958065640130970938257885878534141944895541342930300743319094181060791015625e-46": 0,
    "7.00649232162408535461864791644958065640130970938257885878534141944895541342930300743319094181060791015626e-46": 1,
    "1.4e-45": 1,
    "9e-47": 0,
    # The greatest, and the last number that still rounds to it: one below 2^128 - 2^103.
    "3.4028234663852886e38": 0x7F7FFFFF,
    "340282356779733661637539395458142568447": 0x7F7FFFFF,
    # Zeros.
    "0": 0,
    "-0": 0x80000000,
    "-0.000e7": 0x80000000,
    "-1e-60": 0x80000000,
    "0e999999999999999999999999": 0,
    "1e-999999999999999999999999": 0,
    # Long and oddly written ones.
    "0." + "3" * 5000: 0x3EAAAAAB,
    "0." + "0" * 5000 + "1e5001": 0x3F800000,
    "1" + "0" * 5000 + "e-5000": 0x3F800000,
    "000000000001": 0x3F800000,
    ".5": 0x3F000000,
    "5.": 0x40A00000,
    "+1": 0x3F800000,
    "1E+2": 0x42C80000,
    "1e-0000000000000000000000001": 0x3DCCCCCD,
    "8589934592": 0x50000000,
}

# From half-way between the greatest f32 and 2^128 on.
TOO_LARGE = ("340282356779733661637539395458142568448", "-3.5e38", "1e39", "1e999999999999999999999", "9" * 5000)

NO_NUMBER = ("", ".", "e5", "1e", "1e+", "1..2", "--1", "1 ", "nan", "inf", "-Infinity", "0x10", "1_0", "1,5", "1f")
NO_NUMBER += ("1d3", "\u0661")  # an Arabic digit

SHORTEST = {
    0x41000000: "8",
    0xC1000000: "-8",
    0x3DCCCCCD: "0.1",
    0xBF666666: "-0.9",
    0x3EAAAAAB: "0.33333334",
    0x4B800001: "16777218",
    0x50000000: "8589935000",
    0x35800000: "9.536743e-7",
    0x00000000: "0",
    0x80000000: "0",
    0x00000001: "1e-45",
    0x00800000: "1.1754944e-38",
    0x7F7FFFFF: "3.4028235e+38",
    0x5A0E1BCA: "1e+16",
    0x39800000: "0.00024414062",  # as near as 0.00024414063, and even
    0x49FFFFFE: "2097151.8",  # as near as 2097151.7, and even
    0x0F800000: "1.2621775e-29",  # 1.2621774e-29 is nearer, but is the f32 below
}


def spread(count: int) -> list[int]:
    """Bits of finite numbers above zero, of all sizes, always the same ones."""
    chance = random.Random(1)
    return [chance.randrange(1, 0x7F7FFFFF) for _ in range(count)] + [power << 23 for power in range(1, 255)]


def digits(text: str) -> int:
    """How many digits a decimal has, without zeros at its ends."""
    return len(Context(prec=200).normalize(Decimal(text)).as_tuple().digits)


class FromText(unittest.TestCase):
    def test_hard_cases(self) -> None:
        for text, bits in HARD.items():
            with self.subTest(text=text[:60]):
                self.assertEqual(f"{f32.from_text(text):08x}", f"{bits:08x}")

    def test_the_usual_road_rounds_twice(self) -> None:
        """The first hard case is one: else it would show nothing."""
        twice = struct.unpack("<I", struct.pack("<f", float("1.00000017881393432617187499")))[0]
        self.assertEqual(twice, 0x3F800002)

    def test_half_way_and_beside_it(self) -> None:
        exactly = Context(prec=200)
        for low in spread(1000):
            middle = exactly.divide(exactly.add(Decimal(f32.value(low)), Decimal(f32.value(low + 1))), Decimal(2))
            step = middle.scaleb(-150, exactly)
            even = low + low % 2
            self.assertEqual(f32.from_text(str(middle)), even)
            self.assertEqual(f32.from_text(str(Context(prec=400).subtract(middle, step))), low)
            self.assertEqual(f32.from_text(str(Context(prec=400).add(middle, step))), low + 1)

    def test_each_f32_is_its_own_nearest(self) -> None:
        for bits in spread(1000):
            self.assertEqual(f32.from_text(str(Decimal(f32.value(bits)))), bits)

    def test_too_large(self) -> None:
        for text in TOO_LARGE:
            with self.subTest(text=text[:60]), self.assertRaisesRegex(ValueError, "is too large for an f32"):
                f32.from_text(text)

    def test_no_number(self) -> None:
        for text in NO_NUMBER:
            with self.subTest(text=text), self.assertRaisesRegex(ValueError, "is not a number"):
                f32.from_text(text)


class Shortest(unittest.TestCase):
    def test_known(self) -> None:
        for bits, text in SHORTEST.items():
            with self.subTest(bits=f"{bits:08x}"):
                self.assertEqual(f32.shortest(bits), text)

    def test_names_the_same_f32_and_no_shorter_one_does(self) -> None:
        for bits in spread(500):
            text = f32.shortest(bits)
            self.assertEqual(f32.from_text(text), bits)
            length = digits(text)
            for way in ("ROUND_DOWN", "ROUND_UP") if length > 1 else ():
                shorter = Context(prec=length - 1, rounding=way).create_decimal(Decimal(f32.value(bits)))
                self.assertNotEqual(f32.from_decimal(shorter), bits)


class ToText(unittest.TestCase):
    """The way back from from_text."""

    def check(self, bits: int, farthest: Fraction = f32.ANYWHERE) -> str:
        """The text has just these bits, and lies no farther off."""
        text = f32.to_text(bits, farthest)
        self.assertEqual(f"{f32.from_text(text):08x}", f"{bits:08x}", text)
        self.assertLessEqual(abs(f32.exact(text) - Fraction(f32.value(bits))), farthest, text)
        return text

    def test_zeros_keep_their_sign(self) -> None:
        self.assertEqual((self.check(0), self.check(0x80000000)), ("0", "-0"))

    def test_known(self) -> None:
        for bits, text in SHORTEST.items():
            self.assertEqual(self.check(bits), "-0" if bits == 0x80000000 else text)
            self.assertEqual(self.check(bits ^ 0x80000000).lstrip("-"), text.lstrip("-"))

    def test_bits_of_all_sorts(self) -> None:
        """By chance, about every power of two, the first and the last subnormal ones, the largest; both signs."""
        about = [near for power in range(255) for near in range((power << 23) - 2, (power << 23) + 3) if near >= 0]
        ends = [*range(200), *range(0x7FFF80, 0x800080), *range(0x7F7FFF80, 0x7F800000)]
        chance = random.Random(2)
        small = [chance.randrange(0x800000) for _ in range(300)]
        for bits in {*spread(1500), *about, *ends, *small}:
            self.check(bits)
            self.check(bits | 0x80000000)

    def test_no_farther_off(self) -> None:
        for bits, farthest, text in (
            (0x4911C085, Fraction(1, 10000), "597000.3125"),
            (0x4911C085, Fraction(1, 80), "597000.3"),
            (0x50000000, Fraction(1), "8589934592"),
            (0x50000000, Fraction(2), "8589934590"),
            (0x3DCCCCCD, Fraction(1, 10**8), "0.1"),
            (0x3DCCCCCD, Fraction(1, 10**10), "0.1000000015"),
            (0x3DCCCCCD, Fraction(0), "0.100000001490116119384765625"),
            (0x7F7FFFFF, Fraction(1, 2), "3.4028234663852885981170418348451692544e+38"),
        ):
            self.assertEqual(self.check(bits, farthest), text)
        for farthest in (Fraction(0), Fraction(1, 10**6), Fraction(1, 3), Fraction(10**6)):
            for bits in spread(200):
                length = digits(self.check(bits, farthest))
                for way in ("ROUND_DOWN", "ROUND_UP") if length > 1 else ():
                    shorter = Context(prec=length - 1, rounding=way).create_decimal(Decimal(f32.value(bits)))
                    off = abs(Fraction(shorter) - Fraction(f32.value(bits)))
                    self.assertTrue(off > farthest or f32.from_decimal(shorter) != bits, shorter)

    def test_with_more_room_it_is_never_longer(self) -> None:
        for bits in spread(200):
            lengths = [digits(f32.to_text(bits, Fraction(1, 10**n))) for n in range(9)]
            self.assertEqual(lengths, sorted(lengths))

    def test_what_is_no_number(self) -> None:
        for bits in (0x7F800000, 0xFF800000, 0x7FC00000, 0xFFFFFFFF, 0x7F800001):
            with self.assertRaisesRegex(ValueError, f"{bits:08x} is no number but an infinity or a NaN"):
                f32.to_text(bits)


if __name__ == "__main__":
    unittest.main()
