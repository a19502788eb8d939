#!/usr/bin/env python3
"""How many bits a frame has on the bus, and its CRC sequence, bit by bit after CAN Specification 2.0: the second computation from
which the table of `times.rt` in test_memories comes. `canframelen` of can-utils counts the same for data frames, with the three
bits of the intermission. Usage: tools/test/frame_bits.py FRAME.., each as candump writes it: 123#1122, 18FF1234#DEAD, 123#R."""
import sys

GENERATOR = 0b1100010110011001  # x^15 + x^14 + x^10 + x^8 + x^7 + x^4 + x^3 + 1
END = 10  # CRC delimiter, ACK slot, ACK delimiter, end of frame


def bits_of(number, width):
    return [number >> place & 1 for place in reversed(range(width))]


def arbitration_bits(identifier, extended, remote):
    """The start of frame, and the arbitration field behind it."""
    if extended:
        return [0, *bits_of(identifier >> 18, 11), 1, 1, *bits_of(identifier % (1 << 18), 18), int(remote)]
    return [0, *bits_of(identifier, 11), int(remote)]


def checked_bits(identifier, extended, remote, code, data):
    """What the CRC sequence is computed of."""
    arbitration = arbitration_bits(identifier, extended, remote)
    return [*arbitration, 0, 0, *bits_of(code, 4), *(bit for byte in data for bit in bits_of(byte, 8))]


def crc_of(bits):
    remainder = 0
    for bit in [*bits, *[0] * 15]:
        remainder = remainder << 1 | bit
        if remainder >> 15:
            remainder ^= GENERATOR
    return remainder


def stuffed(bits):
    sent, run = [], 0
    for bit in bits:
        run = run + 1 if sent and sent[-1] == bit else 1
        sent.append(bit)
        if run == 5:
            sent.append(1 - bit)
            run = 1
    return sent


def stuffed_part(checked):
    """The bits on the bus up to the end of the CRC sequence, with the stuff bits among them and behind them."""
    return stuffed([*checked, *bits_of(crc_of(checked), 15)])


def main():
    for text in sys.argv[1:]:
        identifier, data = text.split("#")
        remote = data[:1] == "R"
        content = b"" if remote else bytes.fromhex(data)
        code = int(data[1:] or "0", 16) if remote else len(content)
        checked = checked_bits(int(identifier, 16), len(identifier) == 8, remote, code, content)
        print(f"{text}: {len(stuffed_part(checked)) + END} bits, CRC sequence {crc_of(checked):04x}")


if __name__ == "__main__":
    if len(sys.argv) < 2:
        sys.exit(__doc__)
    main()
