"""What the sounds of 'snd ' resources are, and what their WAV files say, as small models.

They are written from Inside Macintosh: Sound, from Apple's description of 'ima4' and from Microsoft's of WAVE, and share nothing with the program.
"""
import io
import struct
import wave

# the sizes of the steps of IMA ADPCM; after a code the place in them moves so far
STEPS = """7 8 9 10 11 12 13 14 16 17 19 21 23 25 28 31 34 37 41 45 50 55 60 66 73 80 88 97 107 118 130 143 157 173 190 209 230 253 279 307 337 371 408
449 494 544 598 658 724 796 876 963 1060 1166 1282 1411 1552 1707 1878 2066 2272 2499 2749 3024 3327 3660 4026 4428 4871 5358 5894 6484 7132 7845
8630 9493 10442 11487 12635 13899 15289 16818 18500 20350 22385 24623 27086 29794 32767"""
SIZES = [int(it) for it in STEPS.split()]
MOVES = [-1, -1, -1, -1, 2, 4, 6, 8]

SOUND, BUFFER = 0x8050, 0x8051


def commands(*rows, form=1, synths=((5, 0xA0),)):
    """The front of a resource: its format, its synthesizers or 0, and its commands, each of three numbers. Their offsets are those of what follows it."""
    head = struct.pack(">2H", 1, len(synths)) + b"".join(struct.pack(">HI", *it) for it in synths) if form == 1 else struct.pack(">2H", 2, 0)
    end = len(head) + 2 + 8 * len(rows)
    return head + struct.pack(">H", len(rows)) + b"".join(struct.pack(">2HI", one, two, three + (end if one & 0x8000 else 0)) for one, two, three in rows)


def standard(rate, samples, count=None):
    """A standard sound header and its samples."""
    return struct.pack(">5I2B", 0, len(samples) if count is None else count, rate, 0, 0, 0, 60) + samples


def extended(rate, channels, bits, frames, samples):
    """An extended one."""
    return struct.pack(">5I2BI", 0, channels, rate, 0, 0, 255, 60, frames) + bytes(22) + struct.pack(">H", bits) + bytes(14) + samples


def compressed(rate, channels, name, bits, frames, samples, number=-1):
    """A compressed one."""
    return struct.pack(">5I2BI", 0, channels, rate, 0, 0, 254, 60, frames) + bytes(14) + name + bytes(12) + struct.pack(">h2HH", number, 0, 0, bits) + samples


def packet(data):
    """The 64 samples of a packet of 'ima4'."""
    head = int.from_bytes(data[:2], "big", signed=True)
    level, place = head & ~127, head & 127
    out = []
    for byte in data[2:34]:
        for code in (byte & 15, byte >> 4):
            size = SIZES[place]
            move = (size >> 3) + sum(size >> (2 - bit) for bit in (2, 1, 0) if code >> bit & 1)
            level = max(-32768, min(32767, level - move if code & 8 else level + move))
            place = max(0, min(88, place + MOVES[code & 7]))
            out.append(level)
    return out


def ima4(data, channels):
    """The samples of packets, frame after frame."""
    packets = [packet(data[it : it + 34]) for it in range(0, len(data), 34)]
    sides = [[sample for one in packets[side::channels] for sample in one] for side in range(channels)]
    return [sample for frame in zip(*sides) for sample in frame]


def words(data, order):
    """Samples of 16 bits."""
    return [int.from_bytes(data[it : it + 2], order, signed=True) for it in range(0, len(data), 2)]


def as_bytes(samples):
    """Samples of 8 bits in two's complement as bytes of which 128 is silence."""
    return [(it + 128) % 256 for it in samples]


def read_wav(data):
    """The frames of a second, the channels, the bits of a sample and the samples of a WAV file: by Python's reader, and the fields that it skips."""
    riff, size, kind, name, long = struct.unpack("<4sI4s4sI", data[:20])
    assert (riff, kind, name, long) == (b"RIFF", b"WAVE", b"fmt ", 16) and size + 8 == len(data)
    form, channels, hertz, second, frame, bits = struct.unpack("<2H2I2H", data[20:36])
    name, long = struct.unpack("<4sI", data[36:44])
    assert (name, form, frame, second) == (b"data", 1, channels * bits // 8, hertz * frame) and len(data) == 44 + long + long % 2
    with wave.open(io.BytesIO(data)) as file:
        assert (file.getframerate(), file.getnchannels(), 8 * file.getsampwidth()) == (hertz, channels, bits)
        samples = file.readframes(file.getnframes())
    assert samples == data[44 : 44 + long] and data[44 + long :] == bytes(long % 2)
    return hertz, channels, bits, list(samples) if bits == 8 else words(samples, "little")
