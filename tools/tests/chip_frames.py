"""Frames for a check of the emulated core (`make -C tools/sink check_core`): `chip_frames.py FILE` writes a session's
begin and 1,900 words of all kinds, with some noise."""
import random
import sys
from collections.abc import Iterator
from pathlib import Path

sys.path.insert(0, str(Path(__file__).resolve().parent))

from sink_frames import LINE, OUTPUT, REST, SPEED, begin_frame, switches, words_frame


def words(chance: random.Random) -> Iterator[tuple[int, int]]:
    """Steps, outputs and speeds."""
    for _ in range(1860):
        kind = chance.random()
        if kind < 0.02:
            yield 9000 | 100 << 24, 1 | REST
            yield from switches(chance.randrange(3), chance.randrange(2**44), chance.getrandbits(1), 0, 1, 2)
        elif kind < 0.06:
            yield chance.randrange(30_000) * 128, OUTPUT | SPEED
        else:
            slope = chance.randrange(30, 128) << 24 | LINE * chance.getrandbits(1)
            yield chance.randint(400, 3000) | slope, chance.getrandbits(6)


def frames(chance: random.Random) -> Iterator[bytes]:
    """A session, with frames that come twice and bytes that are none."""
    given = list(words(chance))
    yield begin_frame(65536)
    for at in range(0, len(given), 48):
        frame = words_frame(65537, at, *given[at:at + 48])
        yield frame
        if chance.random() < 0.3:
            yield chance.randbytes(20) + frame


if __name__ == "__main__":
    Path(sys.argv[1]).write_bytes(b"".join(frames(random.Random(5))))
