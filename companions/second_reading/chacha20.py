"""The ChaCha20 stream (RFC 8439), to check the program by."""
import struct


def words_of(key, count):
    """The first words of the ChaCha20 stream of a key (RFC 8439), from block 0 on, with a nonce of zeros."""
    words = []
    for block in range(-(-count // 16)):
        start = [*struct.unpack("<4I", b"expand 32-byte k"), *struct.unpack("<8I", key), block, 0, 0, 0]
        now = start[:]
        for _ in range(10):
            for a, b, c, d in (
                (0, 4, 8, 12),
                (1, 5, 9, 13),
                (2, 6, 10, 14),
                (3, 7, 11, 15),
                (0, 5, 10, 15),
                (1, 6, 11, 12),
                (2, 7, 8, 13),
                (3, 4, 9, 14),
            ):
                for to, by, turned, bits in ((a, b, d, 16), (c, d, b, 12), (a, b, d, 8), (c, d, b, 7)):
                    now[to] = now[to] + now[by] & 0xFFFFFFFF
                    mixed = now[turned] ^ now[to]
                    now[turned] = (mixed << bits | mixed >> 32 - bits) & 0xFFFFFFFF
        words += [one + other & 0xFFFFFFFF for one, other in zip(now, start)]
    return words[:count]
