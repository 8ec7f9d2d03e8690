"""Numbers that are known modulo a power of two."""


def nearest(guess: int, reference: int, period: int) -> int:
    """The number next to `guess` that has this temporal reference."""
    half = period // 2
    return guess + (reference - guess + half) % period - half


def signed(difference: int, bits: int) -> int:
    """The least number that is this one modulo 2^bits."""
    half = 1 << bits - 1
    return (difference + half) % (1 << bits) - half
