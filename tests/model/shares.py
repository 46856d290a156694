"""The shares of choices by the choices before: slots, and how two of them tell one share. All is by
docs/FORMATS.md, with its words."""
from typing import List

from .coder import GREATEST, Writer

SLOTS = 1 << 20
SETS = 102
NODE_BITS = 50
OFF_GRID = 1024


def slot_of(set_: int, context: int, place: int) -> int:
    if (set_ == NODE_BITS or context >= OFF_GRID) and place > 511:
        below = place.bit_length() - 6
        place = (place >> below) + 64 * (below + 4)
    h = 0
    for n in (set_, context, place):
        q = ((h + n) & GREATEST) * 2654435761 & GREATEST
        h = q % 131072 * 32768 + q // 131072
    return h % SLOTS


def learned(slot: int, bit: bool) -> int:
    share, count = slot // 1024, slot % 1024
    part = 65536 // (count + 2)
    if bit:
        share += (4194303 - share) * part // 65536
    else:
        share -= (share * part + 65535) // 65536
    return share * 1024 + min(count + 1, 127)


def log(n: int) -> int:
    top = n.bit_length() - 1
    return 1024 * top + (n * 1024 >> top) % 1024


def strength(share: int) -> int:
    return log(share) - log(65536 - share)


def power(lead: int) -> int:
    n = min(lead // 32768, 16383) if lead > 0 else 0
    return (1024 + n % 1024) << n // 1024


def mixed(weights: List[int], shares: List[int]) -> int:
    lead = sum(weight * strength(share) for weight, share in zip(weights, shares))
    above, below = power(lead), power(-lead)
    return max(min(65536 * above // (above + below + 1), 65535), 1)


def moved(weight: int, strong: int, missed: int) -> int:
    if strong > 0:
        return min(weight + strong * missed // 524288, 65535)
    return max(weight - -strong * missed // 524288, 0)


class Shares:
    """What choices before tell of the next."""

    def __init__(self) -> None:
        self.slots = [1 << 31] * SLOTS
        self.weights = [[16384, 16384] for _ in range(SETS)]

    def choice(
        self, coder: Writer, set_: int, contexts: List[int], place: int, wanted: bool
    ) -> bool:
        """A choice with these contexts: the kind, and the detail if there is one. The bits below
        the top one of a number have only the kind."""
        counted = contexts[:1] if set_ % 3 == 2 else contexts
        at = [slot_of(set_, context, place) for context in counted]
        shares = [max(self.slots[i] // 65536, 1) for i in at]
        weights = self.weights[set_]
        share = shares[0] if len(at) == 1 else mixed(weights, shares)
        bit = coder.choice(share, wanted)
        if len(at) == 2:
            missed = 65536 - share if bit else share
            strong = [strength(s) if bit else -strength(s) for s in shares]
            self.weights[set_] = [moved(w, t, missed) for w, t in zip(weights, strong)]
        for i in at:
            self.slots[i] = learned(self.slots[i], bit)
        return bit
