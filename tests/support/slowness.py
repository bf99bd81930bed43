"""How slow a processor is here and now, for tests that say how much of it something may take."""

import time

# The seconds of a processor that the loop takes on the machine for which limits are given.
LOOP, LOOP_SECONDS, TRIES = 1_000_000, 0.025, 5


def slowness() -> float:
    """Returns how many times longer a loop takes of this processor than of that for which limits are given, the median of some tries; at least 1."""
    took = []
    for _ in range(TRIES):
        begun = time.process_time()
        sum(at for at in range(LOOP))
        took.append(time.process_time() - begun)
    return max(1, sorted(took)[TRIES // 2] / LOOP_SECONDS)


def is_within(took: float, most: float) -> bool:
    """Tells whether something took no more of a processor than it may on the machine for which limits are given, or than that is here."""
    return took <= most or took <= most * slowness()
