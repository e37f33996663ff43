"""Which of the changes that no sync made sure a loss of power leaves."""

import itertools

# Of so many changes all choices are tried, and of more so many that are drawn.
FEW = 8
DRAWN = 60


def choices(loose, chance):
    """Choices of changes that came to the disk, in their order: each choice of a few. Of many none, all, one, all but one,
    and some that are drawn."""
    if len(loose) <= FEW:
        yield from ([it for it, is_on in zip(loose, chosen) if is_on] for chosen in itertools.product((0, 1), repeat=len(loose)))
        return
    yield from ([], list(loose))
    for one in range(len(loose)):
        yield loose[one : one + 1]
        yield loose[:one] + loose[one + 1 :]
    for _ in range(DRAWN):
        yield [it for it in loose if chance.randrange(2)]
