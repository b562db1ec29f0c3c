"""The kids of a list that stand in each other's way, by what the program answers to tries.

Where insertions can make a list fit, they can make it fit without some of its kids too: what is left out is inserted,
and a text isn't needed anywhere. So of the fronts of an impossible list those from one length on are impossible, which
is searched by halves, or by more parts in one run; and kids are left out one by one until none can be.
"""
import bisect
import itertools
from array import array
from collections.abc import Callable, Generator, Sequence
from typing import NamedTuple

from .tries import Kid, Try

# So many pairs of different kids are tried at once; of longer lists, about so many kids in all tries of a run, since
# that many take as long as a run of nothing, and at most so many tries.
MOST_PAIRS, MOST_KIDS, MOST_TRIES = 2500, 1500, 15

# A search asks for tries, is answered which are impossible, and gives what it found.
Asking = Generator[list[Try], list[bool], "Found | None"]


class Found(NamedTuple):
    """Kids that stand in each other's way, by their numbers, ascending; the first one that no insertion makes room for,
    which is the last of them; and of two different ones whether they could come in the other order."""

    kids: tuple[int, ...]
    first: int
    has_order: bool


def search(owner: str, kids: Sequence[Kid]) -> Asking:
    """Searches a list; finds none where it isn't impossible. Its owner isn't declared EMPTY."""
    places = array("I", (at for at, kid in enumerate(kids) if kid.is_token))
    word = [kids[at] for at in places]
    chosen = yield from near(owner, word)
    end = chosen[-1] if chosen else len(word)
    length = yield from least(owner, end, lambda size: word[:size], reverse(owner, word, chosen), is_sure=False)
    if length is not None:
        chosen = yield from far(owner, word, length)
    if not chosen:
        return None
    has_order = (yield reverse(owner, word, chosen)) == [False]
    return Found(tuple(places[at] for at in chosen), places[chosen[-1]], has_order)


def reverse(owner: str, word: Sequence[Kid], at: Sequence[int]) -> list[Try]:
    """Two different kids, in the other order."""
    if len(at) != 2 or word[at[0]] == word[at[1]]:
        return []
    return [Try(owner, (word[at[1]], word[at[0]]))]


def near(owner: str, word: Sequence[Kid]) -> Generator[list[Try], list[bool], list[int]]:
    """One kid, or a pair of kids, that is impossible by itself: the one that ends first, of these the shortest, of
    pairs the last. None where there is none, or there are too many different kids for it."""
    where: dict[Kid, array[int]] = {}
    for at, kid in enumerate(word):
        if kid not in where:
            where[kid] = array("I")
        where[kid].append(at)
    some = where if len(where) ** 2 <= MOST_PAIRS else ()
    pairs = [pair for pair in itertools.product(some, some) if where[pair[0]][0] < where[pair[1]][-1]]
    answers = yield [Try(owner, each) for each in (*((kid,) for kid in where), *pairs)]
    bad = {kid for kid, is_impossible in zip(where, answers) if is_impossible}
    found = [[where[kid][0]] for kid in bad]
    for (one, other), is_impossible in zip(pairs, answers[len(where):], strict=True):
        if is_impossible and one not in bad and other not in bad:
            last = where[other][bisect.bisect_right(where[other], where[one][0])]
            found.append([where[one][bisect.bisect_left(where[one], last) - 1], last])
    return min(found, key=lambda at: (at[-1], len(at), -at[0]), default=[])


def far(owner: str, word: Sequence[Kid], length: int) -> Generator[list[Try], list[bool], list[int]]:
    """Kids of the shortest impossible front, which has this length, none of which can be left out: its last one, and
    then again and again the first one of the shortest impossible end before it."""
    chosen, left = [length - 1], list(range(length - 1))
    # Where kids have too many names for all pairs, one with the last kid may be enough; none is impossible alone here.
    # What these are in the other order is kept for the sentence.
    before = {word[at]: at for at in left}
    pairs = [(kid, word[length - 1]) for kid in before]
    answers = yield [Try(owner, pair) for pair in (*pairs, *(pair[::-1] for pair in pairs))]
    enough = [at for at, is_impossible in zip(before.values(), answers) if is_impossible]
    if enough:
        return [max(enough), length - 1]
    while left:
        base = chosen

        def part(size: int) -> list[Kid]:
            return [word[at] for at in sorted([*base, *left[len(left) - size:]])]

        size = yield from least(owner, len(left), part)
        if not size:
            break
        left = left[len(left) - size:]
        chosen = sorted([*chosen, left.pop(0)])
    return chosen


def least(owner: str, most: int, part: Callable[[int], Sequence[Kid]], also: Sequence[Try] = (),
          is_sure: bool = True) -> Generator[list[Try], list[bool], int | None]:
    """The least size of which a part of a list is impossible, each holding the smaller. That of the size `most` is,
    where that is sure; else there may be none. Other tries are made in the first run, to be known later."""
    low, high = -1, most if is_sure else most + 1
    while high - low > 1 or also:
        sizes = sizes_between(low, high, most)
        answers = yield [*(Try(owner, tuple(part(size))) for size in sizes), *also]
        also = ()
        for size, is_impossible in zip(sizes, answers):
            if is_impossible:
                high = size
                break
            low = size
    return high if high <= most else None


def sizes_between(low: int, high: int, most: int) -> list[int]:
    """Sizes to try in one run: where little is known, halves of halves; then even parts."""
    if high > 4 * (low + 1) + MOST_TRIES:
        halves = {high >> half for half in range(1, high.bit_length())}
        return sorted(size for size in halves | ({most} if high > most else set[int]()) if size > low)
    count = max(2, min(MOST_TRIES, MOST_KIDS // (high + 1)))
    return sorted({low + max(1, (high - low) * at // (count + 1)) for at in range(1, count + 1)} - {high})
