"""Random numbers, all of which follow from a seed and from a case's number, on every machine alike."""

# An odd number by which seeds are spread, so that the cases of two seeds don't overlap.
SPREAD = 0x9E3779B97F4A7C15

MASK = 2**64 - 1

MULTIPLIER = 6364136223846793005


def word_of(state):
    """The word of a state of the generator PCG-XSH-RR."""
    shifted = (((state >> 18) ^ state) >> 27) & 0xFFFFFFFF
    turn = state >> 59
    return ((shifted >> turn) | (shifted << (32 - turn))) & 0xFFFFFFFF


def words_of_seed(state):
    """Four words that are spread out of one number, as the crate rand_core does it."""
    words = []
    for _ in range(4):
        state = (state * MULTIPLIER + 11634580027462260723) & MASK
        words.append(word_of(state))
    return words


class Chance:
    """A source of numbers and of choices."""

    __slots__ = ("state", "increment")

    def __init__(self, seed, case):
        """What follows from this seed for the case with this number."""
        a, b, c, d = words_of_seed((seed * SPREAD + case) & MASK)
        self.increment = (c | d << 32) | 1
        self.state = (((a | b << 32) + self.increment) * MULTIPLIER + self.increment) & MASK

    def below(self, bound):
        """A number below the bound; 0 where that is 0."""
        state = self.state
        self.state = (state * MULTIPLIER + self.increment) & MASK
        # word_of, in place, since this is asked most
        shifted = (((state >> 18) ^ state) >> 27) & 0xFFFFFFFF
        turn = state >> 59
        return (((shifted >> turn) | (shifted << (32 - turn))) & 0xFFFFFFFF) % bound if bound else 0

    def one_in(self, times):
        """Holds one time in so many."""
        return self.below(times) == 0

    def one_of(self, choices):
        """One of these."""
        return choices[self.below(len(choices))]
