"""Random words: those of the generator `Lcg64Xsh32`, whose state has 64 bits and whose words have 32."""
MULTIPLIER = 6364136223846793005
MASK_64, MASK_32 = 2**64 - 1, 2**32 - 1


class Lcg64Xsh32:
    """The generator of a seed and a stream. The stream makes the increment; the first state is one step from their
    sum."""

    def __init__(self, seed: int, stream: int) -> None:
        self.increment = 2 * stream + 1
        self.state = self.after(seed + self.increment)

    def after(self, state: int) -> int:
        return (state * MULTIPLIER + self.increment) & MASK_64

    def word(self) -> int:
        """The next word: high bits of the state, mixed, and turned right by as many places as its highest five say."""
        state = self.state
        self.state = self.after(state)
        mixed = (((state >> 18) ^ state) >> 27) & MASK_32
        turn = state >> 59
        return (mixed >> turn | mixed << (32 - turn)) & MASK_32


class Draws:
    """The words of each scheduler, by their numbers from 0: its generator has the seed and, as stream, its number."""

    def __init__(self, seed: int) -> None:
        self.seed = seed
        self.drawn: dict[int, tuple[Lcg64Xsh32, list[int]]] = {}

    def word(self, scheduler: int, number: int) -> int:
        generator, words = self.drawn.setdefault(scheduler, (Lcg64Xsh32(self.seed, scheduler), []))
        while len(words) <= number:
            words.append(generator.word())
        return words[number]

    def start(self, scheduler: int, attempt: int, machines: int) -> int:
        """The place among so many machines at which the attempt of this number begins to look; 0 among none."""
        return self.word(scheduler, attempt) % machines if machines else 0
