"""The words that a number draws (PCG XSH RR 64/32, stream 1), as crates/hostile_inputs draws them. The scripts that predict
the output for drawn inputs use it."""

M64 = (1 << 64) - 1
MULTIPLIER = 6364136223846793005


class Drawn:
    """The words of a number, one after another."""

    def __init__(self, number, stream=1):
        self.inc = ((stream << 1) | 1) & M64
        self.state = (number + self.inc) & M64
        self.step()

    def step(self):
        self.state = (self.state * MULTIPLIER + self.inc) & M64

    def word(self):
        s = self.state
        self.step()
        rot = s >> 59
        xs = (((s >> 18) ^ s) >> 27) & 0xffffffff
        return ((xs >> rot) | (xs << ((32 - rot) & 31))) & 0xffffffff

    def below(self, limit):
        return self.word() % limit

    def long(self):
        a = self.word()
        b = self.word()
        return (a << 32) + b


# The first word that the authors of the generator print for this number and stream.
assert Drawn(42, 54).word() == 0xa15c02b7
