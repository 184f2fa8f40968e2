"""Random programs of the language, for comparisons: programs without errors, and damages that mostly put some into them."""
from model.programs.damage import mutate
from model.programs.generator import Generator


def tape_of(seed, mutations=0, **settings):
    """The tape of a seed, always the same: a program with so many damages, and mostly data. The settings are those of `Generator`."""
    tape = Generator(str(seed), **settings).tape()
    return mutate(tape, str(seed), mutations) if mutations else tape


def settings(words):
    """Settings as a command line has them, as `size=12`."""
    pairs = (word.partition("=") for word in words)
    return {key: int(value) if value.isdigit() else value for key, _, value in pairs}
