"""What the drum is asked for in a call: which tracks the passes write and read, the object's, and those of the run.

The drum has two areas for texts, and behind them the object. Text k lies in the second area where k is odd, and else in the
first."""
from model.lexer import LONGEST_PROGRAM

SYMBOLS_OF_TRACK, WORDS_OF_TRACK = 20, 40

# A text has at most so many symbols, and an object so many words.
MOST_SYMBOLS = 24 * LONGEST_PROGRAM + 64

LAST_TEXT_OF_CHECK, LAST_TEXT = 6, 8

# The texts that the next pass reads from the end.
READ_BACKWARD = {3, 4, 7, 8}


def tracks_for(count, of_track):
    """So many tracks hold this many symbols or words."""
    return -(-count // of_track)


AREA = tracks_for(MOST_SYMBOLS, SYMBOLS_OF_TRACK)
OBJECT_START = 2 * AREA


def of_text(text, k, unread):
    """The tracks that are written and those that are read, each in its order."""
    first = AREA if k % 2 else 0
    written = list(range(first, first + tracks_for(len(text), SYMBOLS_OF_TRACK)))
    return {"writes": written, "reads": [] if unread else written[::-1] if k in READ_BACKWARD else written}


def of_call(found):
    """The parts of a call without errors: `texts` by their numbers, `object` with the tracks that are written, `run` with those
    that are read at the misses, and `lines` with those of text 7 that a post-mortem reads. Reads of a text and writes of
    the next may be mixed."""
    check, compiled = found.command.check, found.compiled
    last = LAST_TEXT_OF_CHECK if check else LAST_TEXT
    texts = {k: of_text(compiled.text[k], k, check and k == last) for k in range(1, last + 1)}
    if check:
        return {"texts": texts, "object": [], "run": [], "lines": []}
    lines = range(max(found.mortem) // SYMBOLS_OF_TRACK + 1) if found.mortem else []
    return {"texts": texts,
            "object": [OBJECT_START + track for track in range(tracks_for(len(compiled.words), WORDS_OF_TRACK))],
            "run": [OBJECT_START + track for track in found.run.recent.missed],
            "lines": [AREA + track for track in lines]}
