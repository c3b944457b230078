"""What of a record's history a page keeps, and how it counts the rest.

A page has room for so many bars and marks. Of a longer record it keeps bars of denied operands and the longest ones of
each kind, and the first marks of each kind and place."""
import collections

KINDS = ('sessions', 'natives', 'critical', 'monitors', 'pending', 'locals', 'globals', 'buffers')
MOST_BARS = 8_000  # of each kind
MOST_MARKS = 20_000
MOST_OF_A_PLACE = 200
FIRST_OF_A_PLACE = 100
MOST_LEAKS = 2_000
MOST_NAMES = 20  # of a place of leaks
COLUMNS = 1_000
SPREAD = 2_654_435_761
LEFT = {'globals': 'reference', 'buffers': 'buffer', 'monitors': 'monitor'}


class Counts:
    """How many questions and denials there were over the length of a record, in columns of as many lines each."""

    def __init__(self):
        self.width, self.questions, self.denials = 1, [0] * COLUMNS, [0] * COLUMNS

    def note(self, line, is_denied):
        while line > self.width * COLUMNS:
            self.width *= 2
            for counts in (self.questions, self.denials):
                counts[:] = [sum(counts[at:at + 2]) for at in range(0, COLUMNS, 2)] + [0] * (COLUMNS // 2)
        column = (line - 1) // self.width
        self.questions[column] += 1
        self.denials[column] += is_denied


class Words:
    """Words by number, so that each stands once in the page."""

    def __init__(self):
        self.words, self.numbers = [], {}

    def number(self, word):
        word = str(word)
        if word not in self.numbers:
            self.numbers[word] = len(self.words)
            self.words.append(word)
        return self.numbers[word]


def kept_bars(bars, last):
    """The bars that the page shows, in their order."""
    if len(bars) <= MOST_BARS:
        return bars

    def rank(numbered):
        # of equally long ones those that are kept lie all over the record
        number, bar = numbered
        return not bar.is_kept, bar.start - (bar.end or last), number * SPREAD % 2**32

    longest = sorted(enumerate(bars), key=rank)[:MOST_BARS]
    return [bar for _, bar in sorted(longest, key=lambda it: it[0])]


def kept_marks(marks, place):
    """The marks that the page shows, and of each place how many there are."""
    counts, seen, kept = collections.Counter(map(place, marks)), collections.Counter(), []
    if len(marks) <= MOST_MARKS:
        return marks, counts
    for mark in marks:
        of = place(mark)
        seen[of] += 1
        # Behind the first of a place those that are kept lie all over the record.
        step = -(-(counts[of] - FIRST_OF_A_PLACE) // (MOST_OF_A_PLACE - FIRST_OF_A_PLACE))
        is_kept = seen[of] <= FIRST_OF_A_PLACE or (seen[of] - FIRST_OF_A_PLACE) % step == 0
        if is_kept and len(kept) < MOST_MARKS:
            kept.append(mark)
    return kept, counts


def leaks(history, words):
    """What is left in the end, by where it was made: the kind, the call, the place, how many, and some names."""
    found = {}
    for kind, what in LEFT.items():
        for bar in history.bars[kind]:
            if bar.end is None:
                names = found.setdefault((what, bar.by, bar.place), [])
                names.append([bar.name, bar.start])
    rows = sorted(found.items(), key=lambda it: -len(it[1]))[:MOST_LEAKS]
    return [[what, words.number(by), words.number(place), len(names), names[:MOST_NAMES]]
            for (what, by, place), names in rows]


def advised(told, words):
    return [[line, kind, words.number(function), words.number(says), [words.number(it) for it in more]]
            for line, kind, function, says, more in told]


def data(history, told):
    """What the page is made of: bars, marks and counts, with words by number."""
    words, last = Words(), max(history.line, 1)
    bars = {}
    for kind, all_bars in history.bars.items():
        kept = kept_bars(all_bars, last)
        of = history.what if kind in ('locals', 'globals', 'pending', 'critical') else str
        bars[kind] = {'count': len(all_bars), 'bars': [
            [bar.thread, bar.start, bar.end or 0, words.number(bar.name), words.number(of(bar.of)),
             words.number(bar.by), words.number(bar.place), words.number(bar.ended_by), words.number(bar.ended_at)]
            for bar in kept]}
    denials, places = kept_marks(history.denials, lambda it: (it[2], it[4], it[6]))
    advice, _ = kept_marks(told, lambda it: (it[1], it[2]))
    return {
        'lines': history.line, 'cut': history.is_cut, 'questions': history.questions, 'denied': len(history.denials),
        'threads': sorted(history.threads), 'bars': bars, 'width': history.counts.width,
        'counts': [history.counts.questions, history.counts.denials],
        'denials': [[line, thread, rule, words.number(function), words.number(operands), words.number(note)]
                    for line, thread, rule, _, function, operands, note in denials],
        'places': [[rule, words.number(function), words.number(note), count]
                   for (rule, function, note), count in places.most_common(MOST_LEAKS)],
        'advice': advised(advice, words), 'advised': len(told), 'leaks': leaks(history, words), 'words': words.words,
    }
