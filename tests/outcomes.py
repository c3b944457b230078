"""What a machine says of a call of which a record tells a fact."""
from record_words import FUNCTIONS

# The word of the fact that comes of a call, by what the table says that its function does.
COMES = {
    'Hands': 'got', 'Ends': 'lost', 'Lends': 'lent', 'GivesBack': 'gave', 'Pushes': 'pushed', 'Pops': 'popped',
    'Ensures': 'ensured', 'Raises': 'raised', 'Calms': 'calmed', 'Owns': 'owns', 'Frees': 'freed', 'Attaches': 'begins',
    'Detaches': 'ends', 'Enters': 'enters', 'Leaves': 'leaves', 'Links': 'linked', 'Unlinks': 'unlinked'}
# What the machine says of a call of which no fact comes at once.
NO_FACT = {'Nothing': '-', 'Hands': 'null', 'Lends': 'null'}
# Of which functions jg_ending may tell it.
ENDING = 'Ends', 'GivesBack', 'Pops', 'Frees', 'Calms', 'Unlinks', 'Leaves'


def said(question, has_met, fact):
    """What the machine says of the call of this question, if just this fact comes of it, and else None."""
    thread, _, name, *operands = question.split(' ')
    by, word, *rest = fact.split(' ')
    effect, *which = FUNCTIONS[name].effect
    if by != thread:
        return None
    if word == 'raised' and (effect != 'Raises' or has_met):
        return f'!{rest[0]}' if FUNCTIONS[name].throws != 'Never' else None
    if word != COMES.get(effect) or word in ('got', 'lent') and rest[0] != which[0].lower():
        return None
    if word == 'linked' and rest[-1] != operands[-1]:
        return None
    if word in ('got', 'popped', 'leaves'):
        return rest[-1]
    return f'#{rest[-1]}' if word == 'lent' else '-'
