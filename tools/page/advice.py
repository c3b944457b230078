"""What `jg watch` told on standard error: the advice, each with its line."""
import re

ADVICE = re.compile(r'(?:line (\d+)|end): advice ([a-z ]+?) of (\w+): (.*)')


def read(lines):
    """Each advice: its line (None: at the end), its kind, the function, what it says, and the lines that explain it."""
    found, is_open = [], False
    for line in lines:
        line = line.rstrip('\n')
        told = ADVICE.fullmatch(line)
        if told:
            found.append([int(told[1]) if told[1] else None, told[2], told[3], told[4], []])
        elif line.startswith('  ') and found and is_open:
            found[-1][4].append(line.strip())
        is_open = bool(told) or line.startswith('  ') and bool(found) and is_open
    return found
