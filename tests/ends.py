"""How a run of `jg` ends, and the ends that README.md and docs/FORMATS.md name."""
import collections
import re
import subprocess

# `status` is below 0 where a signal ended the run, and None where it had not ended in time.
End = collections.namedtuple('End', 'status out said')

SECONDS = 60
LINE_FAULT = rb'(LineTooLong|NotAscii|NoThread|NoEnv|UnknownFunction|WrongCount|BadOperand)'
SETUP_FAULT = rb'(NotToml|BadVersion|UnknownKey|Missing|BadType|BadMode|BadName|Duplicate|TooMany)'
SAID = {
    0: rb'(leak [LGWB]\d+\.\d+\n|leak M\d+ T\d+ \d+\n)*',
    1: rb'(differs at T\d+ place \d+\n)?',
    2: rb'(line \d+: ' + LINE_FAULT + rb'|line 65: TooManyThreads|setup: ' + SETUP_FAULT + rb'|arguments refused)\n',
    3: rb'(line \d+: limit|(line \d+|setup|arguments|leaks|explain): no memory|limit|no memory)\n',
    4: rb'(line \d+: read failed|setup: read failed|line \d+: write failed)\n',
}
RULES = ('WrongThread Detached InCritical Pending ForeignLocal DeadReference WrongRefKind NullReference WrongType '
         'BadField BadBuffer BadArgument Pinned NotOwner BadFrame NoNativeAccess NotLinked').split()
DENIED = b'|'.join(f'{number} {name}'.encode() for number, name in enumerate(RULES, 1))
OUTCOME = re.compile(rb'(ok|true|false|null|detached|busy|-?\d+|[LGWBEF]\d+\.\d+|deny (' + DENIED +
                     rb')|\[(-?\d+(,-?\d+)*)?\]|throw [!-~]+)( notice)?( warn)?')


def run(words, given=b'', seconds=SECONDS, **options):
    """Runs the words with these bytes on standard input, or with what the options say that it is."""
    streams = {'stdin': subprocess.PIPE, 'stdout': subprocess.PIPE, 'stderr': subprocess.PIPE}
    with subprocess.Popen(words, **(streams | options)) as child:
        try:
            out, said = child.communicate(given if child.stdin else None, timeout=seconds)
        except subprocess.TimeoutExpired:
            child.kill()
            out, said = child.communicate()
            return End(None, out or b'', said or b'')
        return End(child.returncode, out or b'', said or b'')


def is_documented(end):
    return end.status in SAID and re.fullmatch(SAID[end.status], end.said) is not None


def are_entries(lines, out):
    """These lines, each with an outcome, are what was written."""
    entries = out.split(b'\n')
    if entries.pop() or len(entries) != len(lines):
        return False
    return all(entry.startswith(line + b' = ') and OUTCOME.fullmatch(entry[len(line) + 3:])
               for line, entry in zip(lines, entries))


def shown(end):
    return f'status {end.status}, wrote {end.out[-200:]!r}, said {end.said[-200:]!r}'
