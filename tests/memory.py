"""Memory of which one request is refused, for programs that are run over it."""
import os
import subprocess

from ends import run

REFUSING = os.path.join(os.path.dirname(os.path.realpath(__file__)), 'refusing.c')
COMPILED = 'cc -std=c11 -O2 -Wall -Wextra -Werror -shared -fPIC'.split()
# After so many runs in a row that made no such request there is none.
SPARED = 60


class Memory:
    """Memory of which one request is refused."""

    def __init__(self, folder):
        self.library, self.note = os.path.join(folder, 'refusing.so'), os.path.join(folder, 'note')
        subprocess.run([*COMPILED, '-o', self.library, REFUSING], check=True)

    def over(self, words, given, place):
        """How the words end where the request at this place is refused, and whether it was made."""
        if os.path.exists(self.note):
            os.remove(self.note)
        env = {**os.environ, 'LD_PRELOAD': self.library, 'REFUSED_REQUEST': str(place), 'REFUSED_NOTE': self.note}
        end = run(words, given, env=env)
        return end, os.path.exists(self.note)

    def refused(self, words, given=b''):
        """Yields each place whose request is refused, and how the words end then."""
        place = spared = 0
        while spared < SPARED:
            place += 1
            end, is_made = self.over(words, given, place)
            spared = 0 if is_made else spared + 1
            if is_made:
                yield place, end
