"""Where a JDK is, for the scripts that run the agent."""
import os
import shutil
import sys


def homes(named):
    """The JDKs that were named; or the one of JAVA_HOME, or where javac is. Ends where there is none."""
    compiler = os.path.realpath(shutil.which('javac') or '/bin/javac')
    found = named or [os.environ.get('JAVA_HOME') or os.path.dirname(os.path.dirname(compiler))]
    missing = [it for it in found if not os.path.exists(f'{it}/include/jvmti.h')]
    if missing:
        sys.exit(f'there is no JDK at {", ".join(missing)}: --jdk or JAVA_HOME names one')
    return found
