"""What sanitizers that the agent was built with want of a machine that has none itself: they come first in it."""
import os
import subprocess

# Signals are HotSpot's: it takes SIGSEGV for its safepoints. What a file descriptor orders is nothing to go by.
THREAD = ('handle_segv=0 handle_sigbus=0 handle_sigfpe=0 handle_sigill=0 handle_abort=0 report_signal_unsafe=0 '
          'report_thread_leaks=0 die_after_fork=0 io_sync=0 history_size=7 hard_rss_limit_mb=5000 '
          'second_deadlock_stack=1 atexit_sleep_ms=50 exitcode=0')
# What these libraries have the C library do, as to copy memory, isn't looked at: what orders it isn't seen.
UNWATCHED = ['libjvm.so', 'libjli.so', 'libjava.so', 'libjimage.so', 'libzip.so', 'libnio.so', 'libnet.so',
             'libmanagement.so', 'libmanagement_ext.so', 'libinstrument.so', 'libverify.so', 'libc.so.6',
             'ld-linux-x86-64.so.2']
OPTIONS = {
    'address': {'UBSAN_OPTIONS': 'print_stacktrace=1',
                'ASAN_OPTIONS': 'handle_segv=0:handle_sigbus=0:handle_sigfpe=0:handle_abort=0:detect_leaks=0'},
    'thread': {'TSAN_OPTIONS': THREAD},
}
LIBRARIES = {'address': ['asan', 'ubsan'], 'thread': ['tsan']}
# What isn't a race of the agent's, and why.
OF_TAGS = "HotSpot's own lock orders it: another thread finds the struct by the object's tag, which is set last"
OF_STUBS = "HotSpot orders it: another thread finds the struct by its stub, which HotSpot calls once it was handed it"
OF_CRITICAL = 'the program may store into a critical array or its copy at any time: each item is taken as it is then'
SUPPRESSED = {
    'race:^make_object$': OF_TAGS,
    'race:^make_class$': OF_TAGS,
    'race:^objects_freed$': OF_TAGS,
    'race:^make_native$': OF_STUBS,
    'race:^look_at_items$': OF_CRITICAL,
    'race:^hand_on$': OF_CRITICAL,
    'race:^fetch$': OF_CRITICAL,
    'race:^fill_items$': OF_CRITICAL,
}

# What stands before the machine's name: the thread sanitizer wants the addresses of memory as they are without chance.
BEFORE = {'address': [], 'thread': ['setarch', '-R']}


def library(name):
    return subprocess.run(['gcc', f'-print-file-name=lib{name}.so'], capture_output=True, text=True,
                          check=True).stdout.strip()


def environment(kind, folder, more=()):
    """That of this process, and what the sanitizer wants. It reads in the folder what it isn't to tell, and more."""
    found = dict(os.environ, LD_PRELOAD=':'.join(map(library, LIBRARIES[kind])), **OPTIONS[kind])
    if kind == 'thread':
        with open(f'{folder}/suppressed', 'w', encoding='utf-8') as file:
            for line in [*SUPPRESSED, *(f'called_from_lib:{it}' for it in UNWATCHED), *more]:
                file.write(f'{line}\n')
        found['TSAN_OPTIONS'] += f' suppressions={folder}/suppressed'
    return found
