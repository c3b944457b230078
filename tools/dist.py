"""What a release has, and where it stands: in an archive, or below a prefix. ./jg builds it before.

Below the prefix are bin/jg, the library for C as `make install` of embed/c puts it, the agent and its demo, manual
pages, documents and examples."""
import glob
import gzip
import hashlib
import io
import os
import re
import shutil
import subprocess
import sys
import tarfile

import manual

TOP = manual.TOP
PAGE = ('jg-page', 'page/__init__.py', 'page/advice.py', 'page/folding.py', 'page/history.py', 'page/page.css',
        'page/page.html', 'page/page.js')
# The demo of the agent, built: it needs a JRE alone.
DEMO = ('Demo.class', 'libdemo.so')


def put(root, path, source, mode=0o644):
    """Puts a file, or a text, at a path below the root."""
    to = f'{root}/{path}'
    os.makedirs(os.path.dirname(to), exist_ok=True)
    if os.path.lexists(to):
        os.remove(to)
    if isinstance(source, bytes):
        with open(to, 'wb') as file:
            file.write(source)
    else:
        shutil.copyfile(source, to)
    os.chmod(to, mode)


def put_library(root, libdir, includedir, prefix):
    """The library for C, as embed/c/Makefile installs it. Without a prefix jg.pc finds its own."""
    before = root.removesuffix(prefix or '')
    places = [f'DESTDIR={before and os.path.abspath(before)}', f'PREFIX={prefix or ""}', f'LIBDIR={libdir}']
    places += [f'INCLUDEDIR={includedir}', f'RELOCATABLE={"" if prefix else 1}']
    words = ['make', '-s', '-C', f'{TOP}/embed/c', 'install', f'JG_LIB={TOP}/out', *places]
    if subprocess.run(words, stdin=subprocess.DEVNULL, check=False).returncode:
        print('jg: the library for C isn\'t installed', file=sys.stderr)
        sys.exit(70)


def put_all(root, libdir, includedir, program, agent, demo, prefix):
    """Puts a whole release below the root. The folders of libraries and of headers are paths below the prefix."""
    put(root, 'bin/jg', program, 0o755)
    put_library(root, libdir, includedir, prefix)
    put(root, f'{libdir}/libjg_agent.so', agent, 0o755)
    for name in DEMO:
        put(root, f'share/jg/demo/{name}', f'{demo}/{name}')
    for name in PAGE:
        put(root, f'share/jg/{name}', f'{TOP}/tools/{name}', 0o755 if name == 'jg-page' else 0o644)
    link = f'{root}/bin/jg-page'
    if os.path.lexists(link):
        os.remove(link)
    os.symlink('../share/jg/jg-page', link)
    put(root, 'bin/jg-report', f'{TOP}/tools/jg-report', 0o755)
    pages = f'{TOP}/out/man'
    manual.main(pages)
    for name in manual.PAGES:
        put(root, f'share/man/man{name[-1]}/{name}', f'{pages}/{name}')
    for pattern in ('README.md', 'CHANGELOG.md', 'docs/*.md', 'docs/*.png', 'docs/*.svg', 'docs/help/*.txt',
                    'agent/README.md', 'examples/*.*', 'examples/agent/*'):
        for file in sorted(glob.glob(f'{TOP}/{pattern}')):
            put(root, f'share/doc/jg/{os.path.relpath(file, TOP)}', file, 0o755 if os.access(file, os.X_OK) else 0o644)


def archive(root, name, file, moment):
    """Packs the root as a folder of this name: the same bytes for the same files."""
    raw = io.BytesIO()
    with tarfile.open(fileobj=raw, mode='w', format=tarfile.GNU_FORMAT) as tar:
        paths = [f'{at}/{it}' for at, folders, names in os.walk(root) for it in [*folders, *names]]
        for path in [root, *sorted(paths)]:
            one = tar.gettarinfo(path, os.path.normpath(f'{name}/{os.path.relpath(path, root)}'))
            one.mtime, one.uid, one.gid, one.uname, one.gname = moment, 0, 0, 'root', 'root'
            one.mode = 0o755 if one.isdir() else one.mode
            if one.isreg():
                with open(path, 'rb') as it:
                    tar.addfile(one, it)
            else:
                tar.addfile(one)
    with open(file, 'wb') as out, gzip.GzipFile('', 'wb', 9, out, mtime=0) as packed:
        packed.write(raw.getvalue())
    with open(file, 'rb') as out, open(f'{file}.sha256', 'w', encoding='ascii') as sums:
        sums.write(f'{hashlib.sha256(out.read()).hexdigest()}  {os.path.basename(file)}\n')


def moment():
    """The release's time: that of SOURCE_DATE_EPOCH, or of the commit."""
    given = os.environ.get('SOURCE_DATE_EPOCH')
    if given is None:
        words = ['git', '-C', TOP, 'log', '-1', '--format=%ct']
        given = subprocess.run(words, capture_output=True, text=True, check=False).stdout.strip() or '0'
        os.environ['SOURCE_DATE_EPOCH'] = given
    return int(given)


def newest_symbol(file):
    """The newest version of the C library's symbols that the file asks for."""
    said = subprocess.run(['objdump', '-T', file], capture_output=True, text=True, check=True).stdout
    found = {tuple(map(int, it.split('.'))) for it in re.findall(r'GLIBC_([\d.]+)', said)}
    return 'GLIBC_' + '.'.join(map(str, max(found)))
