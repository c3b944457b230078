"""Projects of CMake that use an installed library, for tests/embed and tests/dist."""
import subprocess

LISTS = """cmake_minimum_required(VERSION 3.10)
project(first C)
find_package(jg @VERSION@ REQUIRED)
add_executable(shared first.c)
target_link_libraries(shared jg::jg)
add_executable(static first.c)
target_link_libraries(static jg::static)
"""


def run(words):
    how = {'stdin': subprocess.DEVNULL, 'stdout': subprocess.PIPE, 'stderr': subprocess.STDOUT}
    return subprocess.run(words, check=False, **how)


def configured(folder, prefix, version):
    """Configures the project of first.c in the folder, which asks for this version, and returns what ended."""
    with open(f'{folder}/CMakeLists.txt', 'w', encoding='utf-8') as file:
        file.write(LISTS.replace('@VERSION@', version))
    return run(['cmake', '-S', folder, '-B', f'{folder}/build', f'-DCMAKE_PREFIX_PATH={prefix}'])


def built(folder, prefix, version):
    """Builds the project, and returns whether it was, with what was written. It has the programs shared and static."""
    first = configured(folder, prefix, version)
    second = run(['cmake', '--build', f'{folder}/build'])
    return first.returncode == 0 == second.returncode, first.stdout + second.stdout
