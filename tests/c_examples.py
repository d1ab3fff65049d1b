#!/usr/bin/env python3
"""Compiles and runs the examples of include/fibs.h and of docs/C.md, after `make lib`.

The example at the head of the header plays with a server that this test scripts; the program of docs/C.md is
built over an installed library, as the page says: by pkg-config, over the archive, and by CMake. The last line is
`N passed, M failed`.
"""

import os
import pathlib
import re
import shutil
import subprocess
import sys
import tempfile

ROOT = pathlib.Path(__file__).resolve().parent.parent
STRICT = '-std=c11 -D_POSIX_C_SOURCE=200809L -Wall -Wextra -Wpedantic -Wconversion -Wsign-conversion -Werror'.split()

# A caller of the header's example: the server's end of a socket has what the client hears, and keeps what it sends.
CALLER = r'''
#include "fibs.h"

#include <stdio.h>
#include <string.h>
#include <sys/socket.h>
#include <sys/types.h>
#include <unistd.h>

static fibs_status play(int server, const char *name, const char *password) {
%s
    return status;
}

static const char heard[] =
    "1 ann 1041253132 192.168.1.308\r\n"
    "2 ann 1 1 0 0 0 0 1 1 2396 0 1 0 1 3457.85 0 0 0 0 0 Australia/Melbourne\r\n"
    "board:You:bob:3:0:1:0:-2:0:0:0:0:5:0:3:0:0:0:-5:5:0:0:0:-3:0:-5:0:0:0:0:2:0:1:0:0:0:0:1:1:1:0:1:-1:0:25:0:0:"
    "0:0:2:0:0:0\r\n";

int main(int argc, char **argv) {
    int ends[2];
    char sent[4096];
    ssize_t got;
    if (argc < 2 || socketpair(AF_UNIX, SOCK_STREAM, 0, ends) != 0) {
        return 2;
    }
    if (write(ends[1], heard, sizeof heard - 1) < 0 || shutdown(ends[1], SHUT_WR) != 0) {
        return 2;
    }
    printf("%%s\n", fibs_status_name(play(ends[0], argv[1], "secret")));
    close(ends[0]);
    while ((got = read(ends[1], sent, sizeof sent)) > 0) {
        fwrite(sent, 1, (size_t)got, stdout);
    }
    return 0;
}
'''

CMAKE = '''cmake_minimum_required(VERSION 3.13)
project(kinds C)
add_executable(kinds kinds.c)
add_executable(kinds_static kinds.c)
%s
target_link_libraries(kinds_static fibs::static)
'''


class Counts:
    passed = failed = 0

    def check(self, holds, what):
        self.passed += bool(holds)
        self.failed += not holds
        if not holds:
            print('FAILED', what)


def run(*words, **more):
    """What a command prints; an error of it is printed."""
    done = subprocess.run([str(word) for word in words], capture_output=True, text=True, check=False, **more)
    if done.returncode != 0:
        print(*words, done.stdout, done.stderr, sep='\n')
    return done.stdout if done.returncode == 0 else None


def header_example(counts, work):
    text = (ROOT / 'include/fibs.h').read_text()
    example = re.search(r'bytes for the server come out:\n \*\n(.*?)\n \*\n \* examples/bot\.c', text, re.S)[1]
    lines = [re.sub(r'^ \* ?', '', line).replace('//', '/*') for line in example.split('\n')]
    lines = [line + ' */' if '/*' in line else line for line in lines]
    source = work / 'head.c'
    source.write_text(CALLER % '\n'.join(lines))
    built = run('cc', *STRICT, '-I', ROOT / 'include', '-o', work / 'head', source, ROOT / 'lib/libfibs.a')
    counts.check(built is not None, "the header's example compiles")
    said = run(work / 'head', 'ann')
    counts.check(said is not None and said.startswith('Done\nlogin ') and said.endswith('board\nroll\n')
                 and 'ann secret' in said, "the header's example plays: %r" % said)
    counts.check(run(work / 'head', 'a:b', timeout=10) == 'BadName\n', "the header's example ends at a wrong name")


def cmake_programs(counts, work, home, lines):
    """What CMake builds by these lines of the page, and that it refuses another version."""
    build = work / 'build'
    build.mkdir()
    (work / 'CMakeLists.txt').write_text(CMAKE % lines)
    made = run('cmake', '-S', work, '-B', build, '-DCMAKE_PREFIX_PATH=%s' % home) and run('cmake', '--build', build)
    counts.check(made is not None, 'CMake builds it')
    (work / 'CMakeLists.txt').write_text(CMAKE % 'find_package(fibs 0.1 REQUIRED)')
    refused = subprocess.run(['cmake', '-S', work, '-B', work / 'other', '-DCMAKE_PREFIX_PATH=%s' % home],
                             capture_output=True, check=False)
    counts.check(refused.returncode != 0, 'CMake refuses another version')
    return [build / 'kinds', build / 'kinds_static']


def page_program(counts, work):
    page = (ROOT / 'docs/C.md').read_text()
    source, home = work / 'kinds.c', work / 'local'
    source.write_text(re.search(r'```c\n(.*?)```', page, re.S)[1])
    installed = run('make', '-C', ROOT, 'install-lib-files', 'PREFIX=%s' % home)
    counts.check(installed is not None, 'it is installed')
    pointed = ['include/fibs.h', 'share/doc/fibs/C.md', 'share/doc/fibs/FORMATS.md', 'share/doc/fibs/bot.c']
    counts.check(all((home / path).exists() for path in pointed), 'what the header points to is installed')
    where = dict(os.environ, PKG_CONFIG_PATH='%s/lib/pkgconfig' % home, LD_LIBRARY_PATH='%s/lib' % home)
    programs = [work / 'kinds_static']
    run('cc', *STRICT, '-I', home / 'include', '-o', work / 'kinds_static', source, home / 'lib/libfibs.a')
    if shutil.which('pkg-config'):
        programs.append(work / 'kinds')
        flags = run('pkg-config', '--cflags', '--libs', 'fibs', env=where)
        version = re.search(r'FIBS_VERSION "(.*)"', (ROOT / 'include/fibs.h').read_text())[1]
        counts.check((run('pkg-config', '--modversion', 'fibs', env=where) or '').strip() == version, 'the version')
        run('cc', *STRICT, '-o', work / 'kinds', source, *(flags or '').split())
    else:
        print('left out: pkg-config, which is not installed')
    if shutil.which('cmake'):
        programs += cmake_programs(counts, work, home, re.search(r'```cmake\n(.*?)```', page, re.S)[1])
    else:
        print('left out: CMake, which is not installed')
    python = dict(os.environ, PYTHONPATH=str(ROOT / 'python'), FIBS_LIBRARY=str(ROOT / 'lib/libfibs.so'))
    wanted = run(sys.executable, '-B', ROOT / 'examples/read_session.py', '-c', ROOT / 'examples/capture.txt',
                 env=python)
    boards, messages, texts, _, malformed = (int(n) for n in re.findall(r'\d+', wanted))
    lines = 'text %d\nmessage %d\nboard %d\nmalformed %d\n' % (texts, messages, boards, malformed)
    for program in programs:
        with open(ROOT / 'examples/capture.txt', 'rb') as session:
            said = run(program, stdin=session, env=where) if program.exists() else None
        counts.check(said == lines, '%s prints %r' % (program, said))


def main():
    counts = Counts()
    work = pathlib.Path(tempfile.mkdtemp())
    try:
        header_example(counts, work)
        page_program(counts, work)
    finally:
        shutil.rmtree(work)
    print('%d passed, %d failed' % (counts.passed, counts.failed))
    return 1 if counts.failed else 0


if __name__ == '__main__':
    sys.exit(main())
