"""docs/PYTHON.md as it is: its sessions, its example of asyncio, and the types of the package."""

import asyncio
import doctest
import os
import re
import shutil
import subprocess
import sys
import threading
import warnings

from props.package import ROOT, fibs
from props.server import Game, Server

PAGE = (ROOT / 'docs' / 'PYTHON.md').read_text()


def blocks(language):
    """The blocks of a language in the page."""
    return re.findall(r'(?ms)^```%s\n(.*?)^```$' % language, PAGE)


def the_sessions_of_the_page_are_as_they_run(counts):
    text = '\n'.join(blocks('pycon'))
    tests = doctest.DocTestParser().get_doctest(text, {}, 'docs/PYTHON.md', None, 0)
    found = doctest.DocTestRunner(verbose=False).run(tests)
    counts.check(found.attempted > 10, 'there are sessions')
    counts.same(found.failed, 0, 'of %d lines fail' % found.attempted)


class Repeating(Game):
    """A game of which each line comes twice."""

    def answer(self, words):
        return [line for line in super().answer(words) for _ in range(2)]


def the_example_of_asyncio_plays_a_game(counts):
    names = {}
    for block in blocks('python'):
        exec(block, names)
    server = Server()

    def serve():
        server.accept()
        server.log_in()
        server.serve(Repeating([5, 3], [22, 23], [[2, 1], [6, 5], [6, 5]]))

    thread = threading.Thread(target=serve, daemon=True)
    thread.start()
    score = asyncio.run(asyncio.wait_for(names['play']('127.0.0.1', server.port, 'ann', 'secret'), 30))
    counts.check(15 in score, 'the game is played out: %s' % (score,))
    thread.join(5)
    server.close()


def it_plays_at_the_server_of_the_examples(counts):
    """As it invites a bot, and as a bot invites it; in a Python that reports every warning."""
    names = {}
    for block in blocks('python'):
        exec(block, names)
    for opponent, bot in [('eve', 'eve'), (None, 'eve:invites=1')]:
        served = [sys.executable, '-B', str(ROOT / 'examples' / 'fibs_server'), '0', '--seed', '5', '--bot', bot]
        with subprocess.Popen(served, stdout=subprocess.PIPE, text=True) as server, warnings.catch_warnings():
            warnings.simplefilter('error')
            try:
                port = int(server.stdout.readline())
                score = asyncio.run(asyncio.wait_for(names['play']('127.0.0.1', port, 'ann', 'secret', opponent), 60))
                counts.check(15 in score, 'with %s: %s' % (bot, score))
            finally:
                server.terminate()


def names_of_the_page_are_in_the_package(counts):
    """What is in the table of calls, and each exception that is named."""
    words = set(re.findall(r'\b[A-Z][A-Za-z]+\b|\b[A-Z][A-Z_]+\b', ' '.join(re.findall(r'`([^`\n]+)`', PAGE))))
    builtin = {'ImportError', 'KeyboardInterrupt', 'TypeError', 'ValueError', 'MemoryError', 'FIBS_LIBRARY',
               'LD_LIBRARY_PATH'}
    known = {*vars(fibs), *vars(fibs.events)}
    counts.same(words - builtin - known, set(), 'names that are nowhere')


def the_types_hold(counts):
    """Of the package and of the page's own program strictly; of the programs as far as they have types."""
    mypy = shutil.which('mypy')
    if not mypy:
        counts.leave_out('there is no mypy')
        return
    programs = ['read_session.py', '../scripts/fibs-mat', 'gnubg_bot.py']
    for words, folder in [(['--strict', '--config-file', 'pyproject.toml', 'fibs'], 'python'), (programs, 'examples')]:
        told = subprocess.run([mypy, '--cache-dir', '/dev/null', *words], capture_output=True, text=True,
                              cwd=ROOT / folder, env={**os.environ, 'MYPYPATH': str(ROOT / 'python')})
        counts.check(told.returncode == 0, told.stdout + told.stderr)
    told = subprocess.run([mypy, '--cache-dir', '/dev/null', '--strict', '-c', '\n'.join(blocks('python'))],
                          capture_output=True, text=True, cwd=ROOT, env={**os.environ, 'MYPYPATH': str(ROOT / 'python')})
    counts.check(told.returncode == 0, told.stdout + told.stderr)


TESTS = [the_sessions_of_the_page_are_as_they_run, the_example_of_asyncio_plays_a_game,
         it_plays_at_the_server_of_the_examples,
         names_of_the_page_are_in_the_package, the_types_hold]
