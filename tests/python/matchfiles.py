"""Match files as GNU Backgammon imports them."""

import json
import os
import pathlib
import shutil
import subprocess
import tempfile

SCRIPT = """import gnubg, json
gnubg.command('import mat %s')
print('MATCH ' + json.dumps(gnubg.match(analysis=0, boards=1)))
"""


def gnubg():
    """GNU Backgammon, or None."""
    return shutil.which('gnubg') or shutil.which('gnubg', path='/usr/games:/usr/local/games')


def action_of(one):
    """What a player does; a roll with which nothing can be moved is a pass."""
    return 'pass' if one['action'] in ('move', 'set') and not one.get('move') else one['action']


def imported(text):
    """A match file as GNU Backgammon has it: what it says of the match, and its games. The action of a player is his
    name, what he does, and the position that it leads to, if it leads to one. None if a play in it is illegal."""
    with tempfile.TemporaryDirectory() as folder:
        path = pathlib.Path(folder)
        (path / 'match.mat').write_text(text)
        (path / 'script.py').write_text(SCRIPT % (path / 'match.mat'))
        told = subprocess.run([gnubg(), '-t', '-q', '-r', '-s', folder, '-p', str(path / 'script.py')],
                              stdin=subprocess.DEVNULL, capture_output=True, text=True, timeout=60,
                              env={**os.environ, 'HOME': folder})
    found = [line for line in told.stdout.splitlines() if line.startswith('MATCH ')]
    if not found or 'Invalid move' in told.stdout + told.stderr:
        return None
    match = json.loads(found[0][6:])
    names = {side: match['match-info'][side]['name'] for side in 'XO'}
    games = [(tuple(game['info']['score-' + side] for side in 'XO'), names.get(game['info']['winner']),
              game['info'].get('points-won'), [(names[one['player']], action_of(one), one.get('board'))
                                               for one in game['game']]) for game in match['games']]
    return match['match-info']['match-length'], tuple(names[side] for side in 'XO'), games
