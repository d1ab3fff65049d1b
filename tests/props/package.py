"""The package for Python of this tree, over the library that `make lib` has built: `from props.package import fibs`."""

import os
import pathlib
import sys

ROOT = pathlib.Path(__file__).resolve().parent.parent.parent
os.environ.setdefault('FIBS_LIBRARY', str(ROOT / 'lib' / 'libfibs.so'))
sys.path.insert(0, str(ROOT / 'python'))

import fibs  # noqa: E402, F401
