// The package for node: one module, whether it is imported or required.

import library from './dist/index.cjs';

export const {
  Client, Directory, Events, FibsError, Lines, MatchFiles, after, differs, inOwn, plays, read, refusal, savedMatch,
  turn, turned, words,
} = library;
