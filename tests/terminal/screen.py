"""A terminal's screen, as ECMA-48 and the manual of the VT100 have it: what stands in its rows after what it was sent.

It knows what the program sends and what rlwrap does; any other control sequence is a failure."""

import re

from props.checks import Failed

TAKEN = re.compile(r'\x1b\[([?>]?)([0-9;]*)([@-~])|\x1b\][^\x07\x1b]*(?:\x07|\x1b\\)|\x1b([78=>M])|([\x00-\x1a\x1c-\x1f])|([^\x00-\x1f])',
                   re.S)


class Screen:
    """The rows, where the cursor is, and which rows scroll."""

    def __init__(self, columns=80, rows=24):
        self.columns, self.rows, self.at, self.kept, self.rest = columns, [], [0, 0], [0, 0], ''
        self.resizes(columns, rows)

    def resizes(self, columns, rows):
        """As xterm: the last rows stay, wider or cut, and all of them scroll."""
        gone = max(0, self.at[0] + 1 - rows)
        self.rows = [(row + [' '] * columns)[:columns] for row in self.rows[gone:gone + rows]]
        self.rows += [[' '] * columns for _ in range(rows - len(self.rows))]
        self.at = [self.at[0] - gone, min(self.at[1], columns - 1)]
        self.columns, self.top, self.bottom = columns, 0, rows - 1

    def text(self):
        """Its rows."""
        return [''.join(row).rstrip() for row in self.rows]

    def scrolls_whole(self):
        return (self.top, self.bottom) == (0, len(self.rows) - 1)

    def ends_line(self):
        if self.at[0] == self.bottom:
            del self.rows[self.top]
            self.rows.insert(self.bottom, [' '] * self.columns)
        elif self.at[0] + 1 < len(self.rows):
            self.at[0] += 1

    def takes(self, piece):
        """What it is sent: bytes, which may end within a control sequence."""
        text = self.rest + piece.decode('latin-1')
        at = 0
        while at < len(text):
            found = TAKEN.match(text, at)
            if not found:
                break
            at = found.end()
            private, numbers, last, single, control, letter = found.groups()
            if letter:
                self.puts(letter)
            elif control:
                self.controls(control)
            elif single:
                if single == '7':
                    self.kept = list(self.at)
                elif single == '8':
                    self.at = list(self.kept)
                elif single == 'M':
                    raise Failed('a line goes back')
            elif last and not private:
                self.orders([int(number or 0) for number in numbers.split(';')], last)
            # modes and titles change no row
        self.rest = text[at:]

    def puts(self, letter):
        if self.at[1] == self.columns:
            self.at[1] = 0
            self.ends_line()
        self.rows[self.at[0]][self.at[1]] = letter
        self.at[1] += 1

    def controls(self, control):
        if control == '\n':
            self.ends_line()
        elif control == '\r':
            self.at[1] = 0
        elif control == '\b':
            self.at[1] = max(0, min(self.at[1], self.columns - 1) - 1)
        elif control not in '\x07\x00':
            raise Failed('a control %r' % control)

    def orders(self, numbers, last):
        row, column = self.at[0], min(self.at[1], self.columns - 1)
        count = max(1, numbers[0])
        if last == 'A':
            self.at[0] = max(row - count, self.top if row >= self.top else 0)
        elif last == 'B':
            self.at[0] = min(row + count, self.bottom if row <= self.bottom else len(self.rows) - 1)
        elif last == 'C':
            self.at[1] = min(column + count, self.columns - 1)
        elif last == 'D':
            self.at[1] = max(column - count, 0)
        elif last == 'G':
            self.at[1] = count - 1
        elif last == 'H':
            second = numbers[1] if len(numbers) > 1 else 1
            self.at = [min(count, len(self.rows)) - 1, max(1, second) - 1]
        elif last == 'J':
            rows = {0: range(row + 1, len(self.rows)), 1: range(row), 2: range(len(self.rows))}[numbers[0]]
            for number in rows:
                self.rows[number] = [' '] * self.columns
            if numbers[0] < 2:
                self.orders(numbers, 'K')
        elif last == 'K':
            begin, end = {0: (column, self.columns), 1: (0, column + 1), 2: (0, self.columns)}[numbers[0]]
            self.rows[row][begin:end] = [' '] * (end - begin)
        elif last == 'L':
            for _ in range(count):
                del self.rows[self.bottom]
                self.rows.insert(row, [' '] * self.columns)
        elif last == 'P':
            del self.rows[row][column:column + count]
            self.rows[row] += [' '] * (self.columns - len(self.rows[row]))
        elif last == '@':
            self.rows[row][column:column] = [' '] * count
            del self.rows[row][self.columns:]
        elif last == 'r':
            self.top = count - 1
            self.bottom = min(numbers[1] if len(numbers) > 1 and numbers[1] else len(self.rows), len(self.rows)) - 1
            self.at = [0, 0]
        elif last not in 'mhlt':
            raise Failed('a control sequence %r %s' % (numbers, last))
