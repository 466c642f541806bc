"""Writes crates/js_grammar/src/row_symbols.rt from crates/js_grammar/specs/Rows.antt.

Run it from the top of the repository after a change of the rows, and then `rt fmt` in crates/js_grammar. What it writes
is not trusted: the check proves each row equal to the definition.
"""

import re

SPEC = 'crates/js_grammar/specs/Rows.antt'
CODE = 'crates/js_grammar/src/row_symbols.rt'
MODES = ['WithIn', 'NoIn']

HEAD = '''//! The symbols of each row. `tools/write_row_symbols.py` writes this file from the definition, to which it is proved equal.

ghost use Rattle.std.specs.Prelude.{◌≡◌};
ghost use Rattle.js_grammar.specs.declared.symbols.RowId.TheVariants as rows;
ghost use Rattle.js_grammar.specs.Rows.{row_symbols};

use crate::class::Class;
use crate::symbols::Level::{LEVELS};
use crate::symbols::Mode::{NoIn, WithIn};
use crate::symbols::Symbol::{SYMBOLS};
use crate::symbols::{self, RowId, Symbol, Terminal};

CONSTANTS

/// The symbols of a row, in their order.
pub fn symbols_of(row: RowId) -> &'static [Symbol]
    ensures { result.now ≡ row_symbols row }
{
    match row {
ARMS
    }
}
'''

LEVELED = '''
fn FUNCTION(level: symbols::Level, mode: symbols::Mode) -> &'static [Symbol]
    ensures { result.now ≡ row_symbols (rows.ROW level mode) }
{
    match (level, mode) {
ARMS
    }
}
'''


def snake(name):
    return re.sub(r'(?<!^)([A-Z])', r'_\1', name)


class Writer:
    def __init__(self, text):
        self.next_level = dict(re.findall(r'^next_level levels\.(\w+) m = (.*)$', text, re.M))
        self.rows = re.findall(r'^row_symbols \(?rows\.(\w+)( n)?( m)?\)? = (.*)$', text, re.M)
        self.constants = {}    # name -> the symbol of a terminal
        self.symbols = {'Take'}

    def terminal(self, name, value):
        self.constants[snake(name).upper()] = 'Take(Terminal::%s)' % value
        return snake(name).upper()

    def symbol(self, term, mode, level):
        """A symbol of the definition as code, at a mode and a level of its row."""
        if term == 'paren':
            return self.terminal('OpenParen', 'OpenParen')
        if term == 'bind':
            return self.terminal('Bind', 'Bind')
        if term == 'next_level n m':
            return self.symbol(self.next_level[level], mode, level)
        if term == 'symbols.Take (terminals.Operator n m)':
            return 'Take(Terminal::Operator(%s, %s))' % (level, mode)
        found = re.match(r'one classes\.(\w+)$', term)
        if found:
            return self.terminal(found[1], 'One(Class::%s)' % found[1])
        found = re.match(r'symbols\.Take terminals\.(\w+)$', term)
        if found:
            return self.terminal(found[1], found[1])
        found = re.match(r'symbols\.(\w+)(?: (n|levels\.\w+))?(?: (m|modes\.\w+))?$', term)
        self.symbols.add(found[1])
        payload = []
        if found[2]:
            payload.append(level if found[2] == 'n' else found[2].split('.')[1])
        if found[3]:
            payload.append(mode if found[3] == 'm' else found[3].split('.')[1])
        return found[1] + ('(%s)' % ', '.join(payload) if payload else '')

    def listed(self, terms, mode=None, level=None):
        return '&[%s],' % ', '.join(self.symbol(t, mode, level) for t in terms)

    def write(self):
        arms, functions = [], []
        for name, leveled, moded, body in self.rows:
            terms = body.split(' ∷ ')[:-1]
            if leveled and terms:
                function = snake(name).lower() + '_symbols'
                arms.append('RowId::%s(level, mode) => %s(level, mode),' % (name, function))
                cases = ['(%s, %s) => %s' % (level, mode, self.listed(terms, mode, level))
                         for level in self.next_level for mode in MODES]
                functions.append(LEVELED.replace('FUNCTION', function).replace('ROW', name)
                                 .replace('ARMS', '\n'.join(cases)))
            elif leveled:
                arms.append('RowId::%s(_, _) => &[],' % name)
            elif moded and any(t.endswith(' m') for t in terms):
                arms += ['RowId::%s(%s) => %s' % (name, mode, self.listed(terms, mode)) for mode in MODES]
            else:
                arms.append('RowId::%s%s => %s' % (name, '(_)' if moded else '', self.listed(terms)))
        constants = '\n\n'.join('const %s: Symbol = %s;' % pair for pair in sorted(self.constants.items()))
        head = (HEAD.replace('{LEVELS}', '{%s}' % ', '.join(sorted(self.next_level)))
                .replace('{SYMBOLS}', '{%s}' % ', '.join(sorted(self.symbols)))
                .replace('CONSTANTS', constants).replace('ARMS', '\n'.join(arms)))
        return head + ''.join(functions)


if __name__ == '__main__':
    with open(SPEC) as spec:
        text = Writer(spec.read()).write()
    with open(CODE, 'w') as code:
        code.write(text)
