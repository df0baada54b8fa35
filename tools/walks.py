#!/usr/bin/env python3
"""For the older Rattle alone: today no proof of `host` is a walk, nothing calls this, and what it writes does not check.

Writes the proofs of the crate `host` that are walks of a function's MIR: crates/host/proofs/**/Proof.antt of the
functions named at the end of this file. Run it at the repository's root when one of these functions or its parameters
is changed, or a call is added. With --check it writes nothing: it prints the files that are not as it would write them,
and ends with 1 if there are any. What it writes is formatted by `rt fmt`, and checked like any proof.

Five shapes of function have a walk each. A walk follows the MIR statement by statement, so that the body of the
function must be just as it stands here; `rest` is lists lent as `&mut` or `&`, numbers, and structs by value, in any
order, the same in the function and in its core.

    public   pub fn f(sheet: &mut Sheet, table: &mut [Entry], rest) -> Answer
             { let s = *sheet; let out = core(s, table, rest); *sheet = out.sheet; out.answer }

    inner    pub fn f(s: Sheet, table: &mut [Entry], rest) -> Left
             { let t = load(table, MOST); let out = core(s, t, rest); let u = out.table; store(table, u); out }

    second   fn f(b: Board, t: Flat, table: &[Entry], rest) -> Left
             { let u = load(table, MOST); core(b, t, u, rest) }

    look     pub fn f(sheet: &Sheet, table: &[Entry], rest) -> Answer
             { let s = *sheet; let t = load(table, MOST); core(s, t, rest) }

    told     pub extern "C" fn f(sheet, table, rest) -> Said
             { let answer = core(sheet, table, rest); say(answer) }

MOST is how many places of the table are taken out at most, the constant of a sheet's table or of one foil's. A walk
hands `rest` on as one thing, and what the callees ensure unopened, so that it knows nothing of a contract: a public
call's is its core's at `out.answer` and `out.sheet`, a told one's is `ToldBy` of its core's, and those of an inner
function and of a look follow from their core's by the law named with them, of e₁ : t ≡ frontOf MOST es, e₂ : what the
core ensures, and for an inner function e₃ : es′ ≡ withFront (out .table) es; besides, they are told that the records
are eight. Where a call takes the record of one foil, a `Board`, this stands for the `Sheet` in the first two shapes,
and nothing more is told. The laws of walks stand in Walks.antt and Locals.antt of crates/host/proofs.

A position in a walk counts the items that are held: the last local stands first, and each local is two items, its cell
and the right to free it.
"""
import os
import shutil
import subprocess
import sys
import tempfile
from typing import List, Optional, Sequence, Tuple

CRATE = 'host'
WIDTHS = {'u8': 'w8', 'u16': 'w16', 'u32': 'w32', 'u64': 'w64', 'usize': 'w64'}
EIGHT = 'use Rattle·sheet_rows.proofs.Records.{eight}'
ROWS = {'Entry': 'entry.the-row', 'Sheet': 'sheet.the-row', 'Board': 'board.the-row'}
# how many places of a table are taken out, of a sheet's or of one foil's
MOST = {'Sheet': 512, 'Board': 128}


# ---- names and terms

def proofs_of(function):
    return 'Rattle·%s·proofs.proofs.%s' % (CRATE, function)


def symbol(function):
    return '%s·%s' % (CRATE, function.replace('_', '-').replace('.', '·'))


def colons(function):
    return '%s::%s' % (CRATE, function.replace('.', '::'))


def row(parts):
    return ' ⨾ '.join(parts + ['tt'])


def at(base, i):
    return base + ' .1' * i + ' .0'


def value(kind):
    """The name that Values.antt has for a type by value."""
    return ('an-' if kind[0] in 'AEIO' else 'a-') + kind


def move(*positions):
    return 'move ! (%s[]) $ ' % ''.join('%d ∷ ' % p for p in positions)


def copies(positions: Sequence[Optional[int]]) -> str:
    """The operands of a call: the locals at these positions, by value, and literals where there is none."""
    opened = ''.join('literal ! tt (' if x is None else f'arg ! {x} refl (' for x in positions)
    return opened + 'no-more !' + ')' * len(positions)


# ---- parameters

class Param:
    """A parameter: `&mut T`, `&T`, `&mut [T]`, `&[T]`, a number or a struct by value."""

    def __init__(self, text):
        self.mut = text.startswith('&mut ')
        self.ref = text.startswith('&')
        self.type = text.removeprefix('&').removeprefix('mut ')
        self.slice = self.type.startswith('[')
        self.type = self.type.strip('[]')
        self.row = ROWS.get(self.type, self.type)

    def spells(self):
        """Its machine value, as a function of what it denotes."""
        if self.ref:
            return 'slice-vals' if self.slice else 'ptr-vals'
        return 'uint-vals ' + WIDTHS[self.type] if self.type in WIDTHS else '(λ x. %s .val x ∷ [])' % value(self.type)

    def tells(self, lifetime):
        if self.ref:
            return '%s%s-tells (named %d) (%s) %s' % ('mut' if self.mut else 'shr', '-slice' if self.slice else '',
                                                     lifetime, at('κs', lifetime), self.row)
        return 'uint-tells ' + WIDTHS[self.type] if self.type in WIDTHS else '%s .tells' % value(self.type)

    def typed(self, fact):
        """That its machine value is of its MIR type, of its relation."""
        if self.slice:
            return '(in-slice (%s .0 .1 .0))' % fact
        if self.ref:
            return '(tt, tt)'
        if self.type in WIDTHS:
            return '(in-number (%s .1))' % fact
        return '(typed-at W %s (%s) (%s) .0)' % (value(self.type), fact.replace('are', 'a'), fact)


# ---- the steps of a walk

class Walk:
    """The text of a walk of a function with these parameters and so many locals more; local 0 is its result."""

    def __init__(self, params, more):
        self.params = [Param(p) for p in params]
        self.count = 1 + len(params) + more
        self.next = len(params) + 1
        self.text = ''

    def place(self, local, front):
        return 2 * (self.count - 1 - local) + front

    def local(self):
        self.next += 1
        return self.next - 1

    def say(self, text):
        self.text += text

    def note(self, text):
        self.text = self.text.rstrip(' ') + '\n        -- %s\n        ' % text

    def lifetimes(self):
        return sum(p.ref for p in self.params)

    def begin(self, tokens):
        self.say('qed W (%s ∷ ‵ (owns (typesAt (f.signature .params) κs) a vals) ∷ []) ∵\n        '
                 'enter ! (𝓣 .C) (𝓣 .Λ) f.Code.function _ _ $ ' % tokens)
        self.say('allocates ! _ (λ bs. params1 ! $ ')
        for i, p in enumerate(self.params):
            self.say('pass1 ! (init ! %d refl %s) $ ' % (self.place(i + 1, 0), p.typed(at('are', i))))
        self.say('pass0 ! $ ')

    def lend(self, local, param, fact, front):
        """A parameter is lent on, as a new reference; answers the local that holds it."""
        if not param.slice:
            reference = self.local()
            self.say('assigns ! (addr ! (from ! (hop ! (look ! %d refl) (stop !)))) (from ! (stop !)) '
                     '(init ! %d refl (tt, tt)) $ ' % (self.place(local, front), self.place(reference, front)))
            return reference
        reference, slice_ = self.local(), self.local()
        self.say('lends-on ! %d %d refl refl (init ! %d refl (tt, tt)) refl refl (init ! %d refl %s) $ '
                 % (self.place(local, front), self.place(reference, front), self.place(reference, front),
                    self.place(slice_, front), param.typed(fact)))
        return slice_

    def lend_all(self, first, front):
        """The parameters from this one on as a callee's operands: `&mut` lent on, the others as they are."""
        return [self.lend(i + 1, p, at('are', i), front) if p.mut else i + 1
                for i, p in enumerate(self.params) if i >= first]

    def copy(self, target, source, front, typed):
        """`target = source`, source being a right side's operand."""
        self.say('assigns ! (of-opd ! (load ! %s)) (from ! (stop !)) (init ! %d refl %s) $ '
                 % (source, self.place(target, front), typed))

    def call(self, prefix: str, known: str, ghost: str, by: str, operands: Sequence[Optional[int]], front: int,
             binders: str) -> None:
        """A call whose parameters stand joined in front, with so many items before the locals."""
        self.say('\n        calls-for %s.ended (%s.clauses 𝓤 H A mem run) fm %s (%s, tt) %s (and-nothing 𝓤 _) (%s) '
                 '(λ %s. ' % (prefix, prefix, known, ghost, by,
                              copies([None if i is None else self.place(i, front) for i in operands]), binders))

    def loads(self, most: int, token: int, lifetime: str, share: str, table: str, val: str, source: int,
              target: int) -> None:
        """`target = load(source, most)`, of the table that stands in front; its token stands at `token` once the two
        parameters are joined before it."""
        self.say(f'nothing ! $ has-value ! (of-number w64) {most} (refl, lit< tt) $ fjoin ! $ {move(1, 0)}fjoin ! $ '
                 f'nothing ! $ {move(token, 0)}join ! $ join ! $ ')
        ghost = f'(({lifetime}, tt), ({share}, tt), tt, ({table}, ({most}, tt)), ({val}, (vint w64 {most} ∷ [], tt)))'
        self.call('ld', 'known-load', ghost, 'a-Flat', [source, None], 5, 't is₁ ok₁ us')
        self.say(f'{move(1)}drop ! $ {move(1)}heard ! _ (λ e₁. ')
        self.land(target, 5, 'ok₁')

    def land(self, local, front, typed):
        self.say('land ! (from ! (stop !)) (init ! %d refl (%s .0)) $ ' % (self.place(local, front), typed))

    def leave(self, front):
        self.say('returns ! (look ! %d refl) $ releases ! (%s[]) _ $ ' % (self.place(0, front), '_ ∷ ' * front))

    def end(self, how, result, by, lasts, made=''):
        self.say('by ! (%s W f.ended (f.clauses 𝓤 H A mem run) ((κs, qs, tt, a, vals), tt) (%s .val %s) %s %s%s)'
                 % (how, by, result, result, lasts, made))


# ---- the five walks. Comments list what is held in front of the locals

def public(function, core, left, answer, rest, of='Sheet'):
    """left is the type of the core's result, answer that of the call's, of that of the record"""
    by, field, row_of = value(of), of.lower(), ROWS[of]
    w = Walk(['&mut ' + of, '&mut [Entry]'] + rest, 2 + 2 * (1 + sum(r.startswith('&mut') for r in rest)))
    n = w.lifetimes()
    record, result = w.local(), w.local()
    w.begin('(‵ (flft (κs .0) (qs .0)) ⊛ raw (toks 𝓤 A %d (κs .1) (qs .1)))' % (n - 1))
    w.note("the record's borrow is opened, and the record copied out")
    cells = 2 * w.count
    w.say(move(cells + 1) + 'fsplit ! $ fsplit3 ! $ drop ! $ ' + move(cells + 3) + 'split ! $ ' + move(2, 3, 0))
    w.say('opens-record ! tt %s (a .0 .now) (a .0 .ptr .0) (a .0 .ptr .1) (λ g. ' % by)
    # the record's cell; what it owns; the open borrow; obs; auth; tokens; what the other parameters own
    w.copy(record, '(from ! (hop ! (look ! %d refl) (stop !))) (look-raw ! 0 refl)' % w.place(1, 7), 7,
           '(typed-at W %s (a .0 .now) g .0)' % by)
    operands = w.lend_all(1, 7)
    w.say(move(1, 6) + 'fjoin ! $ ' + move(5, 0) + 'join ! $ ')
    w.call('core', 'known', '(κs .1, qs .1, tt, (a .0 .now, a .1), (%s .val (a .0 .now) ∷ [], vals .1))' % by,
           value(left), [record] + operands, 5, 'r is ok ws')
    w.land(result, 7, 'ok')
    part = left.lower()
    w.note('the new record is stored, and the borrow closed at it')
    w.say('assigns ! (of-opd ! (load ! (from ! (fld ! refl (stop !))) (look-in ! %d (sub ! 0 refl (whole !))))) '
          '(from ! (hop ! (look ! %d refl) (stop !))) (store-raw ! 3 refl (typed-at W %s (r .%s) (%s-%s r '
          'is) .0)) $ '
          % (w.place(result, 7), w.place(1, 7), by, field, part, field))
    w.copy(0, '(from ! (fld ! refl (stop !))) (look-in ! %d (sub ! 1 refl (whole !)))' % w.place(result, 7), 7,
           '(typed-at W %s (r .%s) (%s-answer r is) .0)' % (value(answer), answer.lower(), part))
    w.say('has-value ! %s (r .%s) (%s-%s r is) $ ' % (by, field, part, field) + move(4, 0, 5, 6, 7))
    w.say('closes ! tt %s (r .%s) (%s .val (r .%s) ∷ []) (a .0 .ptr .0) (a .0 .ptr .1) $ '
          % (row_of, field, by, field))
    w.leave(6)
    # obs; the borrow; its token; tokens; the last lists; what is ensured
    w.say('use1 W (‵ (fres (a .0 .name) (%s .coded .code (r .%s)))) (W .names .obs-res (a .0 .name) '
          '(%s .coded .code (r .%s))) $ ' % (row_of, field, row_of, field) + move(4) + 'fsplit ! $ drop ! $ ' + move(1, 0) + 'fjoin ! $ '
          + move(2, 3) + 'join ! $ has-value ! %s (r .%s) (%s-answer r is) $ keep ! (1 ∷ 0 ∷ 2 ∷ 4 ∷ []) $ '
          % (value(answer), answer.lower(), part))
    w.end('ends-with', '(r .%s)' % answer.lower(), value(answer), '(r .%s, ws .1)' % field)
    write(function, w, 'public', "The record's borrow is opened and the record copied out; the lists are given to "
          '`%s` for good; the new record is stored, and the borrow closed at it.' % colons(core),
          [('core', core, 'known')], [by, value(left), value(answer), part + '-' + field, part + '-answer'])


def inner(function: str, core: str, left: str, rest: List[str], law: Tuple[str, str], of: str = 'Sheet') -> None:
    """law: its `use` line, and the law with its arguments but the facts; of: the type of the record"""
    lent = sum(r.startswith('&mut') for r in rest)
    w = Walk([of, '&mut [Entry]'] + rest, 8 + 2 * lent)
    eight = (' (eight (a .0) (are .0))', [EIGHT]) if of == 'Sheet' else ('', [])
    n = w.lifetimes()
    table = w.params[1]
    loaded, result, stored = w.local(), w.local(), w.local()
    w.begin('(‵ (flft (κs .0) (qs .0)) ⊛ raw (toks 𝓤 A %d (κs .1) (qs .1)))' % (n - 1))
    shared = w.lend(2, table, at('are', 1), 0)
    w.note('the table is lent as a `&` for the lifetime ν of the first call, and comes back')
    cells = 2 * w.count
    x = lambda name: 'record { ptr = a .1 .0 .ptr; name = %s; now = a .1 .0 .now }' % name
    held = 'entry.the-row (κs .0) (ν ∷ []) (qs .0) (a .1 .0 .name) (a .1 .0 .ptr .0) (a .1 .0 .ptr .1)'
    w.say(move(cells + 1) + 'fsplit ! $ ' + move(1) + 'fsplit ! $ ' + move(cells + 3) + 'split ! $ lft-new ! tt (λ ν. '
          + move(3, 1))
    w.say('use2 W (later (some (λ (δ : GName). ‵ (ShrSlice (named 0) (ν ∷ []) entry.the-row .own (%s) (vals .1 .0)) ⊛ '
          '‵ (LentShared %s (a .1 .0 .now))))) (lends-shared %s 𝓤 H A W (named 0) (named 0) (a .1 .0 .now) (are .1 .0 '
          '.0 .1)) $ await ! tt $ pick ! (λ δ. split ! $ ' % (x('δ'), held, held))
    w.loads(MOST[of], 3, 'ν ∷ []', 'fullShare', x('δ'), 'vals .1 .0', shared, loaded)
    w.say('use1 W (‵ (flft (ν ∷ []) fullShare)) (fst∗ 𝓤 _ (emp 𝓤)) $ lft-end ! tt $ use2 W (later (‵ (MutSlice '
          '(named 0) (κs .0) entry.the-row .own (a .1 .0) (vals .1 .0)) ⊛ ‵ (flft (κs .0) (qs .0)))) (shared-back %s '
          '𝓤 H A W (named 0) (named 0) (a .1 .0 .now) (are .1 .0 .0 .1)) $ await ! tt $ split ! $ ' % held)
    # the table; its token; the other tokens; what the rest owns; what the record owns
    operands = w.lend_all(2, 5)
    w.say('has-value ! a-Flat t is₁ $ ' + move(0, 4) + 'fjoin ! $ ' + move(4, 0) + 'fjoin ! $ ' + move(3, 0)
          + 'join ! $ ')
    w.call('core', 'known', '(κs .1, qs .1, tt, (a .0, (t, a .1 .1)), (vals .0, (a-Flat .val t ∷ [], vals .1 .1)))',
           value(left), [1, loaded] + operands, 3, 'r is₂ ok₂ zs')
    w.land(result, 5, 'ok₂')
    part = left.lower()
    w.copy(stored, '(from ! (fld ! refl (stop !))) (look-in ! %d (sub ! 2 refl (whole !)))' % w.place(result, 5), 5,
           '(typed-at W a-Flat (r .table) (%s-table r is₂) .0)' % part)
    unit = w.local()
    again = w.lend(2, table, at('are', 1), 5)
    w.say('nothing ! $ has-value ! a-Flat (r .table) (%s-table r is₂) $ fjoin ! $ ' % part + move(4, 0)
          + 'fjoin ! $ nothing ! $ ' + move(5, 0) + 'join ! $ join ! $ ')
    w.call('st', 'known-store', '((κs .0, tt), (qs .0, tt), tt, (a .1 .0, (r .table, tt)), (vals .1 .0, (a-Flat .val '
           '(r .table) ∷ [], tt)))', 'of-nothing', [again, stored], 4, 'u is₃ ok₃ vs')
    w.land(unit, 6, 'ok₃')
    w.copy(0, '(from ! (stop !)) (look ! %d refl)' % w.place(result, 6), 6, '(ok₂ .0)')
    w.leave(6)
    # the table's token, last list and fact; those of the rest
    w.say(move(5) + 'heard ! _ (λ e₂. ' + move(2) + 'heard ! _ (λ e₃. '
          'use1 W (‵ (flft (κs .0) (qs .0))) (fst∗ 𝓤 _ (emp 𝓤)) $ '
          + move(1) + 'fsplit ! $ ' + move(1) + 'drop ! $ ' + move(3) + 'fsplit ! $ drop ! $ fsplit ! $ drop ! $ '
          + move(1, 0) + 'fjoin ! $ nothing ! $ fjoin ! $ ' + move(1, 2) + 'join ! $ has-value ! %s r is₂ $ '
          % value(left) + move(1, 0))
    w.end('ends-saying', 'r', value(left), '(tt, (vs .0, zs .1 .1))',
          ' (factI 𝓤 _ (emp 𝓤) (%s%s e₁ e₂ e₃))' % (law[1], eight[0]))
    write(function, w, 'inner', 'The table is lent as a `&` to `%s` for a lifetime that the walk makes, and comes back '
          '(Shared.antt); the other lists are given to `%s` for good, and the table to `%s`.'
          % (colons('table.load'), colons(core), colons('table.store')),
          [('core', core, 'known'), ('ld', 'table.load', 'known-load'), ('st', 'table.store', 'known-store')],
          [value(of), 'a-Flat', value(left), part + '-table'],
          ['use Rattle·host·proofs.proofs.Shared.{LentShared, lends-shared, shared-back}'] + eight[1] + [law[0]])


def second(function: str, core: str, left: str, rest: List[str], law: Tuple[str, str]) -> None:
    """a second table, which is only read; law as for an inner function, of e₁ and e₂"""
    w = Walk(['Board', 'Flat', '&[Entry]'] + rest, 1 + 2 * sum(r.startswith('&mut') for r in rest))
    n = w.lifetimes()
    loaded = w.local()
    w.begin('(‵ (flft (κs .0) (qs .0)) ⊛ raw (toks 𝓤 A %d (κs .1) (qs .1)))' % (n - 1))
    cells = 2 * w.count
    w.say(move(cells + 1) + 'fsplit ! $ ' + move(1) + 'fsplit ! $ ' + move(1) + 'fsplit ! $ ' + move(cells + 4)
          + 'split ! $ ')
    # the table's token; the other tokens; the table; what the rest, the numbers and the record own
    w.say(move(2))
    w.loads(MOST['Board'], 2, 'κs .0', 'qs .0', 'a .1 .1 .0', 'vals .1 .1 .0', 3, loaded)
    operands = w.lend_all(3, 5)
    w.say('has-value ! a-Flat t is₁ $ ' + move(0, 3) + 'fjoin ! $ ' + move(3, 0) + 'fjoin ! $ ' + move(3, 0)
          + 'fjoin ! $ ' + move(2, 0) + 'join ! $ ')
    w.call('core', 'known', '(κs .1, qs .1, tt, (a .0, (a .1 .0, (t, a .1 .1 .1))), (vals .0, (vals .1 .0, (a-Flat .val '
           't ∷ [], vals .1 .1 .1))))', value(left), [1, 2, loaded] + operands, 2, 'r is₂ ok₂ zs')
    w.land(0, 4, 'ok₂')
    w.leave(4)
    # tokens, last lists and fact of the core; the table's token
    w.say(move(2) + 'heard ! _ (λ e₂. ' + move(2) + 'use1 W (‵ (flft (κs .0) (qs .0))) (fst∗ 𝓤 _ (emp 𝓤)) $ '
          + move(0, 1) + 'join ! $ has-value ! %s r is₂ $ keep ! (1 ∷ 0 ∷ 2 ∷ []) $ ' % value(left))
    w.end('ends-saying', 'r', value(left), 'zs', ' (factI 𝓤 _ (emp 𝓤) (%s e₁ e₂))' % law[1])
    write(function, w, 'second', 'The second table is passed to `%s`, and the rest to `%s`.'
          % (colons('table.load'), colons(core)), [('core', core, 'known'), ('ld', 'table.load', 'known-load')],
          ['a-Board', 'a-Flat', value(left)], [law[0]])


def look(function: str, core: str, answer: str, rest: List[str], law: Tuple[str, str]) -> None:
    w = Walk(['&Sheet', '&[Entry]'] + rest, 2 + 2 * sum(r.startswith('&mut') for r in rest))
    n = w.lifetimes()
    record, loaded = w.local(), w.local()
    w.begin('(‵ (flft (κs .0) (qs .0)) ⊛ (‵ (flft (κs .1 .0) (qs .1 .0)) ⊛ raw (toks 𝓤 A %d (κs .1 .1) (qs .1 .1))))'
            % (n - 2))
    w.note('the record is looked into, and copied out')
    cells = 2 * w.count
    w.say(move(cells + 1) + 'fsplit ! $ fsplit3 ! $ drop ! $ drop ! $ ' + move(cells + 2) + 'split ! $ ' + move(2, 0))
    w.say('looks-into ! tt a-Sheet (LL.copy sheet.the-type sheet′.the-copy 𝓤 H A W) (a .0 .now) (a .0 .ptr .0) '
          '(a .0 .ptr .1) (λ q g. ')
    # the record's cell; what it owns; its open borrow; its borrow; the other tokens; what the other parameters own
    w.copy(record, '(from ! (hop ! (look ! %d refl) (stop !))) (look-raw ! 0 refl)' % w.place(1, 6), 6,
           '(typed-at W a-Sheet (a .0 .now) g .0)')
    w.say('shuts ! tt sheet.the-row q (a .0 .now) (a-Sheet .val (a .0 .now) ∷ []) (a .0 .ptr .0) (a .0 .ptr .1) $ ')
    w.say(move(2) + 'split ! $ ' + move(4) + 'fsplit ! $ ')
    w.loads(MOST['Sheet'], 3, 'κs .1 .0', 'qs .1 .0', 'a .1 .0', 'vals .1 .0', 2, loaded)
    # the table's token; what the rest owns; the other tokens; the record's token and borrow
    operands = w.lend_all(2, 5)
    w.say('has-value ! a-Flat t is₁ $ ' + move(0, 2) + 'fjoin ! $ has-value ! a-Sheet (a .0 .now) g $ fjoin ! $ '
          + move(2, 0) + 'join ! $ ')
    w.call('core', 'known', '(κs .1 .1, qs .1 .1, tt, (a .0 .now, (t, a .1 .1)), (a-Sheet .val (a .0 .now) ∷ [], '
           '(a-Flat .val t ∷ [], vals .1 .1)))', value(answer), [record, loaded] + operands, 4, 'r is₂ ok₂ zs')
    w.land(0, 6, 'ok₂')
    w.leave(6)
    # tokens, last lists and fact of the core; the table's token; the record's token and borrow
    w.say(move(2) + 'heard ! _ (λ e₂. ' + move(2) + 'use1 W (‵ (flft (κs .1 .0) (qs .1 .0))) (fst∗ 𝓤 _ (emp 𝓤)) $ '
          + move(0, 1) + 'join ! $ ' + move(2, 0) + 'join ! $ has-value ! %s r is₂ $ keep ! (1 ∷ 0 ∷ 2 ∷ []) $ '
          % value(answer))
    w.end('ends-saying', 'r', value(answer), 'zs', ' (factI 𝓤 _ (emp 𝓤) (%s (eight (a .0 .now) g) e₁ e₂))' % law[1])
    write(function, w, 'look', 'The record is copied out of its `&`; the table is passed to `%s` and the rest to `%s`.'
          % (colons('table.load'), colons(core)), [('core', core, 'known'), ('ld', 'table.load', 'known-load')],
          ['a-Sheet', 'a-Flat', value(answer)],
          [EIGHT, law[0], 'use denote.Struct.Laws as LL', 'use Rattle·sheet_rows.proofs.Sheet.Laws as sheet′'])


def told(function, core, answer, say, said, first, rest):
    """say tells the core's answer as a `said`"""
    params = first + rest
    w = Walk(params, 1 + sum(p.startswith('&mut') * (2 if '[' in p else 1) for p in params))
    n = w.lifetimes()
    kept = w.local()
    w.begin('raw (toks 𝓤 A %d κs qs)' % n)
    operands = w.lend_all(0, 0)
    cells = 2 * w.count
    w.say(move(cells, cells + 1) + 'join ! $ ')
    w.call('core', 'known', '(κs, qs, tt, a, vals)', value(answer), operands, 1, 'r is₁ ok₁ ws')
    w.land(kept, 3, 'ok₁')
    w.say('nothing ! $ has-value ! %s r is₁ $ fjoin ! $ nothing ! $ join ! $ ' % value(answer))
    w.call('say', 'known-say', '(tt, tt, tt, (r, tt), (%s .val r ∷ [], tt))' % value(answer), value(said), [kept], 4,
           's is₂ ok₂ us')
    w.land(0, 6, 'ok₂')
    w.leave(6)
    w.say(move(2) + 'heard ! _ (λ e₁. ' + move(4) + 'heard ! _ (λ e₂. has-value ! %s s is₂ $ keep ! (3 ∷ 0 ∷ 4 ∷ []) $ '
          % value(said))
    w.end('ends-saying', 's', value(said), 'ws',
          ' (factI 𝓤 _ (emp 𝓤) (record { answer = r; said = e₁; holds = e₂ }))')
    write(function, w, 'told', 'All that it is lent goes on to `%s`, whose answer is told by `%s`.'
          % (colons(core), colons(say)), [('core', core, 'known'), ('say', say, 'known-say')],
          [value(answer), value(said)])


# ---- files

def whole(text):
    """For each character whether it stands within a tuple or a record, which `rt fmt` would set one part a line."""
    within, opened = [False] * len(text), []
    for i, sign in enumerate(text):
        if sign in '({':
            opened.append([i, sign == '{'])
        elif sign == ',' and opened:
            opened[-1][1] = True
        elif sign in ')}':
            start, kept = opened.pop()
            if kept:
                within[start:i] = [True] * (i - start)
    return within


def wrapped(lines):
    """The lines with none over 118 characters: a long one goes on below, from a `$` on if there is one."""
    text, out = '\n'.join(lines), []
    kept, start = whole(text), 0
    for line in text.split('\n'):
        begin, start = start, start + len(line) + 1
        indent = ' ' * (len(line) - len(line.lstrip()))
        comment = line.lstrip().startswith('--')
        going_on = indent + ('-- ' if comment else '' if len(indent) > 5 else '    ')
        first = True
        while True:
            room = 118 - (0 if first else len(going_on))
            if len(line) <= room:
                break
            spaces = [i for i in range(len(indent) + 8 if first else 8, room) if line[i] == ' ']
            spots = [i for i in spaces if comment or not kept[begin + i]]
            cut = max([i for i in spots if line[i - 1] == '$' and i > 85] or spots or spaces)
            out.append((line if first else going_on + line)[:cut + (0 if first else len(going_on))])
            skipped = len(line) - len(line[cut:].lstrip())
            begin, line, first = begin + skipped, line[skipped:], False
        out.append(line if first else going_on + line)
    return [line.rstrip() for line in out]


def uses(module, names):
    lines, line = [], 'use %s.{' % module
    for i, name in enumerate(names):
        piece = name + (', ' if i + 1 < len(names) else '}')
        if len(line + piece) > 116:
            lines.append(line.rstrip(', ') + '}')
            line = 'use %s.{' % module
        line += piece
    return lines + [line]


# the words of a walk: those of Words.antt, and the signs that stand between others
SIGNS = [('mathlib.Core.List', '[], _∷_'), ('types.Kit', '‵, _⊛_, _$_, _∵_, !'),
         ('Rattle·host·proofs.proofs.Walks', '_⨾_')]
WORDS = (
    'refl lit< URA fullShare named w8 w16 w32 w64 vint SProp emp fst∗ GName flft fres Memory Routine Heap WpFn Tables Atoms '
    'Fun factI Lfts Shares toks givenOf tables tablesOf Given raw some later qed by move keep use1 use2 split '
    'join pick fsplit fjoin await drop fsplit3 look look-raw store-raw init stop hop fld from load addr of-opd '
    'no-more assigns land returns enter params1 pass1 pass0 whole sub look-in lft-new lft-end fmOf owns Spells '
    'valss uint-vals uint-tells u8 u16 u32 u64 usize ptr-vals mut-tells shr-tells MutSlice ShrSlice slice-vals '
    'mut-slice-tells shr-slice-tells typesAt heard nothing closes shuts Args Vals Meets tripleOf entered cited '
    'Walk meets-by and-nothing calls-for typed-at has-value opens-record looks-into ends-with ends-saying '
    'of-nothing of-number allocates releases arg literal in-slice in-number lends-on').split()


def words_in(text):
    for sign in '(){},;':
        text = text.replace(sign, ' ')
    return set(text.replace('.', ' ').split())


WRITTEN = {}


def write(function, walk, shape, idea, callees, values, more=()):
    """callees: (prefix, function, name of what is known of it) for each; values: what Values.antt is asked for; more:
    further `use` lines"""
    name = function.split('.')[-1].replace('_', '-')
    known = ['(%s : Meets 𝓤 H A %s.signature (𝓣 .C %s.Symbol.name) (%s.spec 𝓤 H A mem run))' % (k, p, p, p)
             for p, c, k in callees]
    n = walk.lifetimes()
    numbers = iter(range(n))
    tells = [p.tells(next(numbers) if p.ref else None) for p in walk.params]
    body = [
        '-- the machine values of the parameters',
        'abbrev spells : (κs : Lfts %d) → Spells (typesAt (f.signature .params) κs)' % n,
        'spells κs = ' + row([p.spells() for p in walk.params]), '',
        'module _ {M : Type 1} (𝓤 : URA M) (H : Heap 𝓤) (A : Atoms 𝓤) (W : Given 𝓤 H A) (mem : Memory → SProp 𝓤)',
        '    (run : Routine → Fun 𝓤) (𝓣 : Tables 𝓤 H)'] + ['    ' + k for k in known] + [
        '  module _ (κs : Lfts %d) (qs : Shares %d) (a : Args f.signature κs) where' % (n, n),
        '    abbrev vals : Vals f.signature κs',
        '    vals = valss (typesAt (f.signature .params) κs) (spells κs) a', '',
        '    walk : Walk 𝓤 H A f.signature (f.spec 𝓤 H A mem run) (WpFn 𝓤 H (𝓣 .C) (𝓣 .Λ) f.Code.function) κs qs tt a '
        'tt vals',
        '    walk are =',
        '        let fm = fmOf 𝓤 H (W .laws) 𝓣 in',
        '        ' + walk.text + ')' * (walk.text.count('(') - walk.text.count(')')), '',
        '  meets : Meets 𝓤 H A f.signature (WpFn 𝓤 H (𝓣 .C) (𝓣 .Λ) f.Code.function) (f.spec 𝓤 H A mem run)',
        '  meets =',
        '      meets-by 𝓤 H A f.signature (f.spec 𝓤 H A mem run) (WpFn 𝓤 H (𝓣 .C) (𝓣 .Λ) f.Code.function) spells',
        '      (λ κs. %s)' % row(tells),
        '      (λ κs qs bounds a g. walk κs qs a)', '',
        'pub %s-spec : {M : Type 1} → f.Statement.statement M' % name,
        'unfolding f.Code.routine tablesOf',
        '%s-spec 𝓤 H 𝓜 𝓖 𝓡 =' % name,
        '    entered 𝓤 H (tripleOf 𝓤 H (𝓖 .A) f.signature (f.spec 𝓤 H (𝓖 .A) (𝓜 .mem) (𝓡 .run)))',
        '    (tables 𝓤 H 𝓜 𝓡 f.Code.env .C) (tables 𝓤 H 𝓜 𝓡 f.Code.env .Λ) f.Key.name f.Code.function',
        '    (f.Code.unfolded 𝓤 H 𝓜 𝓡)',
        '    (meets 𝓤 H (𝓖 .A) (givenOf 𝓤 H 𝓜 𝓖) (𝓜 .mem) (𝓡 .run) (tablesOf 𝓤 H 𝓜 (tables 𝓤 H 𝓜 𝓡 f.Code.env))',
    ]
    body[5 + len(known)] += ' where'
    for i, (p, c, _) in enumerate(callees):
        body += ['    (cited 𝓤 H (tripleOf 𝓤 H (𝓖 .A) %s.signature (%s.spec 𝓤 H (𝓖 .A) (𝓜 .mem) (𝓡 .run))) 𝓜 𝓡'
                 % (p, p),
                 '    f.Code.env %s.Symbol.name %s.Symbol.routine f.Code.calls-%s (%s.Met.met 𝓤 H 𝓜 𝓖 𝓡))%s'
                 % (p, p, symbol(c), p, ')' if i + 1 == len(callees) else '')]
    text = '\n'.join(body)
    there = words_in(text)
    head = ['-- `%s` meets its contract: a walk of its MIR, written by tools/walks.py (%s). %s'
            % (colons(function), shape, idea)]
    for module, names in SIGNS:
        head += uses(module, [x for x in names.split(', ') if x.strip('_') in there])
    head += uses('Rattle·host·proofs.proofs.Words', [x for x in WORDS if x in there])
    values = set(values) | {value(p.type) for p in walk.params if not p.ref and p.type not in WIDTHS}
    head += uses('Rattle·host·proofs.proofs.Values', sorted(values))
    head += list(more)
    for prefix, module in (('sheet', 'sheet_rows.proofs.Sheet'), ('board', 'foil_spec.proofs.Board'),
                           ('entry', 'foil_spec.proofs.Entry')):
        if prefix + '.the-row' in text or prefix + '.the-type' in text:
            head += ['use Rattle·%s as %s' % (module, prefix)]
    head += ['use %s as %s' % (proofs_of(c), p) for p, c, _ in callees] + ['use %s as f' % proofs_of(function), '']
    WRITTEN[os.path.join('crates', CRATE, 'proofs', *function.split('.'), 'Proof.antt')] = \
        '\n'.join(wrapped(head + body)) + '\n'


# ---- the functions

TABLES = 'use Rattle·host·proofs.proofs.Tables.{%s}'
RUNNING = 'use Rattle·host·proofs.proofs.Running.{%s}'
LISTS = 'use Rattle·host·proofs.proofs.Lists.{%s}'
SAY = {'Answer': ('flat.said_of', 'Said'), 'Resistance': ('flat.ohms_said', 'OhmsSaid'),
       'Reply': ('records.record_said_of', 'RecordSaid')}


def changing(name, thin, core, left, answer, rest, law):
    """A call that changes the foil: its thin function over the table, the call, and the call for C."""
    inner(thin, core, left, rest, law)
    public(name, thin, left, answer, rest)
    told('exported.foil_' + name, name, answer, *SAY[answer], ['&mut Sheet', '&mut [Entry]'], rest)


def reading(name, core, answer, rest, law):
    """A call that only reads the foil: the call, and the call for C."""
    look(name, core, answer, rest, law)
    told('exported.foil_' + name, name, answer, *SAY[answer], ['&Sheet', '&[Entry]'], rest)


STEP = (TABLES % 'whole-done', 'whole-done' + ' _' * 9)
WRITE = (TABLES % 'whole-wrote', 'whole-wrote' + ' _' * 11)
LIST = (LISTS % 'whole-listed', 'whole-listed' + ' _' * 13)
RECORD = (RUNNING % 'whole-ran', 'whole-ran' + ' _' * 12)
READ = (TABLES % 'whole-read', 'whole-read' + ' _' * 9)
OHMS = (TABLES % 'whole-ohms', 'whole-ohms' + ' _' * 8)
STRIPS, CORNERS, FOIL = '&mut [u16]', '&mut [u16]', 'usize'
changing('new_foil', 'table.clear', 'flat.new_foil', 'Left', 'Answer', [STRIPS, FOIL] + ['u16'] * 4, STEP)
changing('draw', 'table.append', 'flat.draw', 'Left', 'Answer', [STRIPS, FOIL] + ['u16'] * 4, STEP)
changing('lay', 'table.append_track', 'flat.lay', 'Left', 'Answer', [STRIPS, CORNERS, FOIL] + ['u16'] * 5, WRITE)
changing('lay_list', 'table.append_list', 'flat.lay_list', 'Left', 'Answer',
         [STRIPS, CORNERS, '&mut [u16]', '&[u16]', FOIL], LIST)
changing('join', 'table.append_join', 'flat.join', 'Left', 'Answer', [STRIPS, CORNERS, FOIL] + ['u16'] * 3, WRITE)
changing('lift', 'table.lift', 'flat.lift', 'Left', 'Answer', [STRIPS, FOIL, 'u16'], STEP)
changing('put_leg', 'table.append_leg', 'flat.put_leg', 'Left', 'Answer', [STRIPS, FOIL, 'Entry'], STEP)
changing('book', 'table.append_way', 'flat.book', 'Left', 'Answer', [STRIPS, '&[u16]', FOIL, 'u16'], STEP)
changing('run_record', 'table.run_record', 'records.run_record', 'Ran', 'Reply',
         [STRIPS, CORNERS, '&[u8]', FOIL, 'usize'], RECORD)
reading('look_up', 'flat.look_up', 'Answer', ['&[u16]', FOIL, 'u16', 'u16'], READ)
reading('find', 'flat.find', 'Answer', ['&[u16]', CORNERS, FOIL] + ['u16'] * 4, READ)
reading('save', 'flat.save', 'Answer', ['&[u16]', '&mut [u8]', FOIL], READ)
reading('slip', 'flat.slip', 'Answer', ['&[u16]', '&mut [u8]', FOIL], READ)
reading('ohms', 'flat.ohms', 'Resistance', ['&[u16]', FOIL, 'u16', 'Ink'], OHMS)


OLDS = ['&[Entry]', STRIPS, '&mut [u16]', '&[u16]', 'OldBoard']
CARRIED = 'use Rattle·host·proofs.proofs.Carried.{%s}'
inner('table.carry', 'table.carry_loaded', 'Brought', OLDS, (CARRIED % 'whole-carried', 'whole-carried' + ' _' * 10),
      'Board')
second('table.carry_loaded', 'flat.carry', 'Brought', OLDS[1:], (CARRIED % 'loaded-carried', 'loaded-carried' + ' _' * 11))
public('carry', 'table.carry', 'Brought', 'Answer', OLDS, 'Board')
told('exported.foil_carry', 'carry', 'Answer', *SAY['Answer'], ['&mut Board', '&mut [Entry]'], OLDS)


def formatted(files):
    """The files as `rt fmt` leaves them."""
    with tempfile.TemporaryDirectory() as copy:
        shutil.copy('crates.txt', copy)
        for path, text in files.items():
            os.makedirs(os.path.dirname(os.path.join(copy, path)), exist_ok=True)
            with open(os.path.join(copy, path), 'w') as file:
                file.write(text)
        subprocess.run(['rt', 'fmt'], cwd=copy, check=True, stdout=subprocess.DEVNULL)
        return {path: open(os.path.join(copy, path)).read() for path in files}


if __name__ == '__main__':
    stale = []
    for path, text in formatted(WRITTEN).items():
        if not os.path.exists(path) or open(path).read() != text:
            stale.append(path)
            if '--check' not in sys.argv[1:]:
                os.makedirs(os.path.dirname(path), exist_ok=True)
                with open(path, 'w') as file:
                    file.write(text)
    print('\n'.join(stale), end='\n' if stale else '')
    sys.exit(1 if stale and '--check' in sys.argv[1:] else 0)
