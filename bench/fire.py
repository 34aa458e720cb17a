#!/usr/bin/env python3
"""Finds and fires a chord of two messages by one desk, beside the bare atomic steps of both in C: nanoseconds, the least of some runs of each side, and instructions as
callgrind counts them. A call is measured by rounds that make a small table, draw, link and arm both messages and go up to that call, less rounds that go up to the one before."""

import os
import subprocess
import tempfile

import common

ROUNDS = 200000
FIRINGS = 2000000
# What the bare steps of i = 0, 1, .. read: two exchanges that succeed, the draw of i, then i twice and i + 1 twice; what `find` reads is 0.
SUM = sum(5 * i + 4 for i in range(FIRINGS))
COUNTED = 10000
RUNS = 20

OURS = '''
use chord_base::event::{Limits, What};
use chord_base::members::Members;
use chord_base::text::Text;
use chord_base::value::{Object, Values};
use chord_code::carry::Carry;
use chord_code::code::Code;
use chord_code::instruction::Instruction;
use chord_code::lines::Lines;
use chord_code::parts::{Block, ChordLine, ClassLine, MethodLine, MethodNumbers, Parts};
use chord_code::valid::valid;
use chord_match::nexts::Nexts;
use chord_match::{Finding, Firing, find, fire};
use chord_space::{Desk, Space};
use std::alloc::{AllocError, Global};
use std::env;

ghost use Rattle.std.specs.Prelude.{◌≡◌, ◌≤◌, ◌<◌, true, false, [], ◌∷◌, None, IfOk, OnOk};
ghost use Rattle.chord_rule.specs.Kinds.{newcomer_first};
ghost use Rattle.chord_rule.specs.Made.{key};
ghost use Rattle.chord_space.specs.Desks.{view, space_code, program_of, IsDeskOf, IsSameDesk};
ghost use Rattle.chord_tests.specs.Pairs.{main_body, pair_code, IsPairTable, first_object, made_one, sent_x, sent_both, HasInHand, Owes};
ghost use Rattle.chord_match.specs.Seen.{AreSeen};

/// A parcel that keeps no entry.
#[derive(Drop)]
struct Letter {
    number: u32,
}

impl Carry for Letter {
    ghost entries = { λ _. [] };

    ghost arguments = { λ _. [] };

    ghost keeps_to = { λ _ _ _. Unit {0} };
}

const OBJECT: Object = Object { number: 1, class: 0 };

/// What `Main` does: it makes an object, and sends it both messages.
fn instructions(alloc: Global) -> Result<Vec<Instruction>, AllocError>
    ensures { IfOk result (λ is. is.items ≡ main_body false) }
{
    Ok(vec![in alloc; Instruction::New(0, 0), Instruction::Store(1), Instruction::Load(1), Instruction::Send(0, 0), Instruction::Load(1), Instruction::Send(1, 0), Instruction::End]?)
}

fn named(alloc: Global, name: &[u8]) -> Result<Text, AllocError>
    ensures { IfOk result (λ text. text ≡ name.now) }
{
    match Text::of_bytes(alloc, name) {
        Ok(text) => Ok(text),
        Err(_) => Err(AllocError),
    }
}

/// The class with the chord.
fn paired(alloc: Global) -> Result<ClassLine, AllocError>
    ensures { IfOk result (λ line. line ≡ record { name = 65 ∷ []; builder = None; methods = record { name = 120 ∷ []; sync = false; parameters = 0 } ∷ record { name = 121 ∷ []; sync = false; parameters = 0 } ∷ []; chords = record { block = 1; methods = 0 ∷ 1 ∷ [] } ∷ [] }) }
{
    let methods = vec![in alloc; MethodLine { name: named(alloc, b"x")?, sync: false, parameters: 0 }, MethodLine { name: named(alloc, b"y")?, sync: false, parameters: 0 }]?;
    let mut numbers = MethodNumbers::new();
    numbers.push(0);
    numbers.push(1);
    let chords = vec![in alloc; ChordLine { block: 1, methods: numbers }]?;
    Ok(ClassLine { name: named(alloc, b"A")?, builder: None, methods: Lines::of_items(methods), chords: Lines::of_items(chords) })
}

fn coded(alloc: Global) -> Result<Code, AllocError>
    ensures { IfOk result (λ code. code ≡ pair_code false) }
{
    let main = ClassLine { name: named(alloc, b"Q")?, builder: None, methods: Lines::of_items(Vec::new(alloc)), chords: Lines::of_items(Vec::new(alloc)) };
    let classes = vec![in alloc; paired(alloc)?, main]?;
    let end = vec![in alloc; Instruction::End]?;
    let blocks = vec![in alloc; Block { slots: 2, instructions: Lines::of_items(instructions(alloc)?) }, Block { slots: 1, instructions: Lines::of_items(end) }]?;
    let parts = Parts { classes: Lines::of_items(classes), blocks: Lines::of_items(blocks) };
    if valid(&parts) {
        Ok(Code::of_parts(parts))
    } else {
        Err(AllocError)
    }
}

fn table(alloc: Global, code: &Code) -> Result<(Space<Letter>, Desk<Letter>), AllocError>
    requires { code.now ≡ pair_code false }
    ensures { IfOk result (λ r. IsPairTable false r.0 × (r.0.events ≡ 5) × IsDeskOf r.0 r.1 × (view r.1 ≡ newcomer_first)) }
{
    let limits = Limits { events: 5, turns: 9, depth: 9 };
    Space::make(alloc, code, &limits)
}

/// `Main` makes object 1.
fn begun(space: &Space<Letter>, desk: &mut Desk<Letter>) -> Result<(), AllocError>
    requires table { IsPairTable false space.now }
    requires desk { IsDeskOf space.now desk.old × (view desk.old ≡ newcomer_first) }
    ensures desk { IsSameDesk desk.old desk.new }
    ensures begun { OnOk result (HasInHand (view desk.new) made_one [] None []) }
{
    let Ok(0) = space.draw(desk, 0, &What::Begun) else { return Err(AllocError) };
    let Ok(1) = space.draw(desk, 0, &What::Made(0)) else { return Err(AllocError) };
    Ok(())
}

/// `Main` sends x, which is message 2.
fn send_x(alloc: Global, space: &Space<Letter>, desk: &mut Desk<Letter>) -> Result<(), AllocError>
    requires table { IsPairTable false space.now }
    requires desk { IsDeskOf space.now desk.old × HasInHand (view desk.old) made_one [] None [] }
    ensures desk { IsSameDesk desk.old desk.new }
    ensures sent { OnOk result (HasInHand (view desk.new) sent_x (2 ∷ []) None []) }
{
    let what = What::Sent(OBJECT, 0, Values::of_items(Vec::new(alloc)));
    let Ok(2) = space.draw(desk, 0, &what) else { return Err(AllocError) };
    Ok(())
}

/// x is linked and armed.
fn add_x(space: &Space<Letter>, desk: &mut Desk<Letter>)
    requires table { IsPairTable false space.now × (space.now.events ≡ 5) }
    requires desk { IsDeskOf space.now desk.old × HasInHand (view desk.old) sent_x (2 ∷ []) None [] }
    ensures desk { IsSameDesk desk.old desk.new }
    ensures added { HasInHand (view desk.new) sent_x [] None [] }
{
    space.link(desk, 2, OBJECT, 0, Letter { number: 7 });
    space.arm(desk, 2);
}

/// `Main` sends y, which is message 3.
fn send_y(alloc: Global, space: &Space<Letter>, desk: &mut Desk<Letter>) -> Result<(), AllocError>
    requires table { IsPairTable false space.now }
    requires desk { IsDeskOf space.now desk.old × HasInHand (view desk.old) sent_x [] None [] }
    ensures desk { IsSameDesk desk.old desk.new }
    ensures sent { OnOk result (HasInHand (view desk.new) sent_both (3 ∷ []) None []) }
{
    let what = What::Sent(OBJECT, 1, Values::of_items(Vec::new(alloc)));
    let Ok(3) = space.draw(desk, 0, &what) else { return Err(AllocError) };
    Ok(())
}

/// y is linked and armed.
fn add_y(space: &Space<Letter>, desk: &mut Desk<Letter>)
    requires table { IsPairTable false space.now × (space.now.events ≡ 5) }
    requires desk { IsDeskOf space.now desk.old × HasInHand (view desk.old) sent_both (3 ∷ []) None [] }
    ensures desk { IsSameDesk desk.old desk.new }
    ensures added { HasInHand (view desk.new) sent_both [] None [] × Owes (view desk.new) 3 (key first_object 1) }
{
    space.link(desk, 3, OBJECT, 1, Letter { number: 7 });
    space.arm(desk, 3);
}

/// A chord is fired: the firing's number.
fn fired(space: &Space<Letter>, desk: &mut Desk<Letter>, code: &Code, chord: u16, members: &Members, nexts: &Nexts) -> u32
    requires table { (space.now.events ≡ 5) × (code.now ≡ space_code space.now) }
    requires desk { IsDeskOf space.now desk.old × HasInHand (view desk.old) sent_both [] None [] × AreSeen space.now.events (program_of space.now) (view desk.old) first_object chord members.now nexts.now }
{
    match fire(space, desk, code, OBJECT, chord, members, nexts) {
        Firing::Fired(number, _) => number,
        _ => 0,
    }
}

/// The chord is found for y, and fired where these steps go so far.
fn found(space: &Space<Letter>, desk: &mut Desk<Letter>, code: &Code, steps: usize) -> u32
    requires table { (space.now.events ≡ 5) × (code.now ≡ space_code space.now) }
    requires desk { IsDeskOf space.now desk.old × HasInHand (view desk.old) sent_both [] None [] × Owes (view desk.old) 3 (key first_object 1) }
{
    let mut members = Members::new();
    let mut nexts = Nexts::new();
    match find(space, desk, code, 3, OBJECT, 1, &mut members, &mut nexts) {
        Finding::Match(chord) => {
            if steps == 1 {
                return 2;
            }
            fired(space, desk, code, chord, &members, &nexts)
        }
        _ => 0,
    }
}

/// `Main` sends both messages, and then `find` and `fire` go as far as these steps.
fn played(alloc: Global, space: &Space<Letter>, desk: &mut Desk<Letter>, code: &Code, steps: usize) -> Result<u32, AllocError>
    requires table { IsPairTable false space.now × (space.now.events ≡ 5) × (code.now ≡ space_code space.now) }
    requires desk { IsDeskOf space.now desk.old × (view desk.old ≡ newcomer_first) }
{
    begun(space, desk)?;
    send_x(alloc, space, desk)?;
    add_x(space, desk);
    send_y(alloc, space, desk)?;
    add_y(space, desk);
    if steps == 0 {
        return Ok(1);
    }
    Ok(found(space, desk, code, steps))
}

/// One round, over a table of its own.
fn once(alloc: Global, code: &Code, steps: usize) -> Result<u32, AllocError>
    requires { code.now ≡ pair_code false }
{
    let (space, mut desk) = table(alloc, code)?;
    played(alloc, &space, &mut desk, code, steps)
}

fn rounds(alloc: Global, code: &Code, steps: usize, count: u64) -> Result<u64, AllocError>
    requires { code.now ≡ pair_code false }
{
    let mut all = 0u64;
    for _ in 0..count {
        all = all.wrapping_add(once(alloc, code, steps)? as u64);
    }
    Ok(all)
}

/// How many words are on the command line.
fn words(rt: &HostRuntime) -> io::Result<usize> {
    let words: Vec<String> = env::args(rt)?.skip(1).collect(rt.alloc())?;
    Ok(words.len())
}

/// The time of rounds up to these steps, and what they gave.
fn timed(rt: &HostRuntime, code: &Code, steps: usize) -> io::Result<(u64, u64)>
    requires { code.now ≡ pair_code false }
{
    let start = rt.thread_cpu_time()?;
    let all = rounds(rt.alloc(), code, steps, ROUNDSu64)?;
    Ok((micros(rt, start)?, all))
}

// With so many words on the command line, rounds of that kind alone; with none the times of each kind.
fn main(rt: HostRuntime) -> io::Result<()> {
    let code = coded(rt.alloc())?;
    let steps = words(&rt)?;
    if steps > 0 {
        let all = rounds(rt.alloc(), &code, steps - 1, COUNTEDu64)?;
        println!(rt; "{all}")?;
        return Ok(());
    }
    let (making, none) = timed(&rt, &code, 0)?;
    let (finding, finds) = timed(&rt, &code, 1)?;
    let (firing, fires) = timed(&rt, &code, 2)?;
    println!(rt; "{making} {finding} {firing} {none} {finds} {fires}")?;
    Ok(())
}
'''

THEIRS = '''
#include <stdatomic.h>
#include <stdint.h>
#include <stdio.h>
#include <stdlib.h>
#include <time.h>

static _Atomic uint64_t words[256];

int main(int count, char **given) {
    uint64_t sum = 0;
    long firings = atol(given[1]);
    clock_t start = clock();
    for (long i = 0; i < firings; i++) {
        long own = 1 + i % 64, other = 65 + i % 64, head = 129 + i % 64;
        /* find: the own cell, the head of the other bag, the other cell */
        sum += atomic_load(&words[own]) + atomic_load(&words[head]) + atomic_load(&words[other]);
    }
    double finding = (double)(clock() - start) * 1e9 / CLOCKS_PER_SEC / firings;
    start = clock();
    for (long i = 0; i < firings * (count - 2); i++) {
        long own = 1 + i % 64, other = 65 + i % 64;
        /* fire: two claims, the draw, and of each member its next, its end and its slot */
        uint64_t own_word = atomic_load_explicit(&words[own], memory_order_relaxed), other_word = atomic_load_explicit(&words[other], memory_order_relaxed);
        sum += atomic_compare_exchange_strong(&words[own], &own_word, i) + atomic_compare_exchange_strong(&words[other], &other_word, i);
        sum += atomic_fetch_add(&words[0], 1);
        sum += atomic_load(&words[own]);
        atomic_store(&words[own], i + 1);
        sum += atomic_load(&words[0]);
        sum += atomic_load(&words[other]);
        atomic_store(&words[other], i + 1);
        sum += atomic_load(&words[0]);
    }
    printf("%.2f %.2f %lu\\n", finding, (double)(clock() - start) * 1e9 / CLOCKS_PER_SEC / firings, (unsigned long)sum);
    return 0;
}
'''

ASKS = '''use Rattle.std.proofs.Common.{false, inl, ◌∙◌}
use Rattle.chord_space.specs.Desks.{view, space_code, space_limits}
use Rattle.chord_tests.specs.Pairs.{first_object, KEPT}
use Rattle.chord_tests.proofs.ByHand.{ASKS, may_send}

pub draw-requires-clause-next : goal.draw-requires-clause-next
draw-requires-clause-next c = let s = c.args.space.now in inl (tt, may_send false s.events (space_code s) (space_limits s) KEPT (view c.args.desk.now).kept first_object METHOD c.of_items.result c.requires.table.0 c.requires.table.1 c.requires.desk.1.kept (c.of_items.ensures ∙ c.new.ensures.items) (ASKS s.events))
'''

ADDS = '''use Rattle.std.proofs.Common.{false, [], ◌∷◌, Some, refl}
use Rattle.chord_base.specs.Meaning.{Program}
use Rattle.chord_rule.specs.declared.view.View.{View}
use Rattle.chord_rule.specs.Bags.{head_number}
use Rattle.chord_rule.specs.Made.{key}
use Rattle.chord_rule.specs.Tells.{a_word}
use Rattle.chord_space.specs.Desks.{view, space_code, space_limits}
use Rattle.chord_space.specs.Gives.{MayLink}
use Rattle.chord_word.specs.declared.cells.Cell.TheVariants.{Pending}
use Rattle.chord_tests.specs.Pairs.{first_object, KEPT}
use Rattle.chord_tests.proofs.ByHand.{of_table, MAY, holds_linked, holds_armed}

pub link-requires-clause-link : goal.link-requires-clause-link
link-requires-clause-link c = let s = c.args.space.now in let v : View = view c.args.desk.now in of_table (λ (p : Program). MayLink p v NUMBER first_object METHOD [] []) false s.events (space_code s) (space_limits s) c.requires.table.0.0 c.requires.table.0.1 (MAY s.events v c.requires.desk.1)

pub returns-clause-added : goal.returns-clause-added
returns-clause-added c =
    let v : View = view c.args.desk.now in let u : View = view c.link.new.desk in
    let linked = holds_linked v u KEPT (NUMBER ∷ []) NUMBER (key first_object METHOD) c.link.ensures.linked.0 (head_number (key first_object METHOD)) refl c.requires.desk.1 c.link.ensures.linked.1 in
    TAKES (holds_armed u (view c.arm.new.desk) KEPT [] NUMBER (key first_object METHOD) (Some NUMBER) (a_word Pending u.above) linked.0 linked.1 c.arm.ensures.armed)
'''

SOUND = '''use Rattle.std.proofs.Common.{false, sym, subst}
use Rattle.chord_code.specs.Sound.{IsSoundCode}
use Rattle.chord_tests.proofs.Pairs.{pair_is_sound}

pub make-requires-clause-sound : goal.make-requires-clause-sound
make-requires-clause-sound c = subst IsSoundCode (sym c.requires) (pair_is_sound false)
'''

FOUND = '''use Rattle.std.proofs.Common.{[], None, ◌∙◌}
use Rattle.chord_space.specs.Desks.{view, program_of}
use Rattle.chord_tests.specs.Pairs.{first_object, sent_both}
use Rattle.chord_tests.proofs.ByHand.{same_by_find}

pub fired-requires-clause-desk : goal.fired-requires-clause-desk
fired-requires-clause-desk c = (c.find.ensures.desk.0 ∙ c.requires.desk.0, same_by_find (program_of c.args.space.now) c.args.space.now.events (view c.args.desk.now) (view c.find.new.desk) 3 first_object 1 c.find.new.members c.find.new.nexts c.find.result c.find.ensures.finding sent_both [] None [] c.requires.desk.1, c.in-Match.ensures.finding.seen)
'''


def asks(kept, law, method):
    return ASKS.replace('KEPT', kept).replace('ASKS', law).replace('METHOD', method)


def adds(kept, law, number, method, takes):
    return ADDS.replace('KEPT', kept).replace('MAY', law).replace('NUMBER', number).replace('METHOD', method).replace('TAKES (', takes)


ANSWERS = [
    ('table', SOUND),
    ('send_x', asks('made_one', 'asks_x', '0')),
    ('add_x', adds('sent_x', 'may_add_x', '2', '0', '(').rstrip('\n') + '.0\n'),
    ('send_y', asks('sent_x', 'asks_y', '1')),
    ('add_y', adds('sent_both', 'may_add_y', '3', '1', '(')),
    ('found', FOUND),
]
CRATES = ['chord_base', 'chord_code', 'chord_match', 'chord_rule', 'chord_space', 'chord_tests', 'chord_word']


def counted(command, words):
    """The instructions of one round of each kind, less those of the kind before."""
    counts = [common.instructions([*command, *words[:number + 1]], b'') for number in range(len(words))]
    return [(more - less) / COUNTED for less, more in zip(counts, counts[1:])]


def least(command, count, wanted):
    """The least of each of the first numbers that a command prints, over some runs: other work of the machine adds to a time, and takes nothing from it. Behind
    them each run prints the words that are wanted."""
    rows = []
    for _ in range(RUNS):
        words = subprocess.run(command, stdout=subprocess.PIPE, text=True, check=True).stdout.split()
        assert words[count:] == wanted, f'{command} printed {words}, not {wanted} at the end'
        rows.append([float(word) for word in words[:count]])
    return [min(column) for column in zip(*rows)]


def main():
    with tempfile.TemporaryDirectory() as work, common.built('fire', CRATES, OURS.replace('ROUNDS', str(ROUNDS)).replace('COUNTED', str(COUNTED)), ANSWERS) as (rows, program):
        gave = [str(ROUNDS), str(2 * ROUNDS), str(4 * ROUNDS)]
        assert rows[0][3:] == gave, f'the rounds gave {rows[0]}'
        making, finding, firing = least([program], 3, gave)
        with open(f'{work}/bare.c', 'w', encoding='utf-8') as file:
            file.write(THEIRS)
        bare = f'{work}/bare'
        subprocess.run([os.environ.get('CC', 'cc'), '-O2', '-o', bare, f'{work}/bare.c'], check=True)
        find, fire = least([bare, str(FIRINGS), 'fire'], 2, [str(SUM)])
        common.tell('find', (finding - making) * 1e3 / ROUNDS, find, 'ns')
        common.tell('fire', (firing - finding) * 1e3 / ROUNDS, fire, 'ns')
        common.tell('both', (firing - making) * 1e3 / ROUNDS, find + fire, 'ns')
        ours = counted([program], ['make', 'find', 'fire'])
        nothing = common.instructions([bare, '0'], b'')
        few = common.instructions([bare, str(COUNTED)], b'')
        theirs = [(few - nothing) / COUNTED, (common.instructions([bare, str(COUNTED), 'fire'], b'') - few) / COUNTED]
        for name, mine, other in zip(['find', 'fire'], ours, theirs):
            common.tell(name, mine, other, 'instructions')


if __name__ == '__main__':
    main()
