#!/usr/bin/env python3
"""Makes shared tables and steps on them: `make` at 65,536 events beside the writing of as many words and slots in C, and draw, link and arm beside the bare
atomic operations that they make. A run makes one table, in memory that its process did not touch before: so each table of both sides is in memory fresh from
the system, and its drop is not counted. A step is timed by rounds that make a small table and go up to that step, less rounds that go up to the one before."""

import os
import subprocess
import tempfile

import common

ROUNDS = 200000
TABLES = 40
BARE_STEPS = 50000000
# What the bare steps of i = 0, 1, .. read: a draw gives i, and an exchange what was put there 16 steps before.
READ = (BARE_STEPS * (BARE_STEPS - 1) + (BARE_STEPS - 16) * (BARE_STEPS - 17)) // 2

CODE = ('record { classes = record { name = 65 ∷ []; builder = None; methods = record { name = 120 ∷ []; sync = false; parameters = 0 } ∷ []; chords = [] } ∷ []; '
        'blocks = record { slots = 1; instructions = instr.New 0 0 ∷ instr.Send 0 0 ∷ instr.End ∷ [] } ∷ [] }')
SENT = ('(begun ≡ 0) × (begun < made) × (made < message) × (message < 16) × (view desk.old ≡ saw_count (drew (saw_count (drew (saw_count (drew newcomer_first begun 0 Begun) '
        '(begun + 1)) made 0 (Made 0)) (made + 1)) message 0 (Sent (record { number = made; class = 0 }) 0 [])) (message + 1))')

OURS = '''
use chord_base::event::{Limits, What};
use chord_base::text::Text;
use chord_base::value::{Object, Values};
use chord_code::carry::Carry;
use chord_code::code::Code;
use chord_code::instruction::Instruction;
use chord_code::lines::Lines;
use chord_code::parts::{Block, ClassLine, MethodLine, Parts};
use chord_code::valid::valid;
use chord_space::{Desk, Space};
use std::alloc::{AllocError, Global};

ghost use Rattle.std.specs.Prelude.{◌≡◌, ◌≤◌, ◌<◌, ◌+◌, true, false, [], ◌∷◌, None, Some, IfOk, OnOk};
ghost use Rattle.chord_code.specs.declared.instruction.Instruction.TheVariants as instr;
ghost use Rattle.chord_base.specs.declared.event.What.TheVariants.{Begun, Made, Sent};
ghost use Rattle.chord_rule.specs.Kinds.{newcomer_first, drew, saw_count};
ghost use Rattle.chord_space.specs.Desks.{view, space_code, space_limits, IsDeskOf, IsSameDesk};

/// A parcel that keeps no entry.
#[derive(Drop)]
struct Letter {
    number: u32,
}

impl Carry for Letter {
    ghost entries = { λ _. [] };

    ghost arguments = { λ _. [] };

    ghost keeps_to = { λ _ _ _. Unit {0} };
}

/// The code of a `Main` that makes an object and sends it a message that no chord takes.
fn sending(alloc: Global) -> Result<Code, AllocError>
    ensures { IfOk result (λ code. code ≡ CODE) }
{
    let Ok(class) = Text::of_bytes(alloc, b"A") else { return Err(AllocError) };
    let Ok(method) = Text::of_bytes(alloc, b"x") else { return Err(AllocError) };
    let methods = vec![in alloc; MethodLine { name: method, sync: false, parameters: 0 }]?;
    let classes = vec![in alloc; ClassLine { name: class, builder: None, methods: Lines::of_items(methods), chords: Lines::of_items(Vec::new(alloc)) }]?;
    let instructions = vec![in alloc; Instruction::New(0, 0), Instruction::Send(0, 0), Instruction::End]?;
    let blocks = vec![in alloc; Block { slots: 1, instructions: Lines::of_items(instructions) }]?;
    let parts = Parts { classes: Lines::of_items(classes), blocks: Lines::of_items(blocks) };
    if valid(&parts) {
        Ok(Code::of_parts(parts))
    } else {
        Err(AllocError)
    }
}

/// A table for that code.
fn table(alloc: Global, code: &Code, events: u32) -> Result<(Space<Letter>, Desk<Letter>), AllocError>
    requires { (code.now ≡ CODE) × (0 < events) × (events ≤ 65536) }
    ensures { IfOk result (λ r. (space_code r.0 ≡ CODE) × (space_limits r.0 ≡ record { events = events; turns = 9; depth = 9 }) × (r.0.events ≡ events) × IsDeskOf r.0 r.1 × (view r.1 ≡ newcomer_first)) }
{
    let limits = Limits { events, turns: 9, depth: 9 };
    Space::make(alloc, code, &limits)
}

/// `Main` makes an object and sends it a message: the numbers of the three entries.
fn sent(alloc: Global, space: &Space<Letter>, desk: &mut Desk<Letter>) -> Result<(u32, u32, u32), AllocError>
    requires code { (space_code space.now ≡ CODE) × (space_limits space.now ≡ record { events = 16; turns = 9; depth = 9 }) }
    requires desk { IsDeskOf space.now desk.old × (view desk.old ≡ newcomer_first) }
    ensures desk { IsSameDesk desk.old desk.new }
    ensures sent { IfOk result (λ r. (r.0 ≡ 0) × (r.0 < r.1) × (r.1 < r.2) × (r.2 < space.now.events) × (view desk.new ≡ saw_count (drew (saw_count (drew (saw_count (drew newcomer_first r.0 0 Begun) (r.0 + 1)) r.1 0 (Made 0)) (r.1 + 1)) r.2 0 (Sent (record { number = r.1; class = 0 }) 0 [])) (r.2 + 1))) }
{
    let Ok(begun) = space.draw(desk, 0, &What::Begun) else { return Err(AllocError) };
    let Ok(made) = space.draw(desk, 0, &What::Made(0)) else { return Err(AllocError) };
    let object = Object { number: made, class: 0 };
    let what = What::Sent(object, 0, Values::of_items(Vec::new(alloc)));
    let Ok(message) = space.draw(desk, 0, &what) else { return Err(AllocError) };
    Ok((begun, made, message))
}

/// The message is linked in its bag.
fn linked(space: &Space<Letter>, desk: &mut Desk<Letter>, begun: u32, made: u32, message: u32)
    requires code { (space_code space.now ≡ CODE) × (space_limits space.now ≡ record { events = 16; turns = 9; depth = 9 }) × (space.now.events ≡ 16) }
    requires desk { IsDeskOf space.now desk.old }
    requires sent { SENT }
    ensures desk { IsSameDesk desk.old desk.new × ((view desk.new).flight ≡ Some message) }
{
    let object = Object { number: made, class: 0 };
    space.link(desk, message, object, 0, Letter { number: 7 });
}

/// One round: a table of 16 events, with three draws, a link and an arm as far as these steps go.
fn once(alloc: Global, code: &Code, steps: u8) -> Result<u32, AllocError>
    requires { code.now ≡ CODE }
{
    let (space, mut desk) = table(alloc, code, 16)?;
    if steps == 0 {
        return Ok(0);
    }
    let (begun, made, message) = sent(alloc, &space, &mut desk)?;
    if steps == 1 {
        return Ok(message);
    }
    linked(&space, &mut desk, begun, made, message);
    if steps == 2 {
        return Ok(message);
    }
    space.arm(&mut desk, message);
    Ok(message)
}

/// The rounds of one kind, and the sum of their messages.
fn rounds(alloc: Global, code: &Code, steps: u8) -> Result<u64, AllocError>
    requires { code.now ≡ CODE }
{
    let mut all = 0u64;
    for _ in 0..ROUNDSu64 {
        all = all.wrapping_add(once(alloc, code, steps)? as u64);
    }
    Ok(all)
}

/// The microseconds that tables of 65,536 events take to make, without their drops: the memory of each goes back to the system.
fn tables(rt: &HostRuntime, code: &Code) -> io::Result<u64>
    requires { code.now ≡ CODE }
{
    let mut all = 0u64;
    for _ in 0..TABLESu64 {
        let start = rt.thread_cpu_time()?;
        let (space, desk) = table(rt.alloc(), code, 65536)?;
        all = all.wrapping_add(micros(rt, start)?);
        drop(desk);
        drop(space);
    }
    Ok(all)
}

fn main(rt: HostRuntime) -> io::Result<()> {
    let code = sending(rt.alloc())?;
    let making = tables(&rt, &code)?;
    let start = rt.thread_cpu_time()?;
    let none = rounds(rt.alloc(), &code, 0)?;
    let small = micros(&rt, start)?;
    let start = rt.thread_cpu_time()?;
    let draws = rounds(rt.alloc(), &code, 1)?;
    let drawing = micros(&rt, start)?;
    let start = rt.thread_cpu_time()?;
    let links = rounds(rt.alloc(), &code, 2)?;
    let linking = micros(&rt, start)?;
    let start = rt.thread_cpu_time()?;
    let arms = rounds(rt.alloc(), &code, 3)?;
    let arming = micros(&rt, start)?;
    println!(rt; "{making} {small} {drawing} {linking} {arming} {none} {draws} {links} {arms}")?;
    Ok(())
}
'''

SOUND = '''use Rattle.std.proofs.Common.{sym, subst}
use Rattle.chord_code.specs.Sound.{IsSoundCode}
use Rattle.chord_tests.proofs.Sending.{sending_is_sound}

pub make-requires-clause-sound : goal.make-requires-clause-sound
make-requires-clause-sound c = subst IsSoundCode (sym c.requires.0) sending_is_sound
'''

MAY_LINK = '''use Rattle.std.proofs.Common.{◌≡◌, [], sym, ap, subst}
use Rattle.chord_base.specs.declared.event.Limits.{Limits}
use Rattle.chord_code.specs.declared.parts.Parts.{Parts}
use Rattle.chord_code.specs.Meaning.{code_program}
use Rattle.chord_rule.specs.declared.view.View.{View}
use Rattle.chord_space.specs.Desks.{space_limits}
use Rattle.chord_space.specs.Gives.{MayLink}
use Rattle.chord_tests.proofs.Sending.{may_link}

pub link-requires-clause-link : goal.link-requires-clause-link
link-requires-clause-link c = let code = c.requires.code in let sent = c.requires.sent in let limits : Limits = space_limits c.args.space.now in
    subst (λ (y : Parts × View). MayLink (code_program y.0 limits) y.1 c.args.message (record { number = c.args.made; class = 0 }) 0 [] []) (λ i. (sym code.0 i, sym sent.4 i))
        (may_link limits (ap (λ (l : Limits). l.depth) code.1) c.args.begun c.args.made c.args.message sent.0 sent.1 sent.2)
'''

THEIRS = '''
#include <malloc.h>
#include <stdatomic.h>
#include <stdint.h>
#include <stdio.h>
#include <stdlib.h>
#include <time.h>

#define STEPS BARE_STEPSl
#define EVENTS 65536
/* the code's class has one method, so an object has one head */
#define WORDS (1 + 3 * EVENTS)

struct slot { uint32_t tag; uint32_t value; };

static double since(clock_t start) { return (double)(clock() - start) * 1e9 / CLOCKS_PER_SEC; }

/* Writes the words and the slots of one table into fresh memory: the nanoseconds of that. */
static double write_table(uint64_t *sum) {
    clock_t start = clock();
    uint64_t *table = malloc(WORDS * sizeof *table);
    struct slot *slots = malloc(EVENTS * sizeof *slots);
    for (volatile long k = 0, n = 1; k < n; k++)
        for (long j = 0; j < WORDS; j++) table[j] = k;
    for (long j = 0; j < EVENTS; j++) slots[j].tag = *sum;
    double took = since(start);
    *sum += table[*sum % EVENTS] + slots[*sum % EVENTS].tag;
    free(table);
    free(slots);
    return took;
}

int main(void) {
    static _Atomic uint64_t words[64];
    mallopt(M_MMAP_THRESHOLD, 1 << 17);
    uint64_t sum = 0;
    double making = 0;
    for (int i = 0; i < TABLES; i++) making += write_table(&sum) / TABLES;
    clock_t start = clock();
    for (long i = 0; i < STEPS; i++) sum += atomic_fetch_add(&words[0], 1);
    double drawing = since(start) / STEPS;
    start = clock();
    for (long i = 0; i < STEPS; i++) {
        atomic_store(&words[1 + i % 16], i);
        sum += atomic_exchange(&words[17 + i % 16], i);
    }
    double linking = since(start) / STEPS;
    start = clock();
    for (long i = 0; i < STEPS; i++) atomic_store(&words[1 + i % 16], i);
    double arming = since(start) / STEPS;
    printf("%.1f %.2f %.2f %.2f %lu\\n", making, drawing, linking, arming, (unsigned long)sum);
    return 0;
}
'''


def filled(text):
    """The program with its code, what it knows of the draws, and how often it steps."""
    return text.replace('SENT', SENT).replace('CODE', CODE).replace('ROUNDS', str(ROUNDS)).replace('TABLES', str(TABLES)).replace('BARE_STEPS', str(BARE_STEPS))


def in_c():
    """The times that the bare operations print."""
    with tempfile.TemporaryDirectory() as work:
        with open(f'{work}/bare.c', 'w', encoding='utf-8') as file:
            file.write(filled(THEIRS))
        subprocess.run([os.environ.get('CC', 'cc'), '-O2', '-o', f'{work}/bare', f'{work}/bare.c'], check=True)
        *times, read = subprocess.run([f'{work}/bare'], stdout=subprocess.PIPE, text=True, check=True).stdout.split()
        assert int(read) == READ, f'the steps in C read {read}, not {READ}'
        return [float(word) for word in times]


def main():
    answers = [('table', SOUND), ('linked', MAY_LINK)]
    crates = ['chord_base', 'chord_code', 'chord_rule', 'chord_space', 'chord_tests', 'chord_word']
    making, small, drawing, linking, arming, none, draws, links, arms = map(int, common.rows_of('steps', crates, filled(OURS), answers)[0])
    assert (none, draws, links, arms) == (0, 2 * ROUNDS, 2 * ROUNDS, 2 * ROUNDS)
    bare = in_c()
    common.tell('make', making / TABLES / 1e3, bare[0] / 1e6, 'ms', '65,536 events')
    common.tell('draw', (drawing - small) * 1e3 / ROUNDS / 3, bare[1], 'ns')
    common.tell('link', (linking - drawing) * 1e3 / ROUNDS, bare[2], 'ns')
    common.tell('arm', (arming - linking) * 1e3 / ROUNDS, bare[3], 'ns')


if __name__ == '__main__':
    main()
