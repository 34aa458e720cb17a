#!/usr/bin/env python3
"""Runs a counting loop of 12 instructions a turn, over and over: the machine of one body beside a plain interpreter in C, a switch over the same
instructions, built with -O2."""

import os
import subprocess
import tempfile

import common

TURNS = 60
RUNS = 40000

OURS = '''
use chord_base::event::Limits;
use chord_code::code::Code;
use chord_code::instruction::Instruction;
use chord_code::lines::Lines;
use chord_code::parts::{Block, Parts};
use chord_code::valid::valid;
use chord_task::task::Task;
use chord_vm::ask::Ask;
use std::alloc::{AllocError, Global};

ghost use Rattle.std.specs.Prelude.{◌≡◌, [], ◌∷◌, pos, IfOk};
ghost use Rattle.chord_code.specs.declared.instruction.Instruction.TheVariants as instr;

/// The code of a `Main` that counts.
fn counting(alloc: Global) -> Result<Code, AllocError>
    ensures { IfOk result (λ code. code ≡ record { classes = []; blocks = record { slots = 2; instructions = instr.Int (pos 0) ∷ instr.Store 1 ∷ instr.Load 1 ∷ instr.Int (pos 1) ∷ instr.Add ∷ instr.Store 1 ∷ instr.Load 1 ∷ instr.Int (pos 1) ∷ instr.Sub ∷ instr.Drop ∷ instr.Load 1 ∷ instr.Int (pos TURNS) ∷ instr.Lt ∷ instr.Again 2 ∷ instr.End ∷ [] } ∷ [] }) }
{
    let instructions = vec![in alloc;
        Instruction::Int(0),
        Instruction::Store(1),
        Instruction::Load(1),
        Instruction::Int(1),
        Instruction::Add,
        Instruction::Store(1),
        Instruction::Load(1),
        Instruction::Int(1),
        Instruction::Sub,
        Instruction::Drop,
        Instruction::Load(1),
        Instruction::Int(TURNS),
        Instruction::Lt,
        Instruction::Again(2),
        Instruction::End,
    ]?;
    let blocks = vec![in alloc;
        Block {
            slots: 2,
            instructions: Lines::of_items(instructions),
        },
    ]?;
    let parts = Parts {
        classes: Lines::of_items(Vec::new(alloc)),
        blocks: Lines::of_items(blocks),
    };
    if valid(&parts) {
        Ok(Code::of_parts(parts))
    } else {
        Err(AllocError)
    }
}

/// Whether the body ends.
fn ends(ask: Ask) -> bool {
    match ask {
        Ask::End(_) => true,
        _ => false,
    }
}

/// The limits of the body.
fn limits() -> Limits
    ensures { result ≡ record { events = 9; turns = 1000; depth = 9 } }
{
    Limits {
        events: 9,
        turns: 1000,
        depth: 9,
    }
}

/// Whether one body ends that counts.
fn once(alloc: Global, code: &Code) -> Result<bool, AllocError>
    requires { code.now ≡ record { classes = []; blocks = record { slots = 2; instructions = instr.Int (pos 0) ∷ instr.Store 1 ∷ instr.Load 1 ∷ instr.Int (pos 1) ∷ instr.Add ∷ instr.Store 1 ∷ instr.Load 1 ∷ instr.Int (pos 1) ∷ instr.Sub ∷ instr.Drop ∷ instr.Load 1 ∷ instr.Int (pos TURNS) ∷ instr.Lt ∷ instr.Again 2 ∷ instr.End ∷ [] } ∷ [] } }
{
    let limits = limits();
    let mut list = Vec::new(alloc);
    let mut task = Task::main(alloc, code, &limits, &mut list)?;
    if task.is_ready() {
        let ask = task.ask(alloc, code, &limits)?;
        Ok(ends(ask))
    } else {
        Ok(false)
    }
}

/// How many bodies end.
fn spin(alloc: Global, code: &Code) -> Result<u64, AllocError>
    requires { code.now ≡ record { classes = []; blocks = record { slots = 2; instructions = instr.Int (pos 0) ∷ instr.Store 1 ∷ instr.Load 1 ∷ instr.Int (pos 1) ∷ instr.Add ∷ instr.Store 1 ∷ instr.Load 1 ∷ instr.Int (pos 1) ∷ instr.Sub ∷ instr.Drop ∷ instr.Load 1 ∷ instr.Int (pos TURNS) ∷ instr.Lt ∷ instr.Again 2 ∷ instr.End ∷ [] } ∷ [] } }
{
    let mut ended = 0u64;
    for _ in 0..RUNSu64 {
        if once(alloc, code)? {
            ended = ended.wrapping_add(1);
        }
    }
    Ok(ended)
}

fn main(rt: HostRuntime) -> io::Result<()> {
    let code = counting(rt.alloc())?;
    let start = rt.thread_cpu_time()?;
    let ended = spin(rt.alloc(), &code)?;
    let ours = micros(&rt, start)?;
    println!(rt; "{ours} {ended}")?;
    Ok(())
}
'''

# The body comes to its end: the definitions run it.
ANSWER = '''use Rattle.std.proofs.Common.{refl}

pub main-requires : goal.main-requires
main-requires c = rw (c.requires, c.limits-limits.ensures) refl
'''

THEIRS = '''
#include <stdio.h>
#include <time.h>

enum Op { INT, STORE, LOAD, ADD, SUB, DROP, LT, AGAIN, END };
struct Instruction { enum Op op; int operand; };

static const struct Instruction code[] = {
    {INT, 0}, {STORE, 1}, {LOAD, 1}, {INT, 1}, {ADD, 0}, {STORE, 1}, {LOAD, 1}, {INT, 1}, {SUB, 0}, {DROP, 0}, {LOAD, 1}, {INT, TURNS}, {LT, 0},
    {AGAIN, 2}, {END, 0},
};

static int run(const struct Instruction *code) {
    int stack[16], slots[2] = {0, 0}, top = 0, place = 0;
    for (;;) {
        struct Instruction next = code[place++];
        switch (next.op) {
        case INT: stack[top++] = next.operand; break;
        case STORE: slots[next.operand] = stack[--top]; break;
        case LOAD: stack[top++] = slots[next.operand]; break;
        case ADD: top--; stack[top - 1] = (int)((unsigned)stack[top - 1] + (unsigned)stack[top]); break;
        case SUB: top--; stack[top - 1] = (int)((unsigned)stack[top - 1] - (unsigned)stack[top]); break;
        case DROP: top--; break;
        case LT: top--; stack[top - 1] = stack[top - 1] < stack[top]; break;
        case AGAIN: if (stack[--top]) place = next.operand; break;
        case END: return slots[1];
        }
    }
}

int main(void) {
    const struct Instruction *volatile held = code;
    unsigned long ended = 0;
    clock_t start = clock();
    for (long i = 0; i < RUNS; i++) ended += run(held) == TURNS;
    printf("%.0f %lu\\n", (double)(clock() - start) * 1e6 / CLOCKS_PER_SEC, ended);
    return 0;
}
'''


def filled(text):
    """The program with its numbers of turns and of runs."""
    return text.replace('TURNS', str(TURNS)).replace('RUNS', str(RUNS))


def in_c():
    """The words that the interpreter in C prints."""
    with tempfile.TemporaryDirectory() as work:
        with open(f'{work}/loop.c', 'w', encoding='utf-8') as file:
            file.write(filled(THEIRS))
        subprocess.run([os.environ.get('CC', 'cc'), '-O2', '-o', f'{work}/loop', f'{work}/loop.c'], check=True)
        return subprocess.run([f'{work}/loop'], stdout=subprocess.PIPE, text=True, check=True).stdout.split()


def main():
    ours = common.rows_of('spin', ['chord_base', 'chord_code', 'chord_vm', 'chord_task'], filled(OURS), [('once', ANSWER)])[0]
    theirs = in_c()
    assert ours[1] == theirs[1] == str(RUNS), (ours, theirs)
    count = RUNS * TURNS * 12
    common.tell('machine', int(ours[0]) * 1e3 / count, int(theirs[0]) * 1e3 / count, 'ns an instruction')


if __name__ == '__main__':
    main()
