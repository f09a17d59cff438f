//! The stack that calls take, and the bytes that they are lent.

use std::hint::black_box;

use crate::cases::Case;
use crate::entering::Bench;
use crate::proved::CHANGES;
use crate::rows::grouped;

/// Painted below the caller's stack pointer.
const DEPTH: usize = 512 * 1024;
const MARK: u64 = 0xA5A5_5A5A_C3C3_3C3C;

#[inline(always)]
fn stack_pointer() -> usize {
    let at: usize;
    #[cfg(target_arch = "aarch64")]
    unsafe {
        std::arch::asm!("mov {}, sp", out(reg) at, options(nomem, nostack, preserves_flags));
    }
    #[cfg(target_arch = "x86_64")]
    unsafe {
        std::arch::asm!("mov {}, rsp", out(reg) at, options(nomem, nostack, preserves_flags));
    }
    at
}

/// Bytes below this frame that the call has written to. Runs on a thread
/// whose stack is larger than what is painted.
#[inline(never)]
fn depth(call: &mut dyn FnMut()) -> usize {
    let here = stack_pointer() & !7;
    // nothing below the stack pointer is in use, but for x86-64's 128 bytes
    let (low, high) = (here - DEPTH, here - 128);
    for at in (low..high).step_by(8) {
        unsafe { std::ptr::write_volatile(at as *mut u64, MARK) };
    }
    call();
    let touched = (low..high)
        .step_by(8)
        .find(|&at| unsafe { std::ptr::read_volatile(at as *const u64) } != MARK);
    here - touched.unwrap_or(high)
}

/// A call's name and its stack: public, core, Rust; none where there is none.
pub struct Stack(&'static str, [Option<usize>; 3]);

/// The most over these questions.
fn most<T>(of: impl Iterator<Item = T>, mut call: impl FnMut(T)) -> Option<usize> {
    let mut most = None;
    for item in of {
        let mut item = Some(item);
        let bytes = depth(&mut || {
            if let Some(item) = item.take() {
                call(item);
            }
        });
        most = most.max(Some(bytes));
    }
    most
}

fn stacks_here(case: &Case) -> Vec<Stack> {
    let bench = Bench::new(case, 1);
    let sheet = &bench.sheet;
    let (mut public, mut core, mut walked) = (bench.table(), bench.table(), bench.walked());
    let mut out = [0; 256];
    let mut into = Box::new([0; CHANGES]);
    let n = bench.grown.counts()[0] as u32;
    assert!(core.is_table(sheet), "what the core requires");
    let states = || (0..n).step_by(8);
    let pairs = || (1..n).step_by(8).map(move |k| (k - 1, n - k));
    let mut enter = |name, calls: &[crate::cases::Call]| {
        // the same calls on each side, none of which is refused
        Stack(
            name,
            [
                most(calls.iter(), |call| {
                    black_box(public.enter(sheet, call.parent, &call.row));
                }),
                most(calls.iter(), |call| {
                    black_box(unsafe { core.held_enter(sheet, call.parent, &call.row) });
                }),
                most(calls.iter(), |call| walked.enter_known(call)),
            ],
        )
    };
    let mut stacks = vec![
        enter("entering, cached", &case.cached),
        enter("entering, new state", &case.new),
    ];
    let (table, walked) = (bench.table(), bench.walked());
    stacks.push(Stack(
        "matched list",
        [
            most(states(), |state| {
                black_box(table.matching(sheet, state, &mut out));
            }),
            most(states(), |state| {
                black_box(table.held_matching(state, &mut out));
            }),
            most(states(), |state| {
                let rules = walked.cascade.matching_rules(walked.states[state as usize]);
                black_box(rules.map(|rule| u64::from(rule.order())).sum::<u64>());
            }),
        ],
    ));
    stacks.push(Stack(
        "winner",
        [
            most(states(), |state| {
                black_box(table.winner(sheet, state, 0));
            }),
            most(states(), |state| {
                black_box(unsafe { table.held_winner(sheet, state, 0) });
            }),
            most(states(), |state| {
                black_box(walked.winner(state, 0));
            }),
        ],
    ));
    stacks.push(Stack(
        "changed properties",
        [
            most(pairs(), |(old, new)| {
                black_box(table.changed(sheet, old, new, &mut into));
            }),
            most(pairs(), |(old, new)| {
                black_box(unsafe { table.held_changed(sheet, old, new, &mut into) });
            }),
            most(pairs(), |(old, new)| {
                black_box(walked.changed_sum(old, new));
            }),
        ],
    ));
    stacks.push(Stack(
        "`is_table`",
        [
            most(0..1, |_| {
                black_box(table.is_table(sheet));
            }),
            None,
            None,
        ],
    ));
    stacks
}

/// Of the calls on a table of the largest sheet.
pub fn stacks(case: fn() -> Case) -> Vec<Stack> {
    std::thread::Builder::new()
        .stack_size(16 * 1024 * 1024)
        .spawn(move || stacks_here(&case()))
        .expect("a thread")
        .join()
        .expect("its answer")
}

/// A number that a layout names.
fn constant(layout: &str, name: &str) -> usize {
    let at = layout
        .find(&format!("pub const {name}: "))
        .expect("a constant of the layout");
    let value = layout[at..].split('=').nth(1).expect("its value");
    let value = value.split(';').next().expect("its end");
    value.trim().parse().expect("a number")
}

/// What is lent, and its bytes: in all, or for each.
pub fn lent() -> Vec<(&'static str, String)> {
    let sheet = include_str!("../../crates/sheet/src/layout.rt");
    let table = include_str!("../../crates/table/src/layout.rt");
    let bytes = |words: usize| grouped(4 * words);
    let states = constant(table, "STATE_WORDS");
    vec![
        ("a sheet, whatever it holds", bytes(constant(sheet, "SHEET_WORDS"))),
        ("a table's head", bytes(8)),
        (
            "a state (at most 512)",
            format!("{} ({} in all)", bytes(states), bytes(512 * states)),
        ),
        ("a cursor of a state", bytes(1)),
        ("a matched number of a state", bytes(1)),
        ("a cached transition", bytes(constant(table, "TRANSITION_WORDS"))),
        ("changes, at the most", grouped(2 * CHANGES)),
    ]
}

fn cell(bytes: Option<usize>) -> String {
    bytes.map_or("".into(), grouped)
}

pub fn print(stacks: &[Stack]) {
    println!("\nstack of a call on table F, bytes: public, core, Rust");
    for Stack(name, [public, core, rust]) in stacks {
        println!("  {name:22} {:>8} {:>8} {:>8}", cell(*public), cell(*core), cell(*rust));
    }
    let deepest = |of: usize| cell(stacks.iter().filter_map(|stack| stack.1[of]).max());
    println!(
        "  {:22} {:>8} {:>8} {:>8}",
        "the deepest",
        deepest(0),
        deepest(1),
        deepest(2)
    );
    println!("\nlent, bytes");
    for (name, bytes) in lent() {
        println!("  {name:30} {bytes}");
    }
}

pub fn markdown(stacks: &[Stack]) -> String {
    let mut out = String::from("| call | public | core | Rust |\n|---|---|---|---|\n");
    for Stack(name, bytes) in stacks {
        let [public, core, rust] = bytes.map(cell);
        out += &format!("| {name} | {public} | {core} | {rust} |\n");
    }
    out
}

pub fn lent_markdown() -> String {
    let mut out = String::from("| lent | bytes |\n|---|---|\n");
    for (name, bytes) in lent() {
        out += &format!("| {name} | {bytes} |\n");
    }
    out
}
