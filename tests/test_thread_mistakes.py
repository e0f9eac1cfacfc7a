"""What is said of mistakes in programs that watch threads of their own.

One program makes those that compile, each in a watch of its own, and prints what the watch and its processes tell. Of
the others the compiler says where and why. Whole lines are compared."""
import pytest
from unproved_programs import Programs, answer, with_those_below

# Each of the two programs is built once, for all tests that look at what it tells.
of_told = pytest.mark.xdist_group("told")
of_refused = pytest.mark.xdist_group("refused")

BELOW = with_those_below("wullaphi")
KIT = ("crossbeam_channel", "anyhow")

PROGRAM = """//! Watches processes that make mistakes.
#![tactic(auto)]

use anyhow::{Result, anyhow};
use crossbeam_channel::{Receiver, Sender, unbounded};
use std::sync::{Mutex, Wait};
use std::thread::Threads;
use wullaphi::{Book, LentProbe, Loan, Plan, Process, Stamped, Watched, plain_plan, watch_processes};

/// What a process does. It has a letter in its hand, or none.
#[derive(Clone, Copy)]
enum Step {
    Observe(bool),
    /// It is true for a moment, under the lock that all share.
    BeTrueLocked,
    StampFor(u32),
    Post,
    Lose,
    TakeLetter,
    Receive,
    /// It takes two letters, and receives the second one first.
    ReceiveTurned,
    Fail,
    DropProbe,
}

#[derive(Drop)]
struct Actor {
    steps: Vec<Step>,
    post: Sender<Stamped<u32>>,
    letters: Receiver<Stamped<u32>>,
}

impl Process for Actor {
    type Shared = Mutex<u32>;

    type Answer = Result<()>;

    fn run<L: Loan, R: Wait>(self, rt: &R, probe: &mut LentProbe<L>, shared: &Mutex<u32>) -> Result<()> {
        let Actor { steps, post, letters } = self;
        let mut hand = None;
        for step in steps {
            match step {
                Step::Observe(holds) => probe.observe(rt, holds),
                Step::BeTrueLocked => {
                    let _guard = shared.lock(rt);
                    probe.observe(rt, true);
                    probe.observe(rt, false);
                }
                Step::StampFor(to) => hand = Some(probe.stamp(to, 7).map_err(|(refusal, _)| refusal)?),
                Step::Post => {
                    if let Some(letter) = hand.take() {
                        post.send(rt, letter).map_err(|_| anyhow!("no receiver"))?;
                    }
                }
                Step::Lose => hand = None,
                Step::TakeLetter => hand = Some(letters.recv(rt)?),
                Step::Receive => {
                    if let Some(letter) = hand.take() {
                        probe.receive(letter).map_err(|(refusal, _)| refusal)?;
                    }
                }
                Step::ReceiveTurned => {
                    let first = letters.recv(rt)?;
                    let second = letters.recv(rt)?;
                    probe.receive(second).map_err(|(refusal, _)| refusal)?;
                    probe.receive(first).map_err(|(refusal, _)| refusal)?;
                }
                Step::Fail => return Err(anyhow!("the disk is full")),
                Step::DropProbe => {
                    drop(probe);
                    return Ok(());
                }
            }
        }
        Ok(())
    }
}

/// Watches processes of these steps, and prints what is told.
fn watch<R: Threads + Wait + Sync + Print + AllocGlobal>(
    rt: &R,
    mistake: &str,
    plan: &Plan,
    all: &[&[Step]],
) -> Result<()> {
    let (post, letters) = unbounded(rt.alloc())?;
    let mut actors = Vec::new(rt.alloc());
    for steps in all {
        actors.push(Actor {
            steps: Vec::from_slice(rt.alloc(), steps)?,
            post: post.clone()?,
            letters: letters.clone()?,
        })?;
    }
    drop(post);
    drop(letters);
    println!(rt; "= {mistake}")?;
    let shared = Mutex::new(0);
    let book = Mutex::new(Book::new(1));
    match watch_processes(rt, rt.alloc(), plan, 1, actors, &shared, &book) {
        Err(fault) => println!(rt; "{fault}")?,
        Ok(watched) => {
            let mut report = String::new(rt.alloc());
            watched.push_report(&mut report)?;
            rt.print(report.as_str())?;
            for answer in watched.answers {
                if let Err(error) = answer {
                    println!(rt; "{error}")?;
                }
            }
        }
    }
    Ok(())
}

/// Watches two processes, by a plan without a fault.
fn two<R: Threads + Wait + Sync + Print + AllocGlobal>(
    rt: &R,
    mistake: &str,
    first: &[Step],
    second: &[Step],
) -> Result<()> {
    watch(rt, mistake, &plain_plan(rt.alloc(), 2, 8, 4)?, &[first, second])
}

/// Watches two processes that do nothing, by a plan that watches these.
fn watching<R: Threads + Wait + Sync + Print + AllocGlobal>(
    rt: &R,
    mistake: &str,
    watched: Watched,
) -> Result<()> {
    let mut plan = plain_plan(rt.alloc(), 2, 8, 4)?;
    plan.watched = watched;
    let steps: &[Step] = &[Step::Observe(true)];
    watch(rt, mistake, &plan, &[steps, steps])
}

/// Watches two processes that do nothing, by a plan of so many, of links and relays with such room.
fn planned<R: Threads + Wait + Sync + Print + AllocGlobal>(
    rt: &R,
    mistake: &str,
    n: u32,
    cap: u32,
    hold: u32,
) -> Result<()> {
    let steps: &[Step] = &[];
    watch(rt, mistake, &plain_plan(rt.alloc(), n, cap, hold)?, &[steps, steps])
}

fn main(rt: HostRuntime) -> Result<()> {
    use Step::{BeTrueLocked, DropProbe, Fail, Lose, Observe, Post, Receive, ReceiveTurned, StampFor, TakeLetter};
    let sent: &[Step] = &[Observe(true), StampFor(1), Post];
    let received: &[Step] = &[TakeLetter, Receive, Observe(true)];
    two(&rt, "it doesn't observe that it is false", sent, received)?;
    two(&rt, "it doesn't receive the stamp", sent, &[TakeLetter, Observe(true)])?;
    two(&rt, "only a lock orders them", &[BeTrueLocked], &[BeTrueLocked])?;
    two(&rt, "it stamps too early", &[StampFor(1), Observe(true), Post], received)?;
    two(&rt, "a stamped message is lost", &[Observe(true), StampFor(1), Post, StampFor(1), Lose], received)?;
    let both: &[Step] = &[StampFor(1), Post, Observe(true), StampFor(1), Post];
    two(&rt, "two messages are received in the other order", both, &[ReceiveTurned, Observe(true)])?;
    two(&rt, "it never observes", &[], &[Observe(true)])?;
    watching(&rt, "a pair of one process", Watched::pair(0, 0))?;
    watching(&rt, "a process is named twice", Watched::these(&[0, 1, 1]))?;
    watching(&rt, "no process is named", Watched::these(&[]))?;
    watching(&rt, "a process that there isn't", Watched::pair(0, 9))?;
    planned(&rt, "no room in the links", 2, 0, 4)?;
    planned(&rt, "too much room in the relays", 2, 8, 65)?;
    planned(&rt, "too many processes", 17, 8, 4)?;
    planned(&rt, "one process more than planned", 1, 8, 4)?;
    planned(&rt, "one process fewer than planned", 3, 8, 4)?;
    two(&rt, "a stamp for itself", &[StampFor(0)], &[Observe(true)])?;
    two(&rt, "a stamp for a process that there isn't", &[StampFor(9)], &[Observe(true)])?;
    let plan = plain_plan(rt.alloc(), 3, 8, 4)?;
    let for_another: &[Step] = &[StampFor(2), Post];
    watch(&rt, "another takes the stamp", &plan, &[for_another, &[TakeLetter, Receive], &[Observe(true)]])?;
    two(&rt, "a process fails", &[Fail], &[Observe(true)])?;
    two(&rt, "it drops its probe", &[Observe(true), DropProbe], &[Observe(true)])
}
"""

REFUSED = """//! Makes the mistakes that the compiler refuses.
#![tactic(auto)]

use anyhow::Result;
use crossbeam_channel::Receiver;
use std::sync::Wait;
use wullaphi::{LentProbe, Loan, Process, Stamped};

#[derive(Drop)]
struct Reader {
    letters: Receiver<Stamped<u32>>,
}

impl Process for Reader {
    type Shared = ();

    type Answer = Result<()>;

    fn run<L: Loan, R: Wait>(self, rt: &R, probe: &mut LentProbe<L>, _shared: &()) -> Result<()> {
        let letter = self.letters.recv(rt)?;
        probe.receive(letter)?;
        probe.close(rt);
        panic!("the disk is full")
    }
}

fn main(_rt: HostRuntime) {}
"""

BOTH_WERE_TRUE = "process 0 emitted 1 taken 1\nprocess 1 emitted 1 taken 1\ntotal emitted 2 taken 2"
ONE_WAS_TRUE = "process 0 emitted 0 taken 0\nprocess 1 emitted 1 taken 1\ntotal emitted 1 taken 1"
NEVER_OBSERVED = "warning: process 0 never observed its condition"
NEVER_RECEIVED = "warning: messages of process 0: 1 stamped, 0 received"

TOLD = {
    "it doesn't observe that it is false": f"none\n{BOTH_WERE_TRUE}",
    "it doesn't receive the stamp": f"found 0 0\n{BOTH_WERE_TRUE}\n{NEVER_RECEIVED}",
    "only a lock orders them": f"found 0 0\n{BOTH_WERE_TRUE}",
    "it stamps too early": f"found 1 1\n{BOTH_WERE_TRUE}",
    "a stamped message is lost": f"none\n{BOTH_WERE_TRUE}\nwarning: messages of process 0: 2 stamped, 1 received",
    "two messages are received in the other order": f"none\n{BOTH_WERE_TRUE}",
    "it never observes": f"none\n{ONE_WAS_TRUE}\n{NEVER_OBSERVED}",
    "a pair of one process": "plan: no process is watched",
    "a process is named twice": f"found 0 0\n{BOTH_WERE_TRUE}",
    "no process is named": "plan: no process is watched",
    "a process that there isn't": "plan: process 9 is watched, and n is 2",
    "no room in the links": "plan: cap 0 is not in 1 to 1,024",
    "too much room in the relays": "plan: hold 65 is not in 1 to 64",
    "too many processes": "plan: n 17 is not in 1 to 16",
    "one process more than planned": "not as many processes as the plan says",
    "one process fewer than planned": "not as many processes as the plan says",
    "a stamp for itself": f"none\n{ONE_WAS_TRUE}\n{NEVER_OBSERVED}\nthe receiver is no other process of the watch",
    "a stamp for a process that there isn't": f"none\n{ONE_WAS_TRUE}\n{NEVER_OBSERVED}\n"
                                              "the receiver is no other process of the watch",
    "another takes the stamp": "none\nprocess 0 emitted 0 taken 0\nprocess 1 emitted 0 taken 0\n"
                               "process 2 emitted 1 taken 1\ntotal emitted 1 taken 1\n"
                               f"{NEVER_OBSERVED}\n{NEVER_RECEIVED}\n"
                               "warning: process 1 never observed its condition\n"
                               "the stamp is addressed to another process",
    "a process fails": f"none\n{ONE_WAS_TRUE}\n{NEVER_OBSERVED}\nthe disk is full",
    "it drops its probe": f"found 0 0\n{BOTH_WERE_TRUE}",
}

COMPILER = {
    "it hands a refusal on with its message": (
        "probe.receive(letter)?",
        "[unsatisfied-bound]: the trait bound `(Refusal, Stamped<u32>): Error` is not satisfied"),
    "it closes its probe": (
        "probe.close(rt)",
        "[private-item]: method `close` is private: help: declare it with `pub` in its `impl` block"),
    "it panics": (
        "panic!(",
        '[compile-error]: write `panic!(rt; "..")`: `panic!` takes a handle that has `Abort`, a `;` and a message; a '
        "test gets one as `fn name(rt: HostRuntime)`"),
}


def told_by(output: str) -> dict[str, str]:
    """What the program printed of each mistake."""
    told: dict[str, list[str]] = {}
    lines: list[str] = []
    for line in output.partition("\nchecked: ")[0].splitlines():
        if line.startswith("= "):
            lines = told.setdefault(line[2:], [])
        elif told:
            lines.append(line)
    return {mistake: "\n".join(lines) for mistake, lines in told.items()}


def said_by_the_compiler(words: str, refusal: str) -> str:
    """The line of the compiler that refuses the line with these words."""
    lines = REFUSED.splitlines()
    [number] = [number for number, line in enumerate(lines, 1) if words in line]
    return f"src/main.rt:{number}:{lines[number - 1].index(words) + 1}: error{refusal}"


@pytest.fixture(scope="module")
def told() -> dict[str, str]:
    return told_by(answer(Programs(PROGRAM, BELOW, "", {}, kit=KIT), ""))


@pytest.fixture(scope="module")
def refused() -> list[str]:
    said = answer(Programs(REFUSED, BELOW, "", {}, kit=KIT), "")
    return [line for line in said.splitlines() if ": error[" in line]


@of_told
@pytest.mark.parametrize("mistake", TOLD)
def test_is_told(told: dict[str, str], mistake: str) -> None:
    assert told.get(mistake) == TOLD[mistake]


@of_told
def test_no_other_mistake_is_told(told: dict[str, str]) -> None:
    assert set(told) == set(TOLD)


@of_refused
@pytest.mark.parametrize("mistake", COMPILER)
def test_the_compiler_says(refused: list[str], mistake: str) -> None:
    assert said_by_the_compiler(*COMPILER[mistake]) in refused


@of_refused
def test_the_compiler_says_no_more(refused: list[str]) -> None:
    assert sorted(refused) == sorted(said_by_the_compiler(*it) for it in COMPILER.values())
