"""Whether a crate that forges a stamp, or the answer of a book, is refused, and a wait that asks another book.

Each program stands on the crates of a few lines in a repository of its own. The honest ones run. A forger of a stamp or
an answer is refused for a private item, since only the crate makes one. A body of `wait_for_cut` that asks a book of
its own is refused for the types."""
import pytest
from programs import TOP
from unproved_programs import Programs, answer

STAMPS = """//! Stamps a message.
#![tactic(auto)]

use wcp_clock::Clock;
use wcp_model::{Flag, ProbeSetup};
use wcp_probe::{ProbeCore, ProbeParts, Stamped};

fn main(_rt: HostRuntime) {
    let setup = ProbeSetup { processes: 2, process: 0, watched: true, flag: Flag::Event };
    let mut probe = ProbeCore::new(1, setup, 8);
    let clock = Clock::new(2);
    LINE
}
"""

ANSWERS = """//! Waits for what a book tells.
#![tactic(auto)]

use std::marker::PhantomData;
use wcp_book::{AnyAnswer, Book, CutAnswer, ToldAnswer};

fn main(rt: HostRuntime) {
    let mut book = Book::new(2);
    book.refuse();
    let _ = book.news(rt.alloc());
    LINE
}
"""


WAITING = (TOP / "crates" / "wullaphi" / "src" / "waiting.rt").read_text()

WAIT_BODY = """let news = book.lock(rt).news(alloc)?;
    Ok(B::wait(rt, news))"""

WAITS = f"""//! Waits for what a book tells.
#![tactic(auto)]

{WAITING.replace(WAIT_BODY, "LINE")}
fn main(rt: HostRuntime) {{
    let mut book = Book::new(2);
    book.refuse();
    let _ = wait_for_cut(&rt, rt.alloc(), &Mutex::new(book));
}}
"""

KINDS = [
    Programs(
        STAMPS,
        ("wcp_clock", "wcp_model", "wcp_probe"),
        "let _ = probe.stamp(1, clock);",
        {
            "a stamp of any clock": "let _ = Stamped { watch: 1, from: 1, to: 0, clock, value: () };",
            "a stamp that is told": "let _ = probe.receive_told(1, 0, &clock);",
            "a probe of any clock": """let _ = ProbeCore::from_parts(ProbeParts { watch: 1, id: 0, watched: true,
        flag: Flag::Event, limit: 8, clock, flag_up: false, closed: false, emitted: 0, pending: None });""",
        },
    ),
    Programs(
        ANSWERS,
        ("wcp_clock", "wcp_model", "wcp_book"),
        "let _ = book.answer();",
        {
            "an answer of one's own": "let _ = ToldAnswer { told: CutAnswer::NotRun, of: PhantomData::<AnyAnswer> };",
            "an answer that no book told": "let _ = ToldAnswer::<AnyAnswer>::of(CutAnswer::NotRun);",
        },
    ),
    Programs(
        WAITS,
        ("wcp_clock", "wcp_model", "wcp_book"),
        WAIT_BODY,
        {
            "the news of another book": """let news = Mutex::new(Book::new(2)).lock(rt).news(alloc)?;
    Ok(B::wait(rt, news))""",
            "the answer of another book": """let mut another = Book::new(2);
    another.refuse();
    Ok(another.news(alloc)?.wait(rt))""",
        },
        "error[mismatched-types]",
    ),
]

FORGERS = [(programs, line, what) for programs in KINDS for what, line in programs.forgers.items()]


@pytest.mark.parametrize("programs", KINDS, ids=["stamps", "answers", "waits"])
def test_the_honest_program_runs(programs: Programs) -> None:
    assert "run=ended status=0" in answer(programs, programs.honest)


@pytest.mark.parametrize("programs, line", [it[:2] for it in FORGERS], ids=[what for _, _, what in FORGERS])
def test_a_forger_is_refused(programs: Programs, line: str) -> None:
    assert programs.refusal in answer(programs, line)
