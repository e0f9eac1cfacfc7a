//! The outcome of a workload by threads, hand-written, as a measure for `run`: a thread plays each process, one runs
//! each relay and one the checker, over bounded channels of the same capacities. Reads the text from standard input, runs
//! it as often as the first word says (or once), and prints what the last run came to, as `report_text` prints it; the
//! best and the median time of a run go to standard error.
use crossbeam_channel::{Receiver, Sender, TryRecvError, bounded};
use std::collections::VecDeque;
use std::fmt::Write;
use std::io::Read;
use std::thread::{self, Thread};
use std::time::{Duration, Instant};

type Clock = [u32; 16];

#[derive(Clone, Copy)]
enum Action {
    Observe(bool),
    Send(usize),
    Recv(usize),
}

#[derive(Clone, Copy)]
enum Note {
    Snap(Clock),
    Close(usize),
}

type Item = (usize, Note);

struct Workload {
    cap: usize,
    hold: usize,
    /// The parent of each relay, if it isn't the root.
    parents: Vec<Option<usize>>,
    /// The relay of each process.
    attach: Vec<usize>,
    /// What each process does.
    actions: Vec<Vec<Action>>,
}

struct Outcome {
    cut: Option<Vec<u32>>,
    taken: Vec<usize>,
}

fn number(word: &[u8]) -> Option<usize> {
    let valid = !word.is_empty() && word.len() <= 4 && (word.len() == 1 || word[0] != b'0');
    if !valid {
        return None;
    }
    word.iter().try_fold(0, |value, byte| byte.is_ascii_digit().then(|| value * 10 + usize::from(byte - b'0')))
}

fn parse(text: &[u8]) -> Option<Workload> {
    let mut lines = text.strip_suffix(b"\n")?.split(|byte| *byte == b'\n');
    if lines.next()? != b"wcp 1" {
        return None;
    }
    let n = number(lines.next()?.strip_prefix(b"procs ")?).filter(|n| (1..=16).contains(n))?;
    let mut workload =
        Workload { cap: 8, hold: 4, parents: vec![], attach: vec![0; n], actions: vec![vec![]; n] };
    for line in lines {
        let words: Vec<&[u8]> = line.split(|byte| *byte == b' ').collect();
        match words[..] {
            [b"cap", cap] => workload.cap = number(cap)?,
            [b"hold", hold] => workload.hold = number(hold)?,
            [b"relay", _, b"root"] => workload.parents.push(None),
            [b"relay", _, parent] => workload.parents.push(Some(number(parent)?)),
            [b"attach", p, relay] => *workload.attach.get_mut(number(p)?)? = number(relay)?,
            [b"p", p, b"true"] => workload.actions.get_mut(number(p)?)?.push(Action::Observe(true)),
            [b"p", p, b"false"] => workload.actions.get_mut(number(p)?)?.push(Action::Observe(false)),
            [b"p", p, b"send", q] => {
                let q = number(q).filter(|q| *q < n)?;
                workload.actions.get_mut(number(p)?)?.push(Action::Send(q));
            }
            [b"p", p, b"recv", q] => {
                let q = number(q).filter(|q| *q < n)?;
                workload.actions.get_mut(number(p)?)?.push(Action::Recv(q));
            }
            _ => return None,
        }
    }
    if workload.parents.is_empty() {
        workload.parents.push(None);
    }
    Some(workload)
}

/// A process: its clock and flag, the link to its relay, and the channels to and from its partners.
struct Process {
    p: usize,
    clock: Clock,
    flag: bool,
    emitted: usize,
    link: Sender<Note>,
    relay: Thread,
    outboxes: Vec<Option<Sender<Clock>>>,
    inboxes: Vec<Option<Receiver<Clock>>>,
}

impl Process {
    fn put(&self, note: Note) {
        self.link.send(note).unwrap();
        self.relay.unpark();
    }

    fn observe(&mut self, holds: bool) {
        if holds && !self.flag {
            self.flag = true;
            self.emitted += 1;
            self.put(Note::Snap(self.clock));
        }
    }

    fn send(&mut self, to: usize) {
        self.clock[self.p] += 1;
        self.flag = false;
        self.outboxes[to].as_ref().unwrap().send(self.clock).unwrap();
    }

    fn receive(&mut self, from: usize) {
        let stamp = self.inboxes[from].as_ref().unwrap().recv().unwrap();
        let own_events = self.clock[self.p] + 1;
        for (mine, theirs) in self.clock.iter_mut().zip(&stamp) {
            *mine = (*mine).max(*theirs);
        }
        self.clock[self.p] = own_events;
        self.flag = false;
    }

    /// Does all that the process does, closes, and takes what nobody received.
    fn run(mut self, actions: &[Action]) {
        for action in actions {
            match *action {
                Action::Observe(holds) => self.observe(holds),
                Action::Send(to) => self.send(to),
                Action::Recv(from) => self.receive(from),
            }
        }
        self.put(Note::Close(self.emitted));
        self.outboxes.clear();
        for inbox in self.inboxes.iter().flatten() {
            while inbox.recv().is_ok() {}
        }
    }
}

/// What a relay holds, and where it goes.
struct Outlet {
    hold: VecDeque<Item>,
    room: usize,
    parent: Sender<Item>,
}

impl Outlet {
    fn accept(&mut self, item: Item) {
        if self.hold.len() == self.room {
            self.pass_on();
        }
        self.hold.push_back(item);
    }

    fn pass_on(&mut self) {
        for item in self.hold.drain(..) {
            self.parent.send(item).unwrap();
        }
    }
}

/// Passes on what the processes of a leaf put, and sleeps while nothing is there.
fn run_leaf(mut links: Vec<(usize, Receiver<Note>)>, mut outlet: Outlet) {
    while !links.is_empty() {
        let mut any = false;
        links.retain(|(p, link)| match link.try_recv() {
            Ok(note) => {
                outlet.accept((*p, note));
                any = true;
                matches!(note, Note::Snap(_))
            }
            Err(TryRecvError::Empty) => true,
            Err(TryRecvError::Disconnected) => false,
        });
        if !any && !outlet.hold.is_empty() {
            outlet.pass_on();
        } else if !any {
            thread::park();
        }
    }
    outlet.pass_on();
}

/// Passes on what the relays below put.
fn run_inner(inbox: Receiver<Item>, mut outlet: Outlet) {
    loop {
        if let Ok(item) = inbox.try_recv() {
            outlet.accept(item);
            continue;
        }
        outlet.pass_on();
        let Ok(item) = inbox.recv() else {
            return;
        };
        outlet.accept(item);
    }
}

/// Keeps the snapshots that no later snapshot of another process has overtaken.
struct Checker {
    queues: Vec<VecDeque<Clock>>,
    taken: Vec<usize>,
    floor: Clock,
}

impl Checker {
    fn new(n: usize) -> Checker {
        Checker { queues: vec![VecDeque::with_capacity(8); n], taken: vec![0; n], floor: [0; 16] }
    }

    fn take(&mut self, p: usize, clock: Clock) {
        self.taken[p] += 1;
        self.queues[p].push_back(clock);
        if self.queues[p].len() == 1 {
            self.settle_heads(p);
        }
    }

    /// A head that precedes another, or one that it stands behind, is dropped; `p` has a new head.
    fn settle_heads(&mut self, p: usize) {
        let mut new = vec![p];
        while let Some(p) = new.pop() {
            let Some(head) = self.queues[p].front().copied() else {
                continue;
            };
            if head[p] < self.floor[p] {
                self.queues[p].pop_front();
                new.push(p);
                continue;
            }
            for q in 0..self.queues.len() {
                if head[q] > self.floor[q] {
                    self.floor[q] = head[q];
                    if q != p && self.queues[q].front().is_some_and(|other| other[q] < head[q]) {
                        self.queues[q].pop_front();
                        new.push(q);
                    }
                }
            }
        }
    }

    fn cut(&self) -> Option<Vec<u32>> {
        self.queues.iter().enumerate().map(|(p, queue)| Some(queue.front()?[p])).collect()
    }
}

fn run_checker(n: usize, inbox: Receiver<Item>) -> Outcome {
    let mut checker = Checker::new(n);
    let mut open = n;
    while open > 0 {
        match inbox.recv().unwrap() {
            (p, Note::Snap(clock)) => checker.take(p, clock),
            (p, Note::Close(count)) => {
                assert_eq!(checker.taken[p], count);
                open -= 1;
            }
        }
    }
    Outcome { cut: checker.cut(), taken: checker.taken }
}

/// The channels of each two processes of which the one sends to the other, by sender and by receiver.
fn message_channels(
    workload: &Workload,
) -> (Vec<Vec<Option<Sender<Clock>>>>, Vec<Vec<Option<Receiver<Clock>>>>) {
    let n = workload.attach.len();
    let mut outboxes: Vec<Vec<_>> = (0..n).map(|_| (0..n).map(|_| None).collect()).collect();
    let mut inboxes: Vec<Vec<_>> = (0..n).map(|_| (0..n).map(|_| None).collect()).collect();
    for (p, actions) in workload.actions.iter().enumerate() {
        for q in 0..n {
            let sends = actions.iter().filter(|action| matches!(action, Action::Send(to) if *to == q)).count();
            if sends > 0 {
                let (outbox, inbox) = bounded(sends);
                outboxes[p][q] = Some(outbox);
                inboxes[q][p] = Some(inbox);
            }
        }
    }
    (outboxes, inboxes)
}

fn run(workload: &Workload) -> Outcome {
    let n = workload.attach.len();
    let (outboxes, inboxes) = message_channels(workload);
    let (root, checker_inbox) = bounded(workload.cap);
    let mut lanes = Vec::new();
    let mut relay_inboxes = Vec::new();
    for _ in &workload.parents {
        let (lane, inbox) = bounded(workload.cap);
        lanes.push(lane);
        relay_inboxes.push(Some(inbox));
    }
    let (links, mut feeds): (Vec<_>, Vec<_>) =
        (0..n).map(|_| bounded(workload.cap)).map(|(link, feed)| (link, Some(feed))).unzip();
    thread::scope(|scope| {
        let checking = scope.spawn(move || run_checker(n, checker_inbox));
        let mut relays = Vec::new();
        for (number, parent) in workload.parents.iter().enumerate() {
            let outlet = Outlet {
                hold: VecDeque::with_capacity(workload.hold),
                room: workload.hold,
                parent: parent.map_or_else(|| root.clone(), |parent| lanes[parent].clone()),
            };
            let served: Vec<_> = (0..n).filter(|p| workload.attach[*p] == number).collect();
            let inbox = relay_inboxes[number].take().unwrap();
            let relay = if served.is_empty() {
                scope.spawn(move || run_inner(inbox, outlet))
            } else {
                let links = served.into_iter().map(|p| (p, feeds[p].take().unwrap())).collect();
                scope.spawn(move || run_leaf(links, outlet))
            };
            relays.push(relay.thread().clone());
        }
        drop(lanes);
        drop(root);
        let ends = links.into_iter().zip(outboxes).zip(inboxes).enumerate();
        for (p, ((link, outboxes), inboxes)) in ends {
            let relay = relays[workload.attach[p]].clone();
            let process = Process { p, clock: [0; 16], flag: false, emitted: 0, link, relay, outboxes, inboxes };
            let actions = &workload.actions[p];
            scope.spawn(move || process.run(actions));
        }
        checking.join().unwrap()
    })
}

fn print(outcome: &Outcome) {
    let mut answer = String::new();
    match &outcome.cut {
        Some(cut) => {
            answer.push_str("found");
            for interval in cut {
                write!(answer, " {interval}").unwrap();
            }
            answer.push('\n');
        }
        None => answer.push_str("none\n"),
    }
    for (p, taken) in outcome.taken.iter().enumerate() {
        writeln!(answer, "process {p} emitted {taken} taken {taken}").unwrap();
    }
    let total: usize = outcome.taken.iter().sum();
    writeln!(answer, "total emitted {total} taken {total}").unwrap();
    print!("{answer}");
}

fn main() {
    let count: usize = std::env::args().nth(1).map_or(1, |word| word.parse().unwrap());
    let mut text = Vec::new();
    if std::io::stdin().read_to_end(&mut text).is_err() {
        std::process::exit(2);
    }
    let Some(workload) = parse(&text) else {
        std::process::exit(2);
    };
    let mut times: Vec<Duration> = Vec::with_capacity(count);
    let mut last = None;
    for _ in 0..count {
        let start = Instant::now();
        last = Some(run(&workload));
        times.push(start.elapsed());
    }
    times.sort();
    if let Some(outcome) = last {
        print(&outcome);
        eprintln!("best {} us median {} us", times[0].as_micros(), times[count / 2].as_micros());
    }
}
