//! The outcome of a workload with the plain head, hand-written, as a measure for `wcpwatch single`: reads the text from
//! standard input, and prints the least consistent cut or `none`, with the tallies.
use std::collections::VecDeque;
use std::fmt::Write;
use std::io::Read;

#[derive(Clone, Copy)]
enum Action {
    Observe(bool),
    Send(usize),
    Recv(usize),
}

struct Probe {
    clock: [u32; 16],
    flag: bool,
    snapshots: Vec<[u32; 16]>,
}

fn number(word: &[u8]) -> Option<usize> {
    if word.is_empty() || word.len() > 2 || (word.len() == 2 && word[0] == b'0') {
        return None;
    }
    word.iter().try_fold(0, |value, byte| byte.is_ascii_digit().then(|| value * 10 + usize::from(byte - b'0')))
}

fn parse(text: &[u8]) -> Option<(usize, Vec<(usize, Action)>)> {
    let mut lines = text.strip_suffix(b"\n")?.split(|byte| *byte == b'\n');
    if lines.next()? != b"wcp 1" {
        return None;
    }
    let n = number(lines.next()?.strip_prefix(b"procs ")?).filter(|n| (1..=16).contains(n))?;
    let mut tasks = Vec::new();
    for line in lines {
        let mut words = line.strip_prefix(b"p ")?.split(|byte| *byte == b' ');
        let p = number(words.next()?)?;
        let action = match words.next()? {
            b"true" => Action::Observe(true),
            b"false" => Action::Observe(false),
            b"send" => Action::Send(number(words.next()?)?),
            b"recv" => Action::Recv(number(words.next()?)?),
            _ => return None,
        };
        let partner_within = match action {
            Action::Observe(_) => true,
            Action::Send(q) | Action::Recv(q) => q < n && q != p,
        };
        if p >= n || !partner_within || words.next().is_some() {
            return None;
        }
        tasks.push((p, action));
    }
    Some((n, tasks))
}

/// The tasks in a fit order: as they are listed, or else as far as each process can go, in turn. Nothing where they are stuck.
fn in_order(n: usize, tasks: Vec<(usize, Action)>) -> Option<Vec<(usize, Action)>> {
    let mut counts = vec![0; n * n];
    if tasks.iter().all(|(p, action)| counted(&mut counts, n, *p, *action)) {
        return Some(tasks);
    }
    counts.fill(0);
    let mut own: Vec<VecDeque<Action>> = vec![VecDeque::new(); n];
    for (p, action) in &tasks {
        own[*p].push_back(*action);
    }
    let mut order = Vec::with_capacity(tasks.len());
    while order.len() < tasks.len() {
        let before = order.len();
        for p in 0..n {
            while let Some(action) = own[p].front().copied() {
                if !counted(&mut counts, n, p, action) {
                    break;
                }
                order.push((p, action));
                own[p].pop_front();
            }
        }
        if order.len() == before {
            return None;
        }
    }
    Some(order)
}

/// Counts the messages in transit after an action, if it can be done.
fn counted(counts: &mut [usize], n: usize, p: usize, action: Action) -> bool {
    match action {
        Action::Observe(_) => {}
        Action::Send(to) => counts[p * n + to] += 1,
        Action::Recv(from) if counts[from * n + p] == 0 => return false,
        Action::Recv(from) => counts[from * n + p] -= 1,
    }
    true
}

/// The snapshots of each process, where all tasks are done in this order.
fn run(n: usize, order: &[(usize, Action)]) -> Option<Vec<Vec<[u32; 16]>>> {
    let mut probes: Vec<Probe> =
        (0..n).map(|_| Probe { clock: [0; 16], flag: false, snapshots: Vec::new() }).collect();
    let mut channels: Vec<VecDeque<[u32; 16]>> = vec![VecDeque::new(); n * n];
    for (p, action) in order {
        let probe = &mut probes[*p];
        match action {
            Action::Observe(holds) => {
                if *holds && !probe.flag {
                    probe.flag = true;
                    probe.snapshots.push(probe.clock);
                }
            }
            Action::Send(to) => {
                probe.clock[*p] += 1;
                probe.flag = false;
                channels[p * n + to].push_back(probe.clock);
            }
            Action::Recv(from) => {
                let stamp = channels[from * n + p].pop_front()?;
                let own_events = probe.clock[*p] + 1;
                for (mine, theirs) in probe.clock.iter_mut().zip(&stamp) {
                    *mine = (*mine).max(*theirs);
                }
                probe.clock[*p] = own_events;
                probe.flag = false;
            }
        }
    }
    Some(probes.into_iter().map(|probe| probe.snapshots).collect())
}

/// The places of the least snapshots of which none precedes another.
fn eliminate(rows: &[Vec<[u32; 16]>]) -> Option<Vec<usize>> {
    let mut heads = vec![0; rows.len()];
    'again: loop {
        for p in 0..rows.len() {
            let one = rows[p].get(heads[p])?;
            for q in 0..rows.len() {
                if p != q && one[p] < rows[q].get(heads[q])?[p] {
                    heads[p] += 1;
                    continue 'again;
                }
            }
        }
        return Some(heads);
    }
}

fn main() {
    let mut text = Vec::new();
    if std::io::stdin().read_to_end(&mut text).is_err() {
        std::process::exit(2);
    }
    let Some(rows) = parse(&text).and_then(|(n, tasks)| run(n, &in_order(n, tasks)?)) else {
        std::process::exit(2);
    };
    let mut answer = String::new();
    match eliminate(&rows) {
        Some(heads) => {
            answer.push_str("found");
            for (p, head) in heads.iter().enumerate() {
                write!(answer, " {}", rows[p][*head][p]).unwrap();
            }
            answer.push('\n');
        }
        None => answer.push_str("none\n"),
    }
    for (p, row) in rows.iter().enumerate() {
        writeln!(answer, "process {p} emitted {} taken {}", row.len(), row.len()).unwrap();
    }
    let total: usize = rows.iter().map(Vec::len).sum();
    writeln!(answer, "total emitted {total} taken {total}").unwrap();
    print!("{answer}");
}
