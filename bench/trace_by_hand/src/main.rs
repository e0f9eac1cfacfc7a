//! `wcptrace --while HOST=REGEX ..` over the form `shiviz`, by hand: read, parse, match, clocks, and the earliest moment.
use regex::Regex;
use std::collections::{HashMap, VecDeque};
use std::io::{self, BufRead};
use std::process::exit;

type Clock = HashMap<String, u32>;

struct State {
    line: u64,
    text: String,
    own: u32,
    clock: Vec<u32>,
    lasts_to: Option<u32>,
}

struct Watched {
    host: String,
    condition: Regex,
    waiting: VecDeque<State>,
    last: Vec<u32>,
    events: u64,
    matched: u64,
}

fn fault(line: u64, kind: &str) -> ! {
    eprintln!("trace_by_hand: line {line}: {kind}");
    exit(2);
}

/// The clock of the host's event before is in place of the new one where that one is in order.
fn follow(line: u64, host: &str, clock: &Clock, before: &mut HashMap<String, Clock>) {
    if let Some(before) = before.get(host) {
        if clock[host] <= before[host] {
            fault(line, "order");
        }
        if before.iter().any(|(name, number)| clock.get(name).copied().unwrap_or(0) < *number) {
            fault(line, "falls");
        }
    }
    if let Some(place) = before.get_mut(host) {
        place.clone_from(clock);
    } else {
        before.insert(host.to_string(), clock.clone());
    }
}

fn raise(floor: &mut [u32], clock: &[u32]) {
    for (number, other) in floor.iter_mut().zip(clock) {
        *number = (*number).max(*other);
    }
}

/// Drops states that are over until none is. Whether the heads are the earliest moment.
fn settle(watched: &mut [Watched], floor: &mut [u32]) -> bool {
    loop {
        let mut dropped = false;
        for place in 0..watched.len() {
            while let Some(head) = watched[place].waiting.front() {
                if head.lasts_to.map_or(true, |last| floor[place] <= last) {
                    break;
                }
                watched[place].waiting.pop_front();
                dropped = true;
                let clock = watched[place].waiting.front().map_or(&watched[place].last, |next| &next.clock);
                raise(floor, clock);
            }
        }
        if !dropped {
            break;
        }
    }
    watched.iter().enumerate().all(|(place, host)| {
        host.waiting.front().is_some_and(|head| head.lasts_to.is_some() || floor[place] <= head.own)
    })
}

fn print_found(watched: &[Watched]) -> ! {
    println!("found");
    for host in watched {
        let head = &host.waiting[0];
        println!("{} line {} {}", host.host, head.line, head.text);
    }
    exit(0);
}

fn main() {
    let words: Vec<String> = std::env::args().skip(1).collect();
    let mut watched: Vec<Watched> = words
        .chunks(2)
        .map(|pair| {
            let (host, expression) = pair[1].split_once('=').expect("HOST=REGEX");
            Watched {
                host: host.to_string(),
                condition: Regex::new(expression).expect("an expression"),
                waiting: VecDeque::new(),
                last: vec![0; words.len() / 2],
                events: 0,
                matched: 0,
            }
        })
        .collect();
    let names: Vec<String> = watched.iter().map(|host| host.host.clone()).collect();
    let mut floor = vec![0; names.len()];
    let mut before = HashMap::new();
    let mut input = io::stdin().lock();
    let (mut stamp, mut text, mut line) = (String::new(), String::new(), 0);
    loop {
        stamp.clear();
        if input.read_line(&mut stamp).expect("read") == 0 {
            break;
        }
        line += 1;
        let Some((host, clock)) = stamp.trim_end_matches('\n').split_once(' ') else { fault(line, "text") };
        let Ok(clock) = serde_json::from_str::<Clock>(clock) else { fault(line, "clock") };
        if clock.get(host).copied().unwrap_or(0) == 0 {
            fault(line, "own");
        }
        follow(line, host, &clock, &mut before);
        text.clear();
        if input.read_line(&mut text).expect("read") == 0 {
            fault(line, "text");
        }
        line += 1;
        let Some(place) = names.iter().position(|name| name == host) else { continue };
        let text = text.trim_end_matches('\n');
        let numbers: Vec<u32> = names.iter().map(|name| clock.get(name).copied().unwrap_or(0)).collect();
        let own = numbers[place];
        let this = &mut watched[place];
        this.events += 1;
        if let Some(state) = this.waiting.back_mut() {
            state.lasts_to.get_or_insert(own - 1);
        }
        let holds = this.condition.is_match(text);
        if this.waiting.is_empty() {
            raise(&mut floor, &numbers);
        }
        this.last.copy_from_slice(&numbers);
        if holds {
            this.matched += 1;
            this.waiting.push_back(State { line, text: text.to_string(), own, clock: numbers, lasts_to: None });
        }
        if settle(&mut watched, &mut floor) {
            print_found(&watched);
        }
    }
    for host in &mut watched {
        if let Some(state) = host.waiting.back_mut() {
            state.lasts_to.get_or_insert(u32::MAX);
        }
    }
    if settle(&mut watched, &mut floor) {
        print_found(&watched);
    }
    println!("none");
    for host in &watched {
        println!("{} events {} matched {}", host.host, host.events, host.matched);
    }
    exit(1);
}
