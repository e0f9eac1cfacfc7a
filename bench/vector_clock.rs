//! Plain vector clocks over `[u32; 16]`, hand-written, as a measure for the probe: the calls of
//! `bench_calls probe`, in the same order: `vector_clock WORD CALLS`, where the word is observe, stamp or receive.

const PROCS: u32 = 16;

struct Probe {
    id: usize,
    clock: [u32; 16],
    flag: bool,
    pending: bool,
    emitted: u32,
}

struct Stamped {
    to: u32,
    clock: [u32; 16],
}

impl Probe {
    fn new(id: usize) -> Probe {
        Probe { id, clock: [0; 16], flag: false, pending: false, emitted: 0 }
    }

    fn observe(&mut self, holds: bool) -> bool {
        if !holds || self.flag || self.pending {
            return false;
        }
        self.flag = true;
        self.pending = true;
        self.emitted += 1;
        true
    }

    fn stamp(&mut self, to: u32) -> Option<Stamped> {
        if self.pending || to >= PROCS {
            return None;
        }
        self.clock[self.id] = self.clock[self.id].checked_add(1)?;
        self.flag = false;
        Some(Stamped { to, clock: self.clock })
    }

    fn receive(&mut self, message: Stamped) -> bool {
        if self.pending
            || message.to as usize != self.id
            || message.clock[self.id] > self.clock[self.id]
        {
            return false;
        }
        let own = self.clock[self.id] + 1;
        for (mine, theirs) in self.clock.iter_mut().zip(&message.clock) {
            *mine = (*mine).max(*theirs);
        }
        self.clock[self.id] = own;
        self.flag = false;
        true
    }
}

struct Numbers(u32);

impl Numbers {
    fn next(&mut self) -> u32 {
        self.0 = self.0.wrapping_mul(1_664_525).wrapping_add(1_013_904_223);
        self.0 >> 4
    }
}

fn pair(numbers: &mut Numbers) -> (u32, u32) {
    let number = numbers.next() >> 8;
    let process = number % PROCS;
    let other = (process + 1 + number / PROCS % (PROCS - 1)) % PROCS;
    (process, other)
}

fn make_calls(word: &str, calls: u32, probes: &mut [Probe]) {
    let mut numbers = Numbers(1);
    for _ in 0..calls {
        let (process, other) = pair(&mut numbers);
        match word {
            "observe" => {
                probes[process as usize].observe(other < process);
            }
            "stamp" => {
                probes[process as usize].stamp(other);
            }
            "receive" => {
                if let Some(message) = probes[process as usize].stamp(other) {
                    probes[other as usize].receive(message);
                }
            }
            _ => {}
        }
    }
}

fn main() {
    let words: Vec<String> = std::env::args().collect();
    let word = words.get(1).map_or("", |word| word.as_str());
    let calls: u32 = words.get(2).and_then(|calls| calls.parse().ok()).unwrap_or(0);
    let mut probes: Vec<Probe> = (0..16).map(Probe::new).collect();
    make_calls(word, calls, &mut probes);
    let known: u64 = probes.iter().flat_map(|probe| probe.clock).map(u64::from).sum();
    let emitted: u64 = probes.iter().map(|probe| u64::from(probe.emitted)).sum();
    println!("known {known} emitted {emitted}");
}
