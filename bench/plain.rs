// The same work as reversal_cli does, as one would write it in plain Rust with the standard library alone. It is what
// the times in docs/PERFORMANCE.md are compared with, and it makes the inputs for them.
//   plain schedule N SLOTS          writes the text of the Revolve schedule for N steps over one level RAM
//   plain journal ITEMS BYTES       writes recorded input of so many items of so many bytes
//   plain check SCHEDULE N SLOTS    reads a schedule and judges it, and writes how many actions it has
//   plain read FILE                 reads a file, and writes how many bytes it has
//   plain steps FILE N              takes N steps of a program of raw words, and writes where it stands
//   plain costs N SLOTS SLOTS      fills the tables of least costs for two levels, the second of which costs 2 to write and 1 to read
//   plain hash TIMES BYTES          takes the SHA-256 of so many bytes so many times, and writes the last one's first number
use std::env;
use std::fs;
use std::io::{self, BufWriter, Write};
use std::process::ExitCode;

// ---- the Revolve schedule

fn beta(slots: u64, times: i64) -> u64 {
    if times < 0 {
        return 0;
    }
    let mut value: u128 = 1;
    for i in 1..=times as u128 {
        value = (value * (slots as u128 + i) / i).min(1 << 60);
    }
    value as u64
}

fn split(steps: u64, slots: u64) -> u64 {
    // With one slot only the last step is split off.
    if slots == 1 {
        return steps - 1;
    }
    // beta(slots, times), from the one before
    let (mut times, mut value) = (0, 1);
    while value < steps {
        times += 1;
        value = value * (slots + times) / times;
    }
    let after = beta(slots - 1, times as i64);
    1.max(beta(slots, times as i64 - 2)).max(steps.saturating_sub(after))
}

struct Stretch {
    start: u64,
    steps: u64,
    slots: u64,
    held: bool,
}

fn schedule(out: &mut impl Write, steps: u64, slots: u64) -> io::Result<()> {
    if steps == 0 {
        return writeln!(out, "EndForward()\nEndReverse()");
    }
    let mut stack = vec![Stretch { start: 0, steps, slots: slots.min(steps), held: false }];
    let mut first = true;
    while let Some(Stretch { start, steps, slots, held }) = stack.pop() {
        if steps == 1 {
            if held {
                writeln!(out, "Move({start}, RAM, WORK)")?;
            }
            writeln!(out, "Forward({start}, {}, False, True, WORK)", start + 1)?;
            if first {
                writeln!(out, "EndForward()")?;
                first = false;
            }
            writeln!(out, "Reverse({}, {start}, True)", start + 1)?;
            continue;
        }
        let ahead = split(steps, slots);
        if held {
            writeln!(out, "Copy({start}, RAM, WORK)")?;
            writeln!(out, "Forward({start}, {}, False, False, NONE)", start + ahead)?;
        } else {
            writeln!(out, "Forward({start}, {}, True, False, RAM)", start + ahead)?;
        }
        stack.push(Stretch { start, steps: ahead, slots, held: true });
        stack.push(Stretch { start: start + ahead, steps: steps - ahead, slots: slots - 1, held: false });
    }
    writeln!(out, "EndReverse()")
}

// ---- recorded input

fn journal(out: &mut impl Write, items: u32, bytes: u32) -> io::Result<()> {
    out.write_all(b"RVJL\x01\0\0\0")?;
    out.write_all(&items.to_le_bytes())?;
    let item: Vec<u8> = (0..bytes).map(|i| i as u8).collect();
    for _ in 0..items {
        out.write_all(&bytes.to_le_bytes())?;
        out.write_all(&item)?;
    }
    Ok(())
}

// ---- reading and judging a schedule

#[derive(Clone, Copy)]
enum Keep {
    Nothing,
    Ram,
    Tape,
}

#[derive(Clone, Copy)]
enum Action {
    Forward(u32, u32, Keep),
    Reverse(u32, u32),
    Copy(u32),
    Move(u32),
    EndForward,
    EndReverse,
}

fn number(word: &str) -> Option<u32> {
    word.trim().parse().ok()
}

fn action(line: &str) -> Option<Action> {
    let (name, rest) = line.split_once('(')?;
    let mut words = rest.strip_suffix(')')?.split(',').map(str::trim);
    Some(match name {
        "Forward" => {
            let from = number(words.next()?)?;
            let to = number(words.next()?)?;
            let keep = match (words.next()?, words.next()?, words.next()?) {
                ("False", "False", "NONE") => Keep::Nothing,
                ("True", "False", "RAM") => Keep::Ram,
                ("False", "True", "WORK") => Keep::Tape,
                _ => return None,
            };
            Action::Forward(from, to, keep)
        }
        "Reverse" => Action::Reverse(number(words.next()?)?, number(words.next()?)?),
        "Copy" => Action::Copy(number(words.next()?)?),
        "Move" => Action::Move(number(words.next()?)?),
        "EndForward" => Action::EndForward,
        "EndReverse" => Action::EndReverse,
        _ => return None,
    })
}

fn read_list(text: &str) -> Option<Vec<Action>> {
    text.lines().filter(|line| !line.trim().is_empty()).map(|line| action(line.trim())).collect()
}

struct Judge {
    work: u32,
    reverse: u32,
    held: Vec<bool>,
    count: u32,
    slots: u32,
    steps: u32,
    taped: bool,
    forward_ended: bool,
    ended: bool,
}

impl Judge {
    fn holds(&self, n: u32) -> bool {
        self.held.get(n as usize) == Some(&true)
    }

    fn take(&mut self, action: Action) -> bool {
        if self.ended {
            return false;
        }
        match action {
            Action::Forward(from, to, keep) => {
                if from != self.work || from >= to || to > self.steps || to > self.reverse {
                    return false;
                }
                match keep {
                    Keep::Nothing => {}
                    Keep::Ram => {
                        if self.count >= self.slots || self.holds(from) {
                            return false;
                        }
                        self.held[from as usize] = true;
                        self.count += 1;
                    }
                    Keep::Tape => {
                        if self.taped || to != from + 1 || to != self.reverse {
                            return false;
                        }
                        self.taped = true;
                    }
                }
                self.work = to;
            }
            Action::Reverse(from, to) => {
                if !self.taped || !self.forward_ended || from != self.reverse || to + 1 != from {
                    return false;
                }
                self.taped = false;
                self.reverse = to;
            }
            Action::Copy(n) | Action::Move(n) => {
                if !self.holds(n) {
                    return false;
                }
                if let Action::Move(_) = action {
                    self.held[n as usize] = false;
                    self.count -= 1;
                }
                self.work = n;
            }
            Action::EndForward => {
                if self.forward_ended || self.work != self.steps {
                    return false;
                }
                self.forward_ended = true;
            }
            Action::EndReverse => {
                if !self.forward_ended || self.reverse != 0 {
                    return false;
                }
                self.ended = true;
            }
        }
        true
    }
}

fn check(path: &str, steps: u32, slots: u32) -> Option<usize> {
    let text = fs::read_to_string(path).ok()?;
    let list = read_list(&text)?;
    let mut judge = Judge {
        work: 0,
        reverse: steps,
        held: vec![false; steps as usize + 1],
        count: 0,
        slots,
        steps,
        taped: false,
        forward_ended: false,
        ended: false,
    };
    let valid = list.iter().all(|action| judge.take(*action)) && judge.ended;
    valid.then_some(list.len())
}

// ---- steps of a machine: the few instructions that the loop of bench/run has

fn steps(path: &str, count: u64) -> Option<(u32, u32)> {
    let code = fs::read(path).ok()?;
    let mut memory = vec![0u8; 1 << 20];
    memory[0x10000..0x10000 + code.len()].copy_from_slice(&code);
    let mut x = [0u32; 32];
    let mut pc = 0x10000u32;
    for _ in 0..count {
        let at = pc as usize;
        let word = u32::from_le_bytes(memory.get(at..at + 4)?.try_into().ok()?);
        let (rd, a, b) = ((word >> 7 & 31) as usize, x[(word >> 15 & 31) as usize], x[(word >> 20 & 31) as usize]);
        let mut next = pc.wrapping_add(4);
        match (word & 127, word >> 12 & 7) {
            (0x37, _) => x[rd] = word & 0xffff_f000,
            (0x13, 0) => x[rd] = a.wrapping_add((word as i32 >> 20) as u32),
            (0x33, 0) => x[rd] = a.wrapping_add(b),
            (0x33, 4) => x[rd] = a ^ b,
            (0x03, 2) => {
                let at = a.wrapping_add((word as i32 >> 20) as u32) as usize;
                x[rd] = u32::from_le_bytes(memory.get(at..at + 4)?.try_into().ok()?);
            }
            (0x23, 2) => {
                let at = a.wrapping_add((word as i32 >> 25 << 5) as u32 | word >> 7 & 31) as usize;
                memory.get_mut(at..at + 4)?.copy_from_slice(&b.to_le_bytes());
            }
            (0x6f, _) => {
                let sign = (word as i32 >> 31) as u32;
                let by = sign << 20 | (word >> 12 & 0xff) << 12 | (word >> 20 & 1) << 11 | (word >> 21 & 0x3ff) << 1;
                x[rd] = next;
                next = pc.wrapping_add(by);
            }
            _ => return None,
        }
        x[0] = 0;
        pc = next;
    }
    Some((pc, x[10]))
}

// ---- SHA-256, without the processor's instructions for it

const ROUNDS: [u32; 64] = [
    0x428a2f98, 0x71374491, 0xb5c0fbcf, 0xe9b5dba5, 0x3956c25b, 0x59f111f1, 0x923f82a4, 0xab1c5ed5,
    0xd807aa98, 0x12835b01, 0x243185be, 0x550c7dc3, 0x72be5d74, 0x80deb1fe, 0x9bdc06a7, 0xc19bf174,
    0xe49b69c1, 0xefbe4786, 0x0fc19dc6, 0x240ca1cc, 0x2de92c6f, 0x4a7484aa, 0x5cb0a9dc, 0x76f988da,
    0x983e5152, 0xa831c66d, 0xb00327c8, 0xbf597fc7, 0xc6e00bf3, 0xd5a79147, 0x06ca6351, 0x14292967,
    0x27b70a85, 0x2e1b2138, 0x4d2c6dfc, 0x53380d13, 0x650a7354, 0x766a0abb, 0x81c2c92e, 0x92722c85,
    0xa2bfe8a1, 0xa81a664b, 0xc24b8b70, 0xc76c51a3, 0xd192e819, 0xd6990624, 0xf40e3585, 0x106aa070,
    0x19a4c116, 0x1e376c08, 0x2748774c, 0x34b0bcb5, 0x391c0cb3, 0x4ed8aa4a, 0x5b9cca4f, 0x682e6ff3,
    0x748f82ee, 0x78a5636f, 0x84c87814, 0x8cc70208, 0x90befffa, 0xa4506ceb, 0xbef9a3f7, 0xc67178f2,
];

fn compress(state: &mut [u32; 8], block: &[u8]) {
    let mut w = [0u32; 64];
    for (word, bytes) in w.iter_mut().zip(block.chunks_exact(4)) {
        *word = u32::from_be_bytes(bytes.try_into().unwrap());
    }
    for t in 16..64 {
        let a = w[t - 15].rotate_right(7) ^ w[t - 15].rotate_right(18) ^ w[t - 15] >> 3;
        let b = w[t - 2].rotate_right(17) ^ w[t - 2].rotate_right(19) ^ w[t - 2] >> 10;
        w[t] = w[t - 16].wrapping_add(a).wrapping_add(w[t - 7]).wrapping_add(b);
    }
    let [mut a, mut b, mut c, mut d, mut e, mut f, mut g, mut h] = *state;
    for t in 0..64 {
        let s1 = e.rotate_right(6) ^ e.rotate_right(11) ^ e.rotate_right(25);
        let t1 = h.wrapping_add(s1).wrapping_add(e & f ^ !e & g).wrapping_add(ROUNDS[t]).wrapping_add(w[t]);
        let s0 = a.rotate_right(2) ^ a.rotate_right(13) ^ a.rotate_right(22);
        let t2 = s0.wrapping_add(a & b ^ a & c ^ b & c);
        (h, g, f, e, d, c, b, a) = (g, f, e, d.wrapping_add(t1), c, b, a, t1.wrapping_add(t2));
    }
    for (old, new) in state.iter_mut().zip([a, b, c, d, e, f, g, h]) {
        *old = old.wrapping_add(new);
    }
}

fn sha256(bytes: &[u8]) -> [u8; 32] {
    let mut state = [
        0x6a09e667, 0xbb67ae85, 0x3c6ef372, 0xa54ff53a, 0x510e527f, 0x9b05688c, 0x1f83d9ab, 0x5be0cd19,
    ];
    let blocks = bytes.chunks_exact(64);
    let mut rest = blocks.remainder().to_vec();
    blocks.for_each(|block| compress(&mut state, block));
    rest.push(0x80);
    rest.resize((rest.len() + 8).next_multiple_of(64) - 8, 0);
    rest.extend((bytes.len() as u64 * 8).to_be_bytes());
    rest.chunks_exact(64).for_each(|block| compress(&mut state, block));
    let mut digest = [0; 32];
    for (part, word) in digest.chunks_exact_mut(4).zip(state) {
        part.copy_from_slice(&word.to_be_bytes());
    }
    digest
}

fn hash(times: u32, bytes: usize) -> u8 {
    let mut bytes = vec![1u8; bytes];
    let mut last = 0;
    for _ in 0..times {
        last = sha256(&bytes)[0];
        // The next digest is of other bytes.
        if let Some(first) = bytes.first_mut() {
            *first = last;
        }
    }
    last
}

// ---- tables of least costs

// A level: its slots, and what it costs to write and to read an image there.
#[derive(Clone, Copy)]
struct LevelCosts {
    slots: usize,
    write: u64,
    read: u64,
}

// Above every cost.
const NEVER: u64 = 1 << 61;

// The least costs of reversing 1 to `steps` steps with so many free slots of a level, in the rows `fresh` and `held`: with the
// first state in work, and with it held on the level. `below` is what the faster level alone costs.
fn level_costs(level: LevelCosts, below: &[u64]) -> (Vec<Vec<u64>>, Vec<Vec<u64>>) {
    let steps = below.len() - 1;
    let mut fresh = vec![vec![NEVER; steps + 1]; level.slots + 1];
    let mut held = vec![vec![NEVER; steps + 1]; level.slots + 1];
    for l in 1..=steps {
        for m in 0..level.slots {
            let split = (1..l).map(|j| j as u64 + fresh[m][l - j] + held[m][j]).min().unwrap_or(NEVER);
            held[m][l] = level.read + below[l].min(split);
        }
        fresh[0][l] = below[l];
        for m in 1..=level.slots {
            let split = (1..l).map(|j| j as u64 + fresh[m - 1][l - j] + held[m - 1][j]).min().unwrap_or(NEVER);
            fresh[m][l] = below[l].min(level.write + split);
        }
    }
    (fresh, held)
}

// The least cost for two levels, by filling the tables of both.
fn least_cost(steps: usize, levels: [LevelCosts; 2]) -> u64 {
    let mut below = vec![NEVER; steps + 1];
    below[1] = 2;
    for level in levels {
        let (fresh, _) = level_costs(level, &below);
        below = fresh[level.slots].clone();
    }
    below[steps]
}

// The least cost for memory and an unlimited disk that is written on the way forward alone, by filling its tables.
fn least_disk_cost(steps: usize, slots: usize) -> u64 {
    let mut one = vec![NEVER; steps + 1];
    one[1] = 2;
    let (fresh, _) = level_costs(LevelCosts { slots, write: 0, read: 0 }, &one);
    let fast = &fresh[slots];
    let (mut held, mut disk) = (vec![NEVER; steps + 1], vec![NEVER; steps + 1]);
    for l in 1..=steps {
        let split = (1..l).map(|i| i as u64 + fast[l - i] + held[i]).min().unwrap_or(NEVER);
        held[l] = 1 + fast[l].min(split);
    }
    for l in 1..=steps {
        let split = (1..l).map(|j| j as u64 + disk[l - j] + held[j]).min().unwrap_or(NEVER);
        disk[l] = fast[l].min(2 + split);
    }
    disk[steps]
}

fn done(words: &[String]) -> Option<()> {
    let words: Vec<&str> = words.iter().map(String::as_str).collect();
    let mut out = BufWriter::with_capacity(1 << 20, io::stdout());
    match words.as_slice() {
        ["schedule", n, slots] => schedule(&mut out, n.parse().ok()?, slots.parse().ok()?).ok()?,
        ["journal", items, bytes] => journal(&mut out, items.parse().ok()?, bytes.parse().ok()?).ok()?,
        ["check", path, n, slots] => writeln!(out, "valid {}", check(path, n.parse().ok()?, slots.parse().ok()?)?).ok()?,
        ["read", path] => writeln!(out, "{}", fs::read(path).ok()?.len()).ok()?,
        ["steps", path, n] => {
            let (pc, x10) = steps(path, n.parse().ok()?)?;
            writeln!(out, "pc {pc:08x} x10 {x10:08x}").ok()?
        }
        ["costs", n, fast, slow] => {
            let fast = LevelCosts { slots: fast.parse().ok()?, write: 0, read: 0 };
            let slow = LevelCosts { slots: slow.parse().ok()?, write: 2, read: 1 };
            writeln!(out, "{}", least_cost(n.parse().ok()?, [fast, slow])).ok()?
        }
        ["disk", n, slots] => writeln!(out, "{}", least_disk_cost(n.parse().ok()?, slots.parse().ok()?)).ok()?,
        ["hash", times, bytes] => writeln!(out, "{}", hash(times.parse().ok()?, bytes.parse().ok()?)).ok()?,
        _ => return None,
    }
    out.flush().ok()
}

fn main() -> ExitCode {
    let words: Vec<String> = env::args().skip(1).collect();
    if done(&words).is_some() { ExitCode::SUCCESS } else { ExitCode::FAILURE }
}
