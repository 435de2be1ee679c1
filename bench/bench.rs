//! Times the whole of `evening` beside the same evening in plain Rust, on 64 kinds, 2,000 members and 1,000,000 messages.
//!
//!   bench compare PROGRAM    runs all three on one input, in turn, and prints the least time of each and the ratios
//!   bench btree | sorted     holds the evening on standard input in plain Rust: with a BTreeSet for each side that is kept
//!                            while messages come, or with the entries put in order at closing
//!   bench draw               writes the input

use std::collections::BTreeSet;
use std::io::{self, BufWriter, Read, Write};
use std::process::{Command, Stdio};
use std::time::{Duration, Instant};

const SORT: u32 = 1 << 24;

/// A side's members in the order of ranks: the lower key first, then the lower member.
type Key = (u32, u16);

struct Evening {
    kinds: usize,
    members: usize,
    fund: u64,
    accounts: Vec<u64>,
    berths: Vec<u8>,
    numbers: Vec<u32>,
    committed: Vec<u64>,
    entries: Vec<u32>,
    /// buyers and sellers of each kind; empty where they are put in order at closing
    sides: Vec<[BTreeSet<Key>; 2]>,
    kept: bool,
}

fn word(bytes: &[u8]) -> u32 {
    u32::from_le_bytes(bytes.try_into().unwrap())
}

/// The side of an entry, and its key there.
fn key(entry: u32, member: u16) -> Option<(usize, Key)> {
    match entry / SORT {
        1 => Some((0, (u32::MAX - entry % SORT, member))),
        2 => Some((1, (entry % SORT, member))),
        _ => None,
    }
}

impl Evening {
    fn open(input: &[u8], kept: bool) -> (Evening, &[u8]) {
        let kinds = usize::from(input[0]);
        let members = usize::from(u16::from_le_bytes([input[1], input[2]]));
        let fund = u64::from_le_bytes(input[3..11].try_into().unwrap());
        let (accounts, rest) = input[11..].split_at(4 * members);
        let (berths, messages) = rest.split_at(kinds * members);
        let evening = Evening {
            kinds,
            members,
            fund,
            accounts: accounts.chunks(4).map(|a| 2 * u64::from(word(a))).collect(),
            berths: berths.to_vec(),
            numbers: vec![0; members],
            committed: vec![0; members],
            entries: vec![0; kinds * members],
            sides: (0..kinds).map(|_| Default::default()).collect(),
            kept,
        };
        (evening, messages)
    }

    fn take(&mut self, message: &[u8]) -> Result<(), (u8, usize)> {
        if message.len() != 12 {
            return Err((2, message.len()));
        }
        let member = u16::from_le_bytes([message[0], message[1]]);
        let m = usize::from(member);
        if m >= self.members {
            return Err((3, 0));
        }
        let number = word(&message[2..6]);
        if number <= self.numbers[m] {
            return Err((4, 2));
        }
        let kind = usize::from(message[6]);
        if kind >= self.kinds {
            return Err((5, 6));
        }
        let (sort, cents) = (message[7], word(&message[8..12]));
        if sort > 2 {
            return Err((6, 7));
        }
        if (sort == 0) != (cents == 0) || cents > 10_000_000 {
            return Err((7, 8));
        }
        let slot = kind * self.members + m;
        let old = self.entries[slot];
        let bid = |entry: u32| if entry / SORT == 1 { 2 * u64::from(entry % SORT) } else { 0 };
        let new = u32::from(sort) * SORT + cents;
        let committed = self.committed[m] - bid(old) + bid(new);
        let berths = self.berths[m * self.kinds + kind];
        if (sort == 1 && (committed > self.accounts[m] || berths == 255)) || (sort == 2 && berths == 0) {
            return Err((8, 8));
        }
        if self.kept {
            if let Some((side, key)) = key(old, member) {
                self.sides[kind][side].remove(&key);
            }
            if let Some((side, key)) = key(new, member) {
                self.sides[kind][side].insert(key);
            }
        }
        self.entries[slot] = new;
        self.committed[m] = committed;
        self.numbers[m] = number;
        Ok(())
    }

    fn ranks(&self, kind: usize) -> [Vec<Key>; 2] {
        if self.kept {
            return [0, 1].map(|side| self.sides[kind][side].iter().copied().collect());
        }
        let mut sides: [Vec<Key>; 2] = Default::default();
        let row = &self.entries[kind * self.members..(kind + 1) * self.members];
        for (m, entry) in row.iter().enumerate() {
            if let Some((side, key)) = key(*entry, m as u16) {
                sides[side].push(key);
            }
        }
        sides.iter_mut().for_each(|side| side.sort_unstable());
        sides
    }

    fn close(&mut self, out: &mut impl Write) -> io::Result<()> {
        let (bid, ask) = (|k: &Key| u64::from(u32::MAX - k.0), |k: &Key| u64::from(k.0));
        for kind in 0..self.kinds {
            let [buyers, sellers] = self.ranks(kind);
            let pairs = buyers.iter().zip(&sellers).take_while(|(b, s)| ask(s) <= bid(b)).count();
            let (mut trades, mut pay, mut get) = (0, 0, 0);
            if pairs > 0 {
                let (b, a) = (2 * bid(&buyers[pairs - 1]), 2 * ask(&sellers[pairs - 1]));
                match (buyers.get(pairs), sellers.get(pairs)) {
                    (Some(x), Some(y)) if a <= bid(x) + ask(y) && bid(x) + ask(y) <= b => (trades, pay, get) = (pairs, bid(x) + ask(y), bid(x) + ask(y)),
                    _ if pairs > 1 => (trades, pay, get) = (pairs - 1, b, a),
                    _ => {}
                }
            }
            let fund = trades as u64 * (pay - get);
            self.fund += fund;
            writeln!(out, "kind {kind} pairs {pairs} trades {trades} buyers {pay} sellers {get} fund {fund}")?;
            for (_, m) in &buyers[..trades] {
                self.accounts[usize::from(*m)] -= pay;
                self.berths[usize::from(*m) * self.kinds + kind] += 1;
                writeln!(out, "member {m} buys {pay}")?;
            }
            for (_, m) in &sellers[..trades] {
                self.accounts[usize::from(*m)] += get;
                self.berths[usize::from(*m) * self.kinds + kind] -= 1;
                writeln!(out, "member {m} sells {get}")?;
            }
        }
        self.entries.fill(0);
        writeln!(out, "fund {}", self.fund)
    }
}

fn hold(kept: bool) -> io::Result<()> {
    let mut input = Vec::new();
    io::stdin().read_to_end(&mut input)?;
    let (mut evening, messages) = Evening::open(&input, kept);
    let mut out = BufWriter::new(io::stdout().lock());
    for (i, message) in messages.chunks(12).enumerate() {
        if let Err((number, place)) = evening.take(message) {
            writeln!(out, "message {i} refused {number} at {place}")?;
        }
    }
    evening.close(&mut out)?;
    out.flush()
}

fn draw() -> Vec<u8> {
    let (kinds, members, messages) = (64u64, 2000u64, 1_000_000u64);
    let mut state = 20261117u64;
    let mut below = |n: u64| {
        state = state.wrapping_mul(6364136223846793005).wrapping_add(1442695040888963407);
        (state >> 33) % n
    };
    let mut input = vec![kinds as u8];
    input.extend_from_slice(&(members as u16).to_le_bytes());
    input.extend_from_slice(&0u64.to_le_bytes());
    for _ in 0..members {
        input.extend_from_slice(&1_000_000_000u32.to_le_bytes());
    }
    for _ in 0..members * kinds {
        input.push(1 + below(3) as u8);
    }
    for i in 0..messages {
        let sort = 1 + below(2);
        input.extend_from_slice(&(below(members) as u16).to_le_bytes());
        input.extend_from_slice(&(i as u32 + 1).to_le_bytes());
        input.push(below(kinds) as u8);
        input.push(sort as u8);
        input.extend_from_slice(&(1 + below(10_000_000) as u32).to_le_bytes());
    }
    input
}

fn time(mut command: Command, input: &str) -> (Duration, Vec<u8>) {
    let start = Instant::now();
    let file = std::fs::File::open(input).expect("the input is there");
    let done = command.stdin(file).stderr(Stdio::inherit()).output().expect("it runs");
    (start.elapsed(), done.stdout)
}

fn compare(program: &str) {
    let own = std::env::current_exe().expect("this program has a path");
    let input = format!("{}.input", own.display());
    std::fs::write(&input, draw()).expect("the input can be written");
    let plain = |mode: &str| {
        let mut command = Command::new(&own);
        command.arg(mode);
        command
    };
    let mut least = [Duration::MAX; 3];
    for _ in 0..7 {
        let runs = [time(Command::new(program), &input), time(plain("btree"), &input), time(plain("sorted"), &input)];
        assert!(runs.iter().all(|run| run.1 == runs[0].1), "the three print different results");
        for (best, run) in least.iter_mut().zip(&runs) {
            *best = (*best).min(run.0);
        }
    }
    let ms = |i: usize| least[i].as_secs_f64() * 1000.0;
    println!("evening {:.0} ms, a BTreeSet for each side {:.0} ms, ordered at closing {:.0} ms", ms(0), ms(1), ms(2));
    println!("ratio to the first {:.2}, to the second {:.2}", ms(0) / ms(1), ms(0) / ms(2));
}

fn main() -> io::Result<()> {
    let args: Vec<String> = std::env::args().skip(1).collect();
    match args.iter().map(String::as_str).collect::<Vec<_>>().as_slice() {
        ["compare", program] => compare(program),
        ["btree"] => hold(true)?,
        ["sorted"] => hold(false)?,
        ["draw"] => io::stdout().write_all(&draw())?,
        _ => {
            eprintln!("usage: bench compare PROGRAM | btree | sorted | draw");
            std::process::exit(2);
        }
    }
    Ok(())
}
