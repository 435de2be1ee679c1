//! An evening by a search written for clarity alone: what it prints, and the bytes of its files.

use std::cmp::Ordering;
use std::collections::BTreeMap;
use std::fmt::Write as _;

#[derive(Clone, Copy, PartialEq)]
pub enum Entry {
    Nothing,
    Bid(u64),
    Ask(u64),
}

/// The number and the place of a refusal.
pub type Refusal = (u64, u64);

/// Files by name.
pub type Files = BTreeMap<String, Vec<u8>>;

/// What an evening prints, and its files. An evening that does not open has none.
pub struct Held {
    pub printed: String,
    pub opened: bool,
    pub files: Files,
}

struct Member {
    account: u64,
    last: u64,
    berths: Vec<u64>,
    entries: Vec<Entry>,
}

pub fn number(bytes: &[u8]) -> u64 {
    bytes.iter().rev().fold(0, |sum, b| sum * 256 + u64::from(*b))
}

/// The lowest `size` bytes of a number, the lowest first.
fn bytes(number: u64, size: usize) -> Vec<u8> {
    number.to_le_bytes()[..size].to_vec()
}

pub fn hold(input: &[u8]) -> Held {
    let (kinds, mut members, fund, messages) = match open(input) {
        Err((number, place)) => {
            return Held { printed: format!("refused {number} at {place}\n"), opened: false, files: Files::new() };
        }
        Ok(opened) => opened,
    };
    let mut printed = String::new();
    for (i, message) in messages.chunks(12).enumerate() {
        if let Err((number, place)) = take(message, kinds, &mut members) {
            writeln!(printed, "message {i} refused {number} at {place}").unwrap();
        }
    }
    let rows: Vec<Vec<Entry>> = (0..kinds).map(|kind| members.iter().map(|m| m.entries[kind]).collect()).collect();
    let closed: Vec<Kind> = rows.iter().map(|row| Kind::close(row)).collect();
    for (kind, closed) in closed.iter().enumerate() {
        closed.tell(kind, &mut printed);
    }
    writeln!(printed, "fund {}", fund + closed.iter().map(Kind::fund).sum::<u64>()).unwrap();
    let mut files = files(members.len(), &rows, &closed);
    let (accounts, berths) = settle(&members, &closed);
    files.insert("accounts.bin".to_string(), accounts.iter().flat_map(|a| bytes(*a, 8)).collect());
    files.insert("berths.bin".to_string(), berths.concat().iter().flat_map(|b| bytes(*b, 1)).collect());
    Held { printed, opened: true, files }
}

/// What each member then has: its account in half cents, and its berths of each kind.
fn settle(members: &[Member], closed: &[Kind]) -> (Vec<u64>, Vec<Vec<u64>>) {
    let mut accounts: Vec<u64> = members.iter().map(|m| 2 * m.account).collect();
    let mut berths: Vec<Vec<u64>> = members.iter().map(|m| m.berths.clone()).collect();
    for (k, kind) in closed.iter().enumerate() {
        for (buyer, _) in &kind.buyers[..kind.trades] {
            accounts[*buyer] -= kind.pay;
            berths[*buyer][k] += 1;
        }
        for (seller, _) in &kind.sellers[..kind.trades] {
            accounts[*seller] += kind.get;
            berths[*seller][k] -= 1;
        }
    }
    (accounts, berths)
}

type Opened<'a> = (usize, Vec<Member>, u64, &'a [u8]);

fn open(input: &[u8]) -> Result<Opened<'_>, Refusal> {
    let (kinds, count) = extent(input)?;
    let Some(fund) = input.get(3..11).map(number) else {
        return Err((10, 2000));
    };
    let rest = &input[11..];
    let accounts: Vec<u64> = rest.chunks_exact(4).take(count).map(number).collect();
    if let Some(member) = accounts.iter().position(|a| *a > 1_000_000_000) {
        return Err((10, member as u64));
    }
    if fund > 1_000_000_000_000_000 {
        return Err((10, 2000));
    }
    if accounts.len() < count {
        return Err((11, 1));
    }
    let rest = &rest[4 * count..];
    if rest.len() < kinds * count {
        return Err((11, 2));
    }
    let (berths, messages) = rest.split_at(kinds * count);
    let members = accounts
        .iter()
        .zip(berths.chunks(kinds))
        .map(|(account, berths)| Member {
            account: *account,
            last: 0,
            berths: berths.iter().map(|b| u64::from(*b)).collect(),
            entries: vec![Entry::Nothing; kinds],
        })
        .collect();
    Ok((kinds, members, fund, messages))
}

/// Kinds and members, with which both an input and a file of entries begin.
pub fn extent(bytes: &[u8]) -> Result<(usize, usize), Refusal> {
    let kinds = bytes.first().map_or(0, |k| usize::from(*k));
    if !(1..=64).contains(&kinds) {
        return Err((9, 0));
    }
    let members = bytes.get(1..3).map_or(0, |m| number(m) as usize);
    if !(1..=2000).contains(&members) {
        return Err((9, 1));
    }
    Ok((kinds, members))
}

fn take(message: &[u8], kinds: usize, members: &mut [Member]) -> Result<(), Refusal> {
    if message.len() != 12 {
        return Err((2, message.len() as u64));
    }
    let member = members.get_mut(number(&message[0..2]) as usize).ok_or((3, 0))?;
    let count = number(&message[2..6]);
    if count <= member.last {
        return Err((4, 2));
    }
    let kind = usize::from(message[6]);
    if kind >= kinds {
        return Err((5, 6));
    }
    let cents = number(&message[8..12]);
    let allowed = (1..=10_000_000).contains(&cents);
    let entry = match message[7] {
        0 if cents == 0 => Entry::Nothing,
        1 if allowed => Entry::Bid(cents),
        2 if allowed => Entry::Ask(cents),
        0..=2 => return Err((7, 8)),
        _ => return Err((6, 7)),
    };
    let mut entries = member.entries.clone();
    entries[kind] = entry;
    let bids: u64 = entries.iter().map(|e| if let Entry::Bid(c) = e { *c } else { 0 }).sum();
    let backed = match entry {
        Entry::Nothing => true,
        Entry::Bid(_) => bids <= member.account && member.berths[kind] < 255,
        Entry::Ask(_) => member.berths[kind] > 0,
    };
    if !backed {
        return Err((8, 8));
    }
    member.entries = entries;
    member.last = count;
    Ok(())
}

/// Members with their cents, in the order of ranks.
type Side = Vec<(usize, u64)>;

/// A closed kind, with its prices in half cents.
pub struct Kind {
    buyers: Side,
    sellers: Side,
    pairs: usize,
    trades: usize,
    pay: u64,
    get: u64,
}

impl Kind {
    pub fn close(row: &[Entry]) -> Kind {
        let entries = || row.iter().enumerate();
        let mut buyers: Side =
            entries().filter_map(|(m, e)| if let Entry::Bid(c) = e { Some((m, *c)) } else { None }).collect();
        let mut sellers: Side =
            entries().filter_map(|(m, e)| if let Entry::Ask(c) = e { Some((m, *c)) } else { None }).collect();
        buyers.sort_by_key(|(m, c)| (std::cmp::Reverse(*c), *m));
        sellers.sort_by_key(|(m, c)| (*c, *m));
        let pairs = buyers.iter().zip(&sellers).filter(|(b, s)| s.1 <= b.1).count();
        let (mut trades, mut pay, mut get) = (0, 0, 0);
        if pairs > 0 {
            let (bid, ask) = (buyers[pairs - 1].1, sellers[pairs - 1].1);
            let next = match (buyers.get(pairs), sellers.get(pairs)) {
                (Some(b), Some(s)) => Some(b.1 + s.1),
                _ => None,
            };
            match next {
                Some(price) if 2 * ask <= price && price <= 2 * bid => (trades, pay, get) = (pairs, price, price),
                _ if pairs > 1 => (trades, pay, get) = (pairs - 1, 2 * bid, 2 * ask),
                _ => {}
            }
        }
        Kind { buyers, sellers, pairs, trades, pay, get }
    }

    fn fund(&self) -> u64 {
        self.trades as u64 * (self.pay - self.get)
    }

    fn tell(&self, kind: usize, out: &mut String) {
        let Kind { pairs, trades, pay, get, .. } = self;
        writeln!(out, "kind {kind} pairs {pairs} trades {trades} buyers {pay} sellers {get} fund {}", self.fund()).unwrap();
        for (member, _) in &self.buyers[..*trades] {
            writeln!(out, "member {member} buys {pay}").unwrap();
        }
        for (member, _) in &self.sellers[..*trades] {
            writeln!(out, "member {member} sells {get}").unwrap();
        }
    }

    /// The eight fields of a kind on the sheet.
    pub fn fields(&self) -> [Vec<u8>; 8] {
        let listed = |side: &Side| side.len().min(self.pairs + 1);
        let list = |side: &Side| {
            side[..listed(side)].iter().flat_map(|(m, c)| [bytes(*m as u64, 2), bytes(*c, 4)].concat()).collect()
        };
        [
            bytes(self.pairs as u64, 2),
            bytes(self.trades as u64, 2),
            bytes(self.pay, 4),
            bytes(self.get, 4),
            bytes(listed(&self.buyers) as u64, 2),
            list(&self.buyers),
            bytes(listed(&self.sellers) as u64, 2),
            list(&self.sellers),
        ]
    }

    /// A member's line of this kind in its letter; none without an entry.
    fn line(&self, kind: usize, member: usize, entry: Entry) -> Option<Vec<u8>> {
        let (sort, cents, side, price) = match entry {
            Entry::Nothing => return None,
            Entry::Bid(cents) => (1, cents, &self.buyers, self.pay),
            Entry::Ask(cents) => (2, cents, &self.sellers, self.get),
        };
        let rank = side.iter().position(|(m, _)| *m == member).expect("a member with an entry has a rank");
        let traded = rank < self.trades;
        let last = self.pairs.checked_sub(1);
        let cents_at = |side: &Side, rank: Option<usize>| rank.and_then(|r| side.get(r)).map_or(0, |(_, cents)| *cents);
        let tie = match last {
            Some(last) if side[last].1 == cents => match rank.cmp(&last) {
                Ordering::Less => 1,
                Ordering::Equal => 2,
                Ordering::Greater => 3,
            },
            _ => 0,
        };
        let line = [
            bytes(kind as u64, 1),
            bytes(sort, 1),
            bytes(cents, 4),
            bytes(u64::from(traded), 1),
            bytes(if traded { price } else { 0 }, 4),
            bytes(cents_at(&self.buyers, last), 4),
            bytes(cents_at(&self.sellers, last), 4),
            bytes(cents_at(&self.buyers, Some(self.pairs)), 4),
            bytes(cents_at(&self.sellers, Some(self.pairs)), 4),
            bytes(tie, 1),
        ];
        Some(line.concat())
    }
}

/// The entries, the sheet, and a letter for each member with an entry.
fn files(members: usize, rows: &[Vec<Entry>], closed: &[Kind]) -> Files {
    let mut entries = [bytes(rows.len() as u64, 1), bytes(members as u64, 2)].concat();
    for entry in rows.iter().flatten() {
        entries.extend(match entry {
            Entry::Nothing => bytes(0, 4),
            Entry::Bid(cents) => bytes((1 << 24) + cents, 4),
            Entry::Ask(cents) => bytes((2 << 24) + cents, 4),
        });
    }
    let sheet = closed.iter().flat_map(Kind::fields).flatten().collect();
    let mut files = Files::from([("entries.bin".to_string(), entries), ("sheet.bin".to_string(), sheet)]);
    for member in 0..members {
        let lines: Vec<Vec<u8>> =
            (0..rows.len()).filter_map(|kind| closed[kind].line(kind, member, rows[kind][member])).collect();
        if !lines.is_empty() {
            let head = [bytes(member as u64, 2), bytes(lines.len() as u64, 1)].concat();
            files.insert(format!("letter-{member}.bin"), [head, lines.concat()].concat());
        }
    }
    files
}
