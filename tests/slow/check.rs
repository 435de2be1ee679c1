//! The two checkers, written for clarity alone.

use crate::search::{extent, number, Entry, Kind, Refusal};

/// Whether this is the sheet of a file of entries.
pub fn check_sheet(entries: &[u8], sheet: &[u8]) -> Result<(), Refusal> {
    let (kinds, members) = extent(entries)?;
    let end = 3 + 4 * kinds * members;
    if entries.len() < end {
        return Err((11, 0));
    }
    if entries.len() > end {
        return Err((13, end as u64));
    }
    let mut all = vec![];
    for (i, bytes) in entries[3..].chunks(4).enumerate() {
        all.push(entry(number(bytes)).ok_or((7, i as u64))?);
    }
    let mut at = 0;
    for (kind, row) in all.chunks(members).enumerate() {
        for (field, wanted) in Kind::close(row).fields().iter().enumerate() {
            for byte in wanted {
                match sheet.get(at) {
                    None => return Err((13, at as u64)),
                    Some(got) if got != byte => return Err((12, (kind * 8 + field) as u64)),
                    Some(_) => at += 1,
                }
            }
        }
    }
    if sheet.len() > at {
        Err((13, at as u64))
    } else {
        Ok(())
    }
}

fn entry(number: u64) -> Option<Entry> {
    let cents = number % (1 << 24);
    let allowed = (1..=10_000_000).contains(&cents);
    match number >> 24 {
        0 if cents == 0 => Some(Entry::Nothing),
        1 if allowed => Some(Entry::Bid(cents)),
        2 if allowed => Some(Entry::Ask(cents)),
        _ => None,
    }
}

/// Whether each line of a letter is by the rule.
pub fn check_letter(letter: &[u8]) -> Result<(), Refusal> {
    let short = Err((13, letter.len() as u64));
    if letter.len() < 3 {
        return short;
    }
    let lines = usize::from(letter[2]);
    for i in 0..lines {
        let Some(line) = letter.get(3 + 28 * i..3 + 28 * (i + 1)) else {
            return short;
        };
        if !Line::read(line).by_the_rule() {
            return Err((14, i as u64));
        }
    }
    let end = 3 + 28 * lines;
    if letter.len() > end {
        Err((13, end as u64))
    } else {
        Ok(())
    }
}

/// A line of a letter, with 0 for a number that is not there.
struct Line {
    sort: u64,
    cents: u64,
    traded: u64,
    price: u64,
    bid: u64,
    ask: u64,
    next_bid: u64,
    next_ask: u64,
    tie: u64,
}

impl Line {
    fn read(line: &[u8]) -> Line {
        Line {
            sort: number(&line[1..2]),
            cents: number(&line[2..6]),
            traded: number(&line[6..7]),
            price: number(&line[7..11]),
            bid: number(&line[11..15]),
            ask: number(&line[15..19]),
            next_bid: number(&line[19..23]),
            next_ask: number(&line[23..27]),
            tie: number(&line[27..28]),
        }
    }

    fn by_the_rule(&self) -> bool {
        self.words_known() && self.numbers_possible() && self.tie_possible() && (self.traded, self.price) == self.follows()
    }

    fn words_known(&self) -> bool {
        (1..=2).contains(&self.sort) && self.traded <= 1 && self.tie <= 3 && (self.traded == 1 || self.price == 0)
    }

    fn numbers_possible(&self) -> bool {
        let Line { cents, bid, ask, next_bid, next_ask, .. } = *self;
        let in_range = cents >= 1 && [cents, bid, ask, next_bid, next_ask].iter().all(|c| *c <= 10_000_000);
        let last_pair = (bid == 0 && ask == 0) || (bid > 0 && ask > 0 && ask <= bid);
        let next_no_pair = next_bid == 0 || next_ask == 0 || next_bid < next_ask;
        let in_order = !self.paired() || (next_bid <= bid && (next_ask == 0 || next_ask >= ask));
        let after = !(self.before_by_number() || self.same());
        let (_, next) = self.own_side();
        in_range && last_pair && next_no_pair && in_order && !(after && (next == 0 || self.better(cents, next)))
    }

    fn tie_possible(&self) -> bool {
        let (_, next) = self.own_side();
        (self.tie != 0) == self.same() && !(self.tie == 3 && next != self.cents)
    }

    /// Whether there is a last pair.
    fn paired(&self) -> bool {
        self.bid > 0
    }

    /// The last pair's number of the member's side, and the next.
    fn own_side(&self) -> (u64, u64) {
        if self.sort == 1 {
            (self.bid, self.next_bid)
        } else {
            (self.ask, self.next_ask)
        }
    }

    fn better(&self, one: u64, other: u64) -> bool {
        if self.sort == 1 {
            one > other
        } else {
            one < other
        }
    }

    fn before_by_number(&self) -> bool {
        self.paired() && self.better(self.cents, self.own_side().0)
    }

    fn same(&self) -> bool {
        self.paired() && self.cents == self.own_side().0
    }

    /// Whether the member traded, and at which price.
    fn follows(&self) -> (u64, u64) {
        let sum = self.next_bid + self.next_ask;
        let serves = self.next_bid > 0 && self.next_ask > 0 && 2 * self.ask <= sum && sum <= 2 * self.bid;
        let before = self.before_by_number() || self.tie == 1;
        let trades = before || (self.tie == 2 && serves);
        match trades {
            false => (0, 0),
            true if serves => (1, sum),
            true => (1, 2 * self.own_side().0),
        }
    }
}
