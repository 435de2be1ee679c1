//! Random evenings.

/// A generator of numbers, linear congruential.
pub struct Dice(pub u64);

impl Dice {
    pub fn below(&mut self, n: u64) -> u64 {
        self.0 = self.0.wrapping_mul(6364136223846793005).wrapping_add(1442695040888963407);
        (self.0 >> 33) % n
    }

    pub fn one_in(&mut self, n: u64) -> bool {
        self.below(n) == 0
    }
}

/// A random evening: mostly good messages with few different numbers, so that ties and crossings are common, and now and
/// then something wrong.
pub fn draw(dice: &mut Dice) -> Vec<u8> {
    let kinds = if dice.one_in(200) { dice.below(256) } else { 1 + dice.below(4) };
    let members = if dice.one_in(200) { dice.below(3000) } else { 1 + dice.below(14) };
    let range = [4, 12, 1000, 10_000_002][dice.below(4) as usize];
    let mut input = vec![kinds as u8];
    input.extend_from_slice(&(members as u16).to_le_bytes());
    let fund = if dice.one_in(100) { 1_000_000_000_000_001 } else { dice.below(1000) };
    input.extend_from_slice(&fund.to_le_bytes());
    for _ in 0..members {
        let account =
            if dice.one_in(500) { 1_000_000_001 } else { dice.below(3 * range * kinds.max(1)).min(1_000_000_000) };
        input.extend_from_slice(&(account as u32).to_le_bytes());
    }
    for _ in 0..members * kinds {
        input.push(if dice.one_in(30) { 255 } else { dice.below(3) as u8 });
    }
    for i in 0..dice.below(12 * members.max(1)) {
        let member = if dice.one_in(60) { dice.below(65536) } else { dice.below(members.max(1)) };
        input.extend_from_slice(&(member as u16).to_le_bytes());
        let count = if dice.one_in(20) { dice.below(4) } else { i + 1 };
        input.extend_from_slice(&(count as u32).to_le_bytes());
        let sort = if dice.one_in(40) { dice.below(256) } else { [0, 1, 1, 1, 2, 2, 2][dice.below(7) as usize] };
        input.push(if dice.one_in(60) { dice.below(256) } else { dice.below(kinds.max(1)) } as u8);
        input.push(sort as u8);
        let cents = if sort == 0 && !dice.one_in(20) { 0 } else { dice.below(range) };
        input.extend_from_slice(&(cents as u32).to_le_bytes());
    }
    if dice.one_in(10) {
        let cut = dice.below(input.len() as u64 + 1) as usize;
        input.truncate(cut);
    }
    input
}
