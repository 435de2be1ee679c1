//! Gives random and spoiled inputs to the three programs: `fuzz PROGRAMS COUNT SECONDS SEED DIR [WRAPPER..]`. Each run must
//! end in time, by itself, with the status and the words that the slow search and the slow checkers have for its input.
//! Stops after COUNT runs or SECONDS. Run i depends on SEED and i alone. DIR is for the files meanwhile; WRAPPER is a command
//! that runs a program, for example valgrind.

#[path = "../slow/check.rs"]
mod check;
#[path = "../slow/dice.rs"]
mod dice;
#[path = "../slow/search.rs"]
mod search;

use check::{check_letter, check_sheet};
use dice::{draw, Dice};
use search::{hold, Files, Refusal};
use std::fs::{self, File};
use std::path::{Path, PathBuf};
use std::process::{exit, Command, Stdio};
use std::sync::atomic::{AtomicU64, Ordering};
use std::time::{Duration, Instant};

/// How long one run may take.
const LIMIT: Duration = Duration::from_secs(20);

/// More than cores, since each worker also waits.
const WORKERS: u64 = 4;

/// What a run is given.
enum Case {
    Evening(Vec<u8>),
    Sheet { entries: Vec<u8>, sheet: Vec<u8> },
    Letter(Vec<u8>),
}

/// What a run prints, and whether it ends with status 0.
#[derive(PartialEq)]
struct Answer {
    printed: String,
    good: bool,
}

impl Case {
    fn draw(dice: &mut Dice) -> Case {
        match dice.below(6) {
            0..=1 => Case::Evening(sometimes_spoiled(dice, draw)),
            2..=3 => Case::draw_sheet(dice),
            4 => Case::Letter(sometimes_spoiled(dice, draw_letter)),
            _ => Case::Letter(make_letter(dice)),
        }
    }

    /// A sheet with its entries, or with one of both spoiled, or of another evening.
    fn draw_sheet(dice: &mut Dice) -> Case {
        let mut files = opened(dice);
        let (mut entries, mut sheet) = (take(&mut files, "entries.bin"), take(&mut files, "sheet.bin"));
        match dice.below(8) {
            0 => {}
            1 => sheet = take(&mut opened(dice), "sheet.bin"),
            2..=3 => spoil(dice, &mut entries),
            4 => entries = noise(dice),
            5 => sheet = noise(dice),
            _ => spoil(dice, &mut sheet),
        }
        Case::Sheet { entries, sheet }
    }

    fn wanted(&self) -> Answer {
        match self {
            Case::Evening(input) => {
                let held = hold(input);
                Answer { printed: held.printed, good: held.opened }
            }
            Case::Sheet { entries, sheet } => verdict(check_sheet(entries, sheet)),
            Case::Letter(letter) => verdict(check_letter(letter)),
        }
    }

    /// Writes the input into a directory. Answers the program, its arguments, and its standard input.
    fn write(&self, dir: &Path) -> (&'static str, Vec<PathBuf>, Stdio) {
        let put = |name: &str, bytes: &[u8]| {
            let path = dir.join(name);
            fs::write(&path, bytes).expect("an input can be written");
            path
        };
        match self {
            Case::Evening(input) => {
                let path = put("input", input);
                ("evening", vec![], Stdio::from(File::open(path).expect("an input can be read")))
            }
            Case::Sheet { entries, sheet } => {
                ("check_sheet", vec![put("entries", entries), put("sheet", sheet)], Stdio::null())
            }
            Case::Letter(letter) => ("check_letter", vec![put("letter", letter)], Stdio::null()),
        }
    }
}

fn verdict(result: Result<(), Refusal>) -> Answer {
    let printed = match result {
        Ok(()) => "accepted\n".to_string(),
        Err((number, place)) => format!("refused {number} at {place}\n"),
    };
    Answer { printed, good: result.is_ok() }
}

/// The files of a random evening that opens.
fn opened(dice: &mut Dice) -> Files {
    loop {
        let held = hold(&draw(dice));
        if held.opened {
            return held.files;
        }
    }
}

fn take(files: &mut Files, name: &str) -> Vec<u8> {
    files.remove(name).expect("an evening that opened has this file")
}

fn draw_letter(dice: &mut Dice) -> Vec<u8> {
    loop {
        let letters: Vec<Vec<u8>> =
            opened(dice).into_iter().filter(|(name, _)| name.starts_with("letter-")).map(|(_, l)| l).collect();
        if !letters.is_empty() {
            return letters[dice.below(letters.len() as u64) as usize].clone();
        }
    }
}

/// A letter of made-up lines of small numbers: some that are by the rule, and then mostly one that is not.
fn make_letter(dice: &mut Dice) -> Vec<u8> {
    let by_the_rule = |line: &[u8]| check_letter(&[&[0, 0, 1], line].concat()).is_ok();
    let good = dice.below(32) as usize;
    let wrong = usize::from(!dice.one_in(4));
    let mut lines: Vec<Vec<u8>> = vec![];
    while lines.len() < good + wrong {
        let line = make_line(dice);
        if by_the_rule(&line) == (lines.len() < good) {
            lines.push(line);
        }
    }
    [vec![0, 0, lines.len() as u8], lines.concat()].concat()
}

fn make_line(dice: &mut Dice) -> Vec<u8> {
    let mut line = vec![0; 28];
    line[1] = 1 + dice.below(2) as u8;
    line[6] = dice.below(2) as u8;
    line[7] = line[6] * dice.below(9) as u8;
    for number in [2, 11, 15, 19, 23] {
        line[number] = dice.below(5) as u8;
    }
    line[27] = dice.below(4) as u8;
    line
}

/// One in eight is noise, one in four is as drawn, and the others are spoiled.
fn sometimes_spoiled(dice: &mut Dice, draw: fn(&mut Dice) -> Vec<u8>) -> Vec<u8> {
    let way = dice.below(8);
    if way == 0 {
        return noise(dice);
    }
    let mut bytes = draw(dice);
    if way > 2 {
        spoil(dice, &mut bytes);
    }
    bytes
}

fn noise(dice: &mut Dice) -> Vec<u8> {
    let most = [4, 40, 400][dice.below(3) as usize];
    let highest = [2, 5, 256][dice.below(3) as usize];
    (0..dice.below(most)).map(|_| dice.below(highest) as u8).collect()
}

/// Spoils bytes in one to three places.
fn spoil(dice: &mut Dice, bytes: &mut Vec<u8>) {
    for _ in 0..1 + dice.below(3) {
        let length = bytes.len() as u64;
        let at = dice.below(length + 1) as usize;
        let end = (at + dice.below(40) as usize).min(bytes.len());
        match dice.below(8) {
            0 => bytes.truncate(at),
            1 => drop(bytes.drain(at..end)),
            2 => drop(bytes.splice(at..at, noise(dice))),
            3 => {
                let piece = bytes[at..end].to_vec();
                let to = dice.below(length + 1) as usize;
                drop(bytes.splice(to..to, piece));
            }
            4 if at + 4 <= bytes.len() => {
                let bound = [0, 1, 255, 256, 2000, 10_000_000, 10_000_001, 1_000_000_000, 1_000_000_001, u32::MAX]
                    [dice.below(10) as usize];
                bytes[at..at + 4].copy_from_slice(&bound.to_le_bytes());
            }
            _ if at == bytes.len() => bytes.push(dice.below(256) as u8),
            5 => bytes[at] ^= 1 << dice.below(8),
            6 => bytes[at] = bytes[at].wrapping_add(1),
            _ => bytes[at] = bytes[at].wrapping_sub(1),
        }
    }
}

struct Fuzz {
    programs: PathBuf,
    wrapper: Vec<String>,
    count: u64,
    seed: u64,
    until: Instant,
    next: AtomicU64,
    failed: AtomicU64,
}

impl Fuzz {
    fn case(&self, i: u64) -> Case {
        let mut dice = Dice((self.seed << 32).wrapping_add(i).wrapping_mul(0x9e3779b97f4a7c15));
        dice.below(1);
        Case::draw(&mut dice)
    }

    /// Takes runs as long as there are some, and counts them by program and by whether they ended with status 0.
    fn work(&self, dir: &Path) -> Counts {
        let mut counts = Counts::default();
        while Instant::now() < self.until && self.failed.load(Ordering::Relaxed) == 0 {
            let i = self.next.fetch_add(1, Ordering::Relaxed);
            if i >= self.count {
                break;
            }
            let case = self.case(i);
            let wanted = case.wanted();
            match self.run(&case, dir) {
                Ok(got) if got == wanted => counts.add(&case, wanted.good),
                Ok(got) => self.fail(
                    i,
                    &case,
                    &format!("wanted {}:\n{}got {}:\n{}", wanted.good, wanted.printed, got.good, got.printed),
                ),
                Err(fault) => self.fail(i, &case, &fault),
            }
        }
        counts
    }

    /// Runs a program on a case. What is no answer at all is told.
    fn run(&self, case: &Case, dir: &Path) -> Result<Answer, String> {
        let (program, args, stdin) = case.write(dir);
        let (printed, errors) = (dir.join("printed"), dir.join("errors"));
        let mut words = self.wrapper.iter().map(PathBuf::from).chain([self.programs.join(program)]);
        let mut child = Command::new(words.next().expect("there is a program"))
            .args(words)
            .args(args)
            .stdin(stdin)
            .stdout(File::create(&printed).expect("a file can be made"))
            .stderr(File::create(&errors).expect("a file can be made"))
            .spawn()
            .expect("the program can be run");
        let begun = Instant::now();
        let status = loop {
            if let Some(status) = child.try_wait().expect("the program can be waited for") {
                break status;
            }
            if begun.elapsed() > LIMIT {
                child.kill().expect("the program can be ended");
                child.wait().expect("the program can be waited for");
                return Err(format!("{program} takes more than {LIMIT:?}"));
            }
            std::thread::sleep(Duration::from_micros(200));
        };
        match status.code() {
            Some(code @ 0..=1) => {
                let bytes = fs::read(&printed).expect("what is printed can be read");
                Ok(Answer { printed: String::from_utf8_lossy(&bytes).into_owned(), good: code == 0 })
            }
            _ => Err(format!("{program} ends with {status}\n{}", fs::read_to_string(&errors).unwrap_or_default())),
        }
    }

    /// Keeps the input of the first run that failed.
    fn fail(&self, i: u64, case: &Case, difference: &str) {
        if self.failed.fetch_add(1, Ordering::Relaxed) > 0 {
            return;
        }
        let kept = Path::new("target/fuzz-failed");
        fs::create_dir_all(kept).expect("the input can be kept");
        let (program, _, _) = case.write(kept);
        eprintln!("run {i} of seed {}, of {program}, fails; its input is in {}\n{difference}", self.seed, kept.display());
    }
}

/// How many runs ended with status 0, and how many with 1, of evening, check_sheet and check_letter.
#[derive(Default)]
struct Counts([(u64, u64); 3]);

impl Counts {
    fn add(&mut self, case: &Case, good: bool) {
        let count = match case {
            Case::Evening(_) => &mut self.0[0],
            Case::Sheet { .. } => &mut self.0[1],
            Case::Letter(_) => &mut self.0[2],
        };
        if good {
            count.0 += 1
        } else {
            count.1 += 1
        }
    }

    fn plus(self, other: Counts) -> Counts {
        Counts([0, 1, 2].map(|i| (self.0[i].0 + other.0[i].0, self.0[i].1 + other.0[i].1)))
    }

    fn total(&self) -> u64 {
        self.0.iter().map(|(good, bad)| good + bad).sum()
    }
}

fn main() {
    let args: Vec<String> = std::env::args().collect();
    let [_, programs, count, seconds, seed, dir, wrapper @ ..] = args.as_slice() else {
        eprintln!("usage: fuzz PROGRAMS COUNT SECONDS SEED DIR [WRAPPER..]");
        exit(2);
    };
    let begun = Instant::now();
    let fuzz = Fuzz {
        programs: programs.into(),
        wrapper: wrapper.to_vec(),
        count: count.parse().expect("COUNT is a number"),
        seed: seed.parse().expect("SEED is a number"),
        until: begun + Duration::from_secs(seconds.parse().expect("SECONDS is a number")),
        next: AtomicU64::new(0),
        failed: AtomicU64::new(0),
    };
    let counts = std::thread::scope(|scope| {
        let workers: Vec<_> = (0..WORKERS)
            .map(|worker| {
                let dir = Path::new(dir).join(worker.to_string());
                fs::create_dir_all(&dir).expect("a directory can be made");
                let fuzz = &fuzz;
                scope.spawn(move || fuzz.work(&dir))
            })
            .collect();
        workers.into_iter().map(|w| w.join().expect("a worker ends")).fold(Counts::default(), Counts::plus)
    });
    if fuzz.failed.load(Ordering::Relaxed) > 0 || counts.total() == 0 {
        eprintln!("{} runs as they should be, and then not", counts.total());
        exit(1);
    }
    let [evening, sheet, letter] = counts.0;
    println!(
        "{} of {count} runs in {} seconds, seed {seed}, all as they should be:",
        counts.total(),
        begun.elapsed().as_secs()
    );
    println!(
        "    evening {} opened, {} not; check_sheet {} accepted, {} refused; check_letter {} accepted, {} refused",
        evening.0, evening.1, sheet.0, sheet.1, letter.0, letter.1
    );
}
