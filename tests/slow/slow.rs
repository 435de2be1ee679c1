//! Compares the built programs with a search in plain Rust: `slow PROGRAMS COUNT DIR` holds all small evenings of one kind,
//! the largest of all, and COUNT random ones, by the search and by `evening`, with `--out` and without, and compares what is
//! printed, the status, and each byte of each file. The checkers must accept the files of all small evenings and of one in
//! CHECKED of the random ones. DIR is for the files meanwhile.

mod dice;
mod search;

use dice::{draw, Dice};
use search::{hold, Files, Held};
use std::fs;
use std::io::Write as _;
use std::path::{Path, PathBuf};
use std::process::{exit, Command, Stdio};

/// The files of one random evening in so many are also given to the checkers.
const CHECKED: u64 = 5;

/// All evenings of one kind and one to three members, each with nothing or a bid or an ask of 1 to 4.
fn small() -> Vec<Vec<u8>> {
    let entries: Vec<(u8, u8)> =
        std::iter::once((0, 0)).chain((1..=4).flat_map(|cents| [(1, cents), (2, cents)])).collect();
    let mut evenings: Vec<Vec<(u8, u8)>> = vec![vec![]];
    let mut all = vec![];
    for _ in 0..3 {
        evenings = evenings.iter().flat_map(|e| entries.iter().map(|next| [e.as_slice(), &[*next]].concat())).collect();
        all.extend(evenings.iter().map(|e| input(e)));
    }
    all
}

/// The evening in which each member has an account of 4 cents, a berth, and sends one message.
fn input(entries: &[(u8, u8)]) -> Vec<u8> {
    let members = entries.len() as u8;
    let mut input = vec![1, members, 0, 0, 0, 0, 0, 0, 0, 0, 0];
    input.extend(entries.iter().flat_map(|_| [4, 0, 0, 0]));
    input.extend(entries.iter().map(|_| 1));
    for (member, (sort, cents)) in (0..members).zip(entries) {
        input.extend([member, 0, 1, 0, 0, 0, 0, *sort, *cents, 0, 0, 0]);
    }
    input
}

/// The largest of everything: 64 kinds and 2,000 members, each account, the fund and each number at its bound, and all of
/// them entered: one member bids and the next asks, in every kind.
fn largest() -> Vec<u8> {
    const KINDS: u8 = 64;
    const MEMBERS: u16 = 2000;
    const CENTS: u32 = 10_000_000;
    let mut input = vec![KINDS];
    input.extend(MEMBERS.to_le_bytes());
    input.extend(1_000_000_000_000_000_u64.to_le_bytes());
    input.extend((0..MEMBERS).flat_map(|_| 1_000_000_000_u32.to_le_bytes()));
    input.extend((0..MEMBERS).flat_map(|member| [if member % 2 == 0 { 254 } else { 255 }; KINDS as usize]));
    for member in 0..MEMBERS {
        for kind in 0..KINDS {
            input.extend(member.to_le_bytes());
            input.extend((u32::from(kind) + 1).to_le_bytes());
            input.extend([kind, if member % 2 == 0 { 1 } else { 2 }]);
            input.extend(CENTS.to_le_bytes());
        }
    }
    input
}

struct Programs {
    programs: PathBuf,
    dir: PathBuf,
}

impl Programs {
    /// What `evening` prints of an input that comes through a pipe, and whether it ends well.
    fn print(&self, input: &[u8]) -> (String, bool) {
        let mut child = Command::new(self.programs.join("evening"))
            .stdin(Stdio::piped())
            .stdout(Stdio::piped())
            .stderr(Stdio::null())
            .spawn()
            .expect("evening can be run");
        let mut stdin = child.stdin.take().expect("its input is a pipe");
        let bytes = input.to_vec();
        let writer = std::thread::spawn(move || stdin.write_all(&bytes));
        let done = child.wait_with_output().expect("evening ends");
        // what it leaves unread can't be written
        let _ = writer.join();
        (String::from_utf8_lossy(&done.stdout).into_owned(), done.status.success())
    }

    /// What `evening --out` makes of an input. The files are left in `out`.
    fn hold(&self, input: &[u8]) -> Held {
        let (file, out) = (self.dir.join("input"), self.out());
        fs::write(&file, input).expect("the input can be written");
        if out.exists() {
            fs::remove_dir_all(&out).expect("the last files can be removed");
        }
        let done = Command::new(self.programs.join("evening"))
            .arg("--out")
            .arg(&out)
            .stdin(fs::File::open(&file).expect("the input can be read"))
            .stderr(Stdio::null())
            .output()
            .expect("evening can be run");
        Held {
            printed: String::from_utf8_lossy(&done.stdout).into_owned(),
            opened: done.status.success(),
            files: read_files(&out),
        }
    }

    fn out(&self) -> PathBuf {
        self.dir.join("out")
    }

    /// Whether a checker accepts files of the last evening.
    fn accepts(&self, checker: &str, files: &[&str]) -> bool {
        let done = Command::new(self.programs.join(checker))
            .args(files.iter().map(|file| self.out().join(file)))
            .output()
            .expect("the checker can be run");
        done.status.success() && done.stdout == b"accepted\n"
    }
}

fn read_files(dir: &Path) -> Files {
    let Ok(entries) = fs::read_dir(dir) else {
        return Files::new();
    };
    let paths = entries.map(|entry| entry.expect("the directory can be read").path());
    paths.map(|path| (name(&path), fs::read(&path).expect("the file can be read"))).collect()
}

fn name(path: &Path) -> String {
    path.file_name().expect("a file has a name").to_string_lossy().into_owned()
}

/// What was compared.
#[derive(Default)]
struct Counts {
    evenings: u64,
    opened: u64,
    files: usize,
    sheets: u64,
    letters: u64,
}

impl Counts {
    /// Holds an evening by the search and by `evening`, with files and without, and says what differs.
    fn compare(&mut self, programs: &Programs, input: &[u8], checked: bool) -> Result<(), String> {
        let (wanted, got) = (hold(input), programs.hold(input));
        if wanted.printed != got.printed || wanted.opened != got.opened {
            return Err(format!("wanted {}:\n{}got {}:\n{}", wanted.opened, wanted.printed, got.opened, got.printed));
        }
        let alone = programs.print(input);
        if alone != (got.printed, got.opened) {
            return Err(format!("without --out {}:\n{}", alone.1, alone.0));
        }
        if !wanted.files.keys().eq(got.files.keys()) {
            return Err(format!("wanted files {:?}\ngot {:?}", wanted.files.keys(), got.files.keys()));
        }
        for (name, bytes) in &wanted.files {
            if *bytes != got.files[name] {
                return Err(format!("{name}\nwanted {bytes:?}\ngot    {:?}", got.files[name]));
            }
        }
        self.evenings += 1;
        self.opened += u64::from(wanted.opened);
        self.files += wanted.files.len();
        if checked && wanted.opened {
            self.check(programs, &wanted.files)?;
        }
        Ok(())
    }

    /// Gives the files of the last evening to the checkers.
    fn check(&mut self, programs: &Programs, files: &Files) -> Result<(), String> {
        if !programs.accepts("check_sheet", &["entries.bin", "sheet.bin"]) {
            return Err("check_sheet does not accept the sheet".to_string());
        }
        self.sheets += 1;
        for letter in files.keys().filter(|name| name.starts_with("letter-")) {
            if !programs.accepts("check_letter", &[letter]) {
                return Err(format!("check_letter does not accept {letter}"));
            }
            self.letters += 1;
        }
        Ok(())
    }

    fn tell(&self, which: &str) {
        let Counts { evenings, opened, files, sheets, letters } = self;
        println!("{evenings} {which} evenings as the slow search has them, {opened} of them opened, with {files} files;");
        println!("    of these {sheets} sheets and {letters} letters were given to the checkers, and accepted");
    }
}

/// Compares all these evenings, and ends at the first that differs.
fn compare_all(programs: &Programs, which: &str, evenings: impl Iterator<Item = (Vec<u8>, bool)>) {
    let mut counts = Counts::default();
    for (i, (input, checked)) in evenings.enumerate() {
        if let Err(difference) = counts.compare(programs, &input, checked) {
            fs::write("target/differs.bin", &input).expect("the input can be kept");
            eprintln!("{which} evening {i} differs; its input is in target/differs.bin\n{difference}");
            exit(1);
        }
    }
    counts.tell(which);
}

fn main() {
    let args: Vec<String> = std::env::args().collect();
    let [_, programs, count, dir] = args.as_slice() else {
        eprintln!("usage: slow PROGRAMS COUNT DIR");
        exit(2);
    };
    let count: u64 = count.parse().expect("COUNT is a number");
    let programs = Programs { programs: programs.into(), dir: dir.into() };
    compare_all(&programs, "small", small().into_iter().map(|input| (input, true)));
    compare_all(&programs, "largest", std::iter::once((largest(), true)));
    let random = (0..count).map(|seed| (draw(&mut Dice(seed.wrapping_mul(0x9e3779b97f4a7c15))), seed % CHECKED == 0));
    compare_all(&programs, "random", random);
}
