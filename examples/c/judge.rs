//! A small sync engine of one's own, and the proved one as the judge of its tests: drawn runs are given to both, and a
//! bug that is planted in the engine, a pull that forgets its notices, is found and shrunk to few commands.
//!
//!     rustc -O examples/c/judge.rs -L out/c -l static=photofleet -o judge

use std::fmt::Write;

/// A session of the library. It begins closed, as zeros.
#[repr(C)]
struct Session {
    at: *mut u8,
    is_open: bool,
}

unsafe extern "C" {
    fn photofleet_open(
        session: &mut Session,
        lines: *const u8,
        lines_length: usize,
        out: *mut u8,
        out_length: usize,
        written: &mut usize,
    ) -> u8;
    fn photofleet_give(
        session: &mut Session,
        line: *const u8,
        line_length: usize,
        out: *mut u8,
        out_length: usize,
        written: &mut usize,
    ) -> u8;
    fn photofleet_close(session: &mut Session) -> u8;
}

/// The proved engine, to which a run is given line by line.
struct Judge {
    session: Session,
    out: Vec<u8>,
}

impl Judge {
    fn of(declarations: &str) -> Judge {
        let mut judge = Judge { session: Session { at: std::ptr::null_mut(), is_open: false }, out: vec![0; 4096] };
        let (text, out, mut written) = (declarations, &mut judge.out, 0);
        // The pointers are those of slices, and what they point to is apart.
        let status = unsafe {
            photofleet_open(&mut judge.session, text.as_ptr(), text.len(), out.as_mut_ptr(), out.len(), &mut written)
        };
        assert!(status == 0, "status {status} of {declarations}");
        judge
    }

    /// The report on a line.
    fn give(&mut self, line: &str) -> String {
        let (out, mut written) = (&mut self.out, 0);
        let status = unsafe {
            photofleet_give(&mut self.session, line.as_ptr(), line.len(), out.as_mut_ptr(), out.len(), &mut written)
        };
        if status == 5 {
            self.out.resize(written, 0);
            return self.give(line);
        }
        let text = String::from_utf8_lossy(&self.out[..written]).into_owned();
        assert!(status == 0, "status {status} of {line}: {text}");
        text
    }
}

impl Drop for Judge {
    fn drop(&mut self) {
        unsafe { photofleet_close(&mut self.session) };
    }
}

/// What the proved engine prints of a script.
fn judged(script: &str) -> String {
    let (end, _) = script.match_indices('\n').nth(NAMES.len() - 1).unwrap();
    let (declarations, commands) = script.split_at(end);
    let mut judge = Judge::of(declarations);
    commands.lines().skip(1).map(|line| judge.give(line)).collect()
}

// The engine: devices that keep the pictures whose rating is in a range.

type Version = (usize, u32);

#[derive(Clone)]
struct Entry {
    picture: u32,
    version: Version,
    rating: u8,
    history: Vec<Version>,
}

struct Device {
    ratings: (u8, u8),
    made: u32,
    store: Vec<Entry>,
    out: Vec<Entry>,
    known: Vec<(u32, Version)>,
}

impl Device {
    fn selects(&self, entry: &Entry) -> bool {
        (self.ratings.0..=self.ratings.1).contains(&entry.rating)
    }

    fn knows(&self, entry: &Entry) -> bool {
        self.known.contains(&(entry.picture, entry.version))
    }

    fn put(&mut self, entry: Entry) -> &'static str {
        let (place, name) = if self.selects(&entry) { (&mut self.store, "store") } else { (&mut self.out, "out") };
        place.push(entry);
        place.sort_by_key(|entry| (entry.picture, entry.version));
        name
    }

    fn make(&mut self, name: usize, picture: u32, rating: u8) -> (Version, &'static str) {
        self.made += 1;
        let version = (name, self.made);
        let history = self.known.iter().filter(|(of, _)| *of == picture).map(|(_, version)| *version).collect();
        self.store.retain(|entry| entry.picture != picture);
        self.out.retain(|entry| entry.picture != picture);
        self.known.push((picture, version));
        (version, self.put(Entry { picture, version, rating, history }))
    }
}

fn supersedes(new: &Entry, old: &Entry) -> bool {
    new.picture == old.picture && new.history.contains(&old.version)
}

/// The target takes and learns from the source, and the counts of the report are given.
fn pull(target: &mut Device, source: &mut Device, forgets_notices: bool) -> [usize; 4] {
    let (taken, other): (Vec<_>, Vec<_>) =
        source.store.iter().filter(|entry| !target.knows(entry)).cloned().partition(|entry| target.selects(entry));
    let handed: Vec<_> = source.out.iter().filter(|entry| !target.knows(entry)).cloned().collect();
    let mut noticed = other;
    noticed.retain(|new| target.store.iter().chain(&target.out).any(|old| supersedes(new, old)));
    let counts = [taken.len(), handed.len(), noticed.len()];
    if forgets_notices {
        noticed.clear();
    }
    let told: Vec<_> = taken.iter().chain(&handed).chain(&noticed).cloned().collect();
    let learns_all = source.ratings.0 <= target.ratings.0 && target.ratings.1 <= source.ratings.1;
    let held = target.store.len() + target.out.len();
    target.store.retain(|old| {
        let is_stale = learns_all && source.knows(old) && source.store.iter().all(|kept| kept.version != old.version);
        !is_stale && !told.iter().any(|new| supersedes(new, old))
    });
    target.out.retain(|old| !told.iter().any(|new| supersedes(new, old)));
    let dropped = held - target.store.len() - target.out.len();
    source.out.retain(|entry| target.knows(entry));
    for new in &told {
        target.known.extend(new.history.iter().map(|version| (new.picture, *version)));
        target.known.push((new.picture, new.version));
    }
    if learns_all {
        target.known.extend(&source.known);
    }
    target.known.sort();
    target.known.dedup();
    for entry in taken.into_iter().chain(handed) {
        target.put(entry);
    }
    [counts[0], counts[1], counts[2], dropped]
}

// Runs, as texts and as what the engine does with them.

#[derive(Clone, Copy)]
enum Command {
    New(usize, u32, u8),
    Edit(usize, u32, u8),
    Pull(usize, usize),
}

const NAMES: [&str; 3] = ["a", "b", "c"];
const RATINGS: [(u8, u8); 3] = [(0, 3), (2, 5), (0, 5)];

/// The script of a run, in which each device is asked at the end for all that it holds.
fn script_of(commands: &[Command]) -> String {
    let mut script = String::new();
    for (name, (low, high)) in NAMES.iter().zip(RATINGS) {
        writeln!(script, "device {name} rating >= {low} and rating <= {high}").unwrap();
    }
    for command in commands {
        match *command {
            Command::New(device, picture, rating) => writeln!(script, "new {} {picture} {rating} 2024-05-01 -", NAMES[device]),
            Command::Edit(device, picture, rating) => writeln!(script, "edit {} {picture} {rating} 2024-05-01 -", NAMES[device]),
            Command::Pull(target, source) => writeln!(script, "pull {} {}", NAMES[target], NAMES[source]),
        }
        .unwrap();
    }
    for name in NAMES {
        writeln!(script, "list {name}").unwrap();
    }
    script
}

/// What the engine prints of a run.
fn printed(commands: &[Command], forgets_notices: bool) -> String {
    let mut devices = RATINGS.map(|ratings| Device { ratings, made: 0, store: vec![], out: vec![], known: vec![] });
    let mut text = String::new();
    for (number, command) in (1..).zip(commands) {
        let line = match *command {
            Command::Edit(device, picture, _)
                if !devices[device].store.iter().chain(&devices[device].out).any(|entry| entry.picture == picture) =>
            {
                "refused C1 NotHeld".to_string()
            }
            Command::New(device, picture, rating) | Command::Edit(device, picture, rating) => {
                let ((name, nth), place) = devices[device].make(device, picture, rating);
                format!("made {}:{nth} {place}", NAMES[name])
            }
            Command::Pull(target, source) => {
                let [t, s] = devices.get_disjoint_mut([target, source]).unwrap();
                let covers = s.ratings.0 <= t.ratings.0 && t.ratings.1 <= s.ratings.1;
                let [taken, handed, notices, dropped] = pull(t, s, forgets_notices);
                let learned = if covers { "yes" } else { "no" };
                format!("pulled taken {taken} handed {handed} notices {notices} dropped {dropped} learned {learned}")
            }
        };
        writeln!(text, "{number} {line}").unwrap();
    }
    for (number, (name, device)) in (commands.len() + 1..).zip(NAMES.iter().zip(&devices)) {
        writeln!(text, "{number} list {name} store {} out {}", device.store.len(), device.out.len()).unwrap();
        for (place, entries) in [("store", &device.store), ("out", &device.out)] {
            for Entry { picture, version: (name, nth), rating, .. } in entries {
                writeln!(text, "  {place} {picture} {}:{nth} rating {rating} day 2024-05-01 words -", NAMES[*name]).unwrap();
            }
        }
    }
    text
}

/// A generator of numbers, the same in every run of this program.
struct Draws(u64);

impl Draws {
    fn below(&mut self, bound: u64) -> u64 {
        self.0 ^= self.0 << 13;
        self.0 ^= self.0 >> 7;
        self.0 ^= self.0 << 17;
        self.0 % bound
    }

    fn run(&mut self) -> Vec<Command> {
        let mut pictures = 0;
        (0..5 + self.below(20))
            .map(|_| {
                let device = self.below(3) as usize;
                let rating = self.below(6) as u8;
                match self.below(4) {
                    0 => {
                        pictures += 1;
                        Command::New(device, pictures, rating)
                    }
                    1 => Command::Edit(device, 1 + self.below(4) as u32, rating),
                    _ => Command::Pull(device, (device + 1 + self.below(2) as usize) % 3),
                }
            })
            .collect()
    }
}

/// Leaves out commands as long as what is left still fails.
fn shrunk(mut commands: Vec<Command>, fails: impl Fn(&[Command]) -> bool) -> Vec<Command> {
    let mut at = 0;
    while at < commands.len() {
        let mut fewer = commands.clone();
        fewer.remove(at);
        if fails(&fewer) {
            commands = fewer;
            at = 0;
        } else {
            at += 1;
        }
    }
    commands
}

/// Gives drawn runs to the engine and to the judge, and tells of the first one on which they differ.
fn test(forgets_notices: bool) {
    let fails = |commands: &[Command]| printed(commands, forgets_notices) != judged(&script_of(commands));
    let mut draws = Draws(20240501);
    for number in 1..=2000 {
        let commands = draws.run();
        if fails(&commands) {
            let few = shrunk(commands, fails);
            println!("run {number} differs. Of its commands these are enough:");
            print!("{}", script_of(&few));
            print!("The engine:\n{}The judge:\n{}", printed(&few, forgets_notices), judged(&script_of(&few)));
            return;
        }
    }
    println!("2000 runs are alike");
}

fn main() {
    println!("The engine as it is:");
    test(false);
    println!("The engine whose pulls forget their notices:");
    test(true);
}
