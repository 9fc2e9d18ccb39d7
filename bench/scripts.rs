//! Scripts for `fmem run`.
//!
//! `scripts random SEED WORKERS LINES` writes a script of random calls by so many workers, each with so many lines, which
//! keeps all rules on names; `scripts scarce SEED WORKERS LINES` the same over a pool with fewer pages than its arenas
//! may have together. `scripts long LINES` writes one worker's lines, each behind the one before; `scripts adds
//! WORKERS LINES` lines of workers that all add to one long.
use std::env::args;
use std::process::exit;

const TYPES: [&str; 8] = ["byte", "boolean", "char", "short", "int", "long", "int-be", "long-be"];
const KINDS: [&str; 4] = ["global", "auto", "confined", "shared"];

/// Numbers by a linear congruence.
struct Numbers(u64);

impl Numbers {
    fn below(&mut self, n: usize) -> usize {
        self.0 = self.0.wrapping_mul(6364136223846793005).wrapping_add(1442695040888963407);
        (self.0 >> 33) as usize % n
    }

    fn of<'a, T>(&mut self, all: &'a [T]) -> Option<&'a T> {
        if all.is_empty() { None } else { Some(&all[self.below(all.len())]) }
    }
}

/// The names that a pass may use.
#[derive(Clone, Default)]
struct Scope {
    arenas: Vec<String>,
    segments: Vec<String>,
    holds: Vec<String>,
    handles: Vec<String>,
}

/// A script while it is written: how many names it has made, and its lines.
struct Script {
    numbers: Numbers,
    names: usize,
    lines: Vec<String>,
}

impl Script {
    fn name(&mut self) -> String {
        self.names += 1;
        format!("n{}", self.names)
    }

    fn say(&mut self, who: &str, call: String) {
        self.lines.push(format!("{who} {call}"));
    }

    fn open(&mut self, who: &str, scope: &mut Scope) {
        let (name, kind) = (self.name(), KINDS[self.numbers.below(4)]);
        if kind == "auto" {
            scope.handles.push(name.clone());
        }
        self.say(who, format!("open {name} {kind}"));
        scope.arenas.push(name);
    }

    fn alloc(&mut self, who: &str, scope: &mut Scope) {
        let Some(arena) = self.numbers.of(&scope.arenas).cloned() else { return };
        let (name, size) = (self.name(), self.numbers.below(200));
        let align = 1 << self.numbers.below(5);
        self.say(who, format!("alloc {arena} {name} {size} {align}"));
        scope.segments.push(name);
    }

    /// Gives back a hold or a handle, if there is one.
    fn give_back(&mut self, who: &str, scope: &mut Scope) -> bool {
        if let Some(hold) = scope.holds.pop() {
            self.say(who, format!("unhold {hold}"));
        } else if let Some(handle) = scope.handles.pop() {
            self.say(who, format!("back {handle}"));
        } else {
            return false;
        }
        true
    }

    fn on_arena(&mut self, who: &str, scope: &mut Scope) {
        let Some(arena) = self.numbers.of(&scope.arenas).cloned() else { return };
        match self.numbers.below(12) {
            0 => self.say(who, format!("close {arena}")),
            1..6 => self.say(who, format!("alive {arena}")),
            6..9 => {
                let name = self.name();
                self.say(who, format!("hold {arena} {name}"));
                scope.holds.push(name);
            }
            _ => {
                let Some(handle) = self.numbers.of(&scope.handles).cloned() else { return };
                let name = self.name();
                self.say(who, format!("again {handle} {name}"));
                scope.handles.push(name);
            }
        }
    }

    fn on_segment(&mut self, who: &str, scope: &mut Scope) {
        let Some(segment) = self.numbers.of(&scope.segments).cloned() else { return };
        let Some(other) = self.numbers.of(&scope.segments).cloned() else { return };
        let (kind, offset) = (TYPES[self.numbers.below(8)], 8 * self.numbers.below(8));
        let (one, two) = (self.numbers.below(2), self.numbers.below(2));
        match self.numbers.below(9) {
            0 => {
                let (name, size) = (self.name(), self.numbers.below(8));
                self.say(who, format!("slice {segment} {name} {one} {size}"));
                scope.segments.push(name);
            }
            1 => {
                let name = self.name();
                self.say(who, format!("readonly {segment} {name}"));
                scope.segments.push(name);
            }
            2 => self.say(who, format!("fill {segment} {}", self.names % 256)),
            3 => self.say(who, format!("copy {segment} {other}")),
            4 => self.say(who, format!("mismatch {segment} {other}")),
            5 => self.say(who, format!("get {segment} {kind} {offset}")),
            6 => self.say(who, format!("set {segment} {kind} {offset} {one}")),
            7 => self.say(who, format!("add {segment} {kind} {offset} {one}")),
            _ => self.say(who, format!("cas {segment} {kind} {offset} {one} {two}")),
        }
    }

    fn line(&mut self, who: &str, scope: &mut Scope) {
        match self.numbers.below(20) {
            0 => self.open(who, scope),
            1 | 2 => self.alloc(who, scope),
            3 | 4 => self.on_arena(who, scope),
            5 => _ = self.give_back(who, scope),
            _ => self.on_segment(who, scope),
        }
    }

    /// Random lines over a pool of this shape.
    fn over(&mut self, shape: &str, seed: usize, workers: usize, lines: usize) {
        self.numbers = Numbers(seed as u64);
        self.lines.push(format!("pool {shape}"));
        self.random(workers, lines);
    }

    fn random(&mut self, workers: usize, lines: usize) {
        let mut main = Scope::default();
        for _ in 0..4 {
            self.open("first", &mut main);
            self.alloc("first", &mut main);
        }
        let lent = Scope { holds: Vec::new(), handles: Vec::new(), ..main.clone() };
        let mut crew = vec![lent; workers];
        for _ in 0..lines {
            for (worker, scope) in crew.iter_mut().enumerate() {
                self.line(&(worker + 1).to_string(), scope);
            }
        }
        for (worker, scope) in crew.iter_mut().enumerate() {
            while self.give_back(&(worker + 1).to_string(), scope) {}
        }
        while self.give_back("last", &mut main) {}
    }
}

fn main() {
    let words: Vec<String> = args().skip(1).collect();
    let numbers: Option<Vec<usize>> = words.iter().skip(1).map(|word| word.parse().ok()).collect();
    let mut script = Script { numbers: Numbers(1), names: 0, lines: Vec::new() };
    match (words.first().map(String::as_str), numbers.as_deref()) {
        (Some("random"), Some([seed, workers, lines])) => {
            let slots = 4 + seed % 8;
            script.over(&format!("{slots} 1 512 {} {slots}", 1 + seed % 5), *seed, *workers, *lines);
        }
        (Some("scarce"), Some([seed, workers, lines])) => {
            let shape = format!("{} 4 32 {} {}", 4 + seed % 8, 1 + seed % 5, 4 + seed % 5);
            script.over(&shape, *seed, *workers, *lines);
        }
        (Some("long"), Some([lines])) => {
            script.lines = ["pool 1 1 4096 1 1", "first open a shared", "first alloc a n 16384 8"].map(String::from).into();
            script.lines.extend((0..*lines).map(|k| format!("1 set n long {} {k}", 8 * (k % 2048))));
        }
        (Some("adds"), Some([workers, lines])) => {
            script.lines = ["pool 1 1 1 1 1", "first open a shared", "first alloc a n 8 8"].map(String::from).into();
            script.lines.extend((0..workers * lines).map(|k| format!("{} add n long 0 1", 1 + k % workers)));
            script.lines.push(String::from("last get n long 0"));
        }
        _ => exit(1),
    }
    println!("{}", script.lines.join("\n"));
}
