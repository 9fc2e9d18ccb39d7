//! A plain Rust program that answers queries as `fmem query` does, over orders of 24 bytes, a layout that is compiled in:
//! int `id`, short `kind`, two bytes of padding, long `price`, four bytes `tags`, four of padding, all little.
//!
//! `queries parsed QUERY FILE` reads the query when it runs; `queries fixed QUERY FILE` has a loop of its own for each
//! query of the benchmark, and knows no other. `queries streamed QUERY FILE` is as parsed for a file of any length, of
//! which it holds one chunk: so many whole records as fit in 1 MiB, as `fmem stream` does.
use std::fmt::Write as _;
use std::fs::File;
use std::io::{self, Read as _, Write as _};
use std::process::exit;

const SIZE: usize = 24;
const LIMIT: usize = 67_108_864;
const CHUNK: usize = 1_048_576 / SIZE * SIZE;

fn id(r: &[u8]) -> i64 {
    i32::from_le_bytes(r[0..4].try_into().unwrap()).into()
}
fn kind(r: &[u8]) -> i64 {
    i16::from_le_bytes(r[4..6].try_into().unwrap()).into()
}
fn price(r: &[u8]) -> i64 {
    i64::from_le_bytes(r[8..16].try_into().unwrap())
}
fn tags(r: &[u8]) -> impl Iterator<Item = i64> + '_ {
    r[16..20].iter().map(|b| (*b as i8).into())
}

#[derive(Clone, Copy)]
enum Field {
    Id,
    Kind,
    Price,
    Tags,
}

impl Field {
    fn of(path: &str) -> Option<Field> {
        Some(match path {
            ".id" => Field::Id,
            ".kind" => Field::Kind,
            ".price" => Field::Price,
            ".tags[]" => Field::Tags,
            _ => return None,
        })
    }

    fn each(self, r: &[u8], mut see: impl FnMut(i64)) {
        match self {
            Field::Id => see(id(r)),
            Field::Kind => see(kind(r)),
            Field::Price => see(price(r)),
            Field::Tags => tags(r).for_each(see),
        }
    }
}

enum Found {
    Count(u64),
    Sum(Field, i128),
    Min(Field, Option<i64>),
    Max(Field, Option<i64>),
    List(Field, Vec<i64>),
}

impl Found {
    fn of(item: &str) -> Option<Found> {
        if item == "count" {
            return Some(Found::Count(0));
        }
        let (fold, path) = item.strip_suffix(')')?.split_once('(')?;
        let field = Field::of(path)?;
        Some(match fold {
            "sum" => Found::Sum(field, 0),
            "min" => Found::Min(field, None),
            "max" => Found::Max(field, None),
            "list" => Found::List(field, Vec::new()),
            _ => return None,
        })
    }

    fn add(&mut self, r: &[u8]) {
        match self {
            Found::Count(n) => *n += 1,
            Found::Sum(field, sum) => field.each(r, |n| *sum += i128::from(n)),
            Found::Min(field, least) => field.each(r, |n| *least = Some(least.map_or(n, |m| m.min(n)))),
            Found::Max(field, most) => field.each(r, |n| *most = Some(most.map_or(n, |m| m.max(n)))),
            Found::List(field, all) => field.each(r, |n| all.push(n)),
        }
    }

    fn print(&self, item: &str, text: &mut String) {
        let end = |n: &Option<i64>| n.map_or("none".into(), |n| n.to_string());
        text.push_str(item);
        match self {
            Found::Count(n) => write!(text, " {n}").unwrap(),
            Found::Sum(_, sum) => write!(text, " {sum}").unwrap(),
            Found::Min(_, n) | Found::Max(_, n) => write!(text, " {}", end(n)).unwrap(),
            Found::List(_, all) => all.iter().for_each(|n| write!(text, " {n}").unwrap()),
        }
        text.push('\n');
    }
}

struct Condition {
    field: Field,
    holds: fn(&i64, &i64) -> bool,
    literal: i64,
}

impl Condition {
    fn of(text: &str) -> Option<Condition> {
        let (path, behind) = text.split_at(text.find(['=', '!', '<', '>'])?);
        let holds: [(&str, fn(&i64, &i64) -> bool); 6] =
            [("<=", i64::le), (">=", i64::ge), ("!=", i64::ne), ("<", i64::lt), (">", i64::gt), ("=", i64::eq)];
        let (operator, holds) = holds.into_iter().find(|o| behind.starts_with(o.0))?;
        Some(Condition { field: Field::of(path)?, holds, literal: behind[operator.len()..].parse().ok()? })
    }

    fn is_of(&self, r: &[u8]) -> bool {
        let mut is = true;
        self.field.each(r, |n| is &= (self.holds)(&n, &self.literal));
        is
    }
}

struct Query<'q> {
    names: Vec<&'q str>,
    found: Vec<Found>,
    conditions: Vec<Condition>,
}

impl Query<'_> {
    fn of(text: &str) -> Option<Query<'_>> {
        let (items, conditions) = text.split_once(" where ").map_or((text, None), |(i, c)| (i, Some(c)));
        let names: Vec<&str> = items.split(',').collect();
        let found = names.iter().map(|item| Found::of(item)).collect::<Option<_>>()?;
        let conditions = conditions.map_or(Some(Vec::new()), |c| c.split(" and ").map(Condition::of).collect())?;
        Some(Query { names, found, conditions })
    }

    fn add(&mut self, bytes: &[u8]) {
        for r in bytes.chunks_exact(SIZE) {
            if self.conditions.iter().all(|c| c.is_of(r)) {
                self.found.iter_mut().for_each(|f| f.add(r));
            }
        }
    }

    fn answer(&self) -> String {
        let mut text = String::new();
        self.names.iter().zip(&self.found).for_each(|(item, f)| f.print(item, &mut text));
        text
    }
}

fn parsed(query: &str, bytes: &[u8]) -> Option<String> {
    let mut query = Query::of(query)?;
    query.add(bytes);
    Some(query.answer())
}

fn streamed(query: &mut Query, file: &str) -> io::Result<()> {
    let mut file = File::open(file)?;
    let mut chunk = vec![0; CHUNK];
    loop {
        let filled = fill(&mut file, &mut chunk)?;
        if filled % SIZE != 0 {
            exit(6);
        }
        query.add(&chunk[..filled]);
        if filled < CHUNK {
            return Ok(());
        }
    }
}

/// How many bytes the file still had, or the chunk's size where it had more.
fn fill(file: &mut File, chunk: &mut [u8]) -> io::Result<usize> {
    let mut filled = 0;
    while filled < chunk.len() {
        match file.read(&mut chunk[filled..])? {
            0 => break,
            count => filled += count,
        }
    }
    Ok(filled)
}

fn fixed(query: &str, bytes: &[u8]) -> Option<String> {
    let records = bytes.chunks_exact(SIZE);
    Some(match query {
        "count" => format!("count {}\n", records.len()),
        "count where .kind>9" => format!("count {}\n", records.filter(|r| kind(r) > 9).count()),
        "sum(.price)" => format!("sum(.price) {}\n", records.map(|r| i128::from(price(r))).sum::<i128>()),
        "count,sum(.price),min(.price),max(.id) where .kind>=2" => {
            let (mut count, mut sum, mut least, mut most) = (0u64, 0i128, i64::MAX, i64::MIN);
            for r in records.filter(|r| kind(r) >= 2) {
                count += 1;
                sum += i128::from(price(r));
                least = least.min(price(r));
                most = most.max(id(r));
            }
            format!("count {count}\nsum(.price) {sum}\nmin(.price) {least}\nmax(.id) {most}\n")
        }
        "min(.tags[]),max(.tags[])" => {
            let (mut least, mut most) = (i64::MAX, i64::MIN);
            for tag in records.flat_map(tags) {
                least = least.min(tag);
                most = most.max(tag);
            }
            format!("min(.tags[]) {least}\nmax(.tags[]) {most}\n")
        }
        "list(.price)" => listed("list(.price)", records.map(price)),
        "list(.tags[]) where .kind>=2" => listed("list(.tags[])", records.filter(|r| kind(r) >= 2).flat_map(tags)),
        _ => return None,
    })
}

fn listed(item: &str, numbers: impl Iterator<Item = i64>) -> String {
    let mut text = String::from(item);
    numbers.for_each(|n| write!(text, " {n}").unwrap());
    text.push('\n');
    text
}

fn whole(file: &str) -> Vec<u8> {
    let Ok(bytes) = std::fs::read(file) else { exit(3) };
    if bytes.len() > LIMIT || bytes.len() % SIZE != 0 {
        exit(6);
    }
    bytes
}

fn main() {
    let words: Vec<String> = std::env::args().skip(1).collect();
    let [how, query, file] = &words[..] else { exit(1) };
    let answer = match how.as_str() {
        "parsed" => parsed(query, &whole(file)),
        "fixed" => fixed(query, &whole(file)),
        "streamed" => Query::of(query).map(|mut query| {
            streamed(&mut query, file).unwrap_or_else(|_| exit(3));
            query.answer()
        }),
        _ => None,
    };
    let Some(text) = answer else { exit(1) };
    if std::io::stdout().write_all(text.as_bytes()).is_err() {
        exit(8);
    }
}
