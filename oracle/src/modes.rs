//! The oracle's command line: `oracle MODE [--seed S] [--count N] ..`.
use super::bench;
use super::calls::{sized_builds, Case, CALLS};
use super::cases::{case, fixed, with_sizes};
use super::differences::differences;
use super::examples::examples;
use super::expressions;
use super::library::{catch_faults, Library, FAULTS, RUNNING};
use super::prove::through_prove;
use super::questions::read;
use super::stored;
use std::{collections::BTreeMap, fs, process::exit, sync::atomic::Ordering};

fn option(name: &str) -> Option<String> {
    let mut args = std::env::args().skip_while(|a| a != name);
    args.next()?;
    args.next()
}

fn number(name: &str, default: u64) -> u64 {
    option(name).map_or(default, |v| v.parse().unwrap_or_else(|_| panic!("{name} {v}: a number is due")))
}

pub fn main() {
    let mode = std::env::args().nth(1).unwrap_or_default();
    let (seed, count) = (number("--seed", 1), number("--count", 1000));
    let library = option("--stub").map_or(Library::Linked, |n| Library::Stub(n.parse().unwrap()));
    let seeded = (0..count).map(|i| case(seed, i, false));
    match mode.as_str() {
        "cases" => {
            print!("{}", stored::head(&format!("oracle/run cases --seed {seed} --count {count}")));
            with_sizes(seeded).for_each(|case| print!("\n{}", case.text()));
        }
        "compare" => match option("--file") {
            Some(file) => compare(library, stored::read(&file).into_iter()),
            None => compare(library, with_sizes(fixed().chain(seeded))),
        },
        "expressions" => expressions::compare(library, seed, count),
        "sample" => print!("{}", stored::sample()),
        "small" => print!("{}", stored::small()),
        "bench" => bench::sheets(Library::Linked),
        "field" => bench::field(),
        "prove" => through_prove(seed, count),
        "differences" => differences(),
        "examples" => examples(),
        "survey" => survey(with_sizes(seeded)),
        // How many ways `--stub` has, by mode.
        "faults" => println!("compare {}\nexpressions {}", FAULTS.len(), expressions::FAULTS.len()),
        _ => {
            eprintln!("oracle: see the head of oracle/run for the modes");
            exit(2);
        }
    }
}

/// How many cases are held to the model and not to the Rust: those with a zero denominator, and those of accepted
/// circuits with a group of two lookups or more. And how many of accepted circuits with all groups of one.
#[derive(Default)]
struct LeftOut {
    zero: BTreeMap<&'static str, u64>,
    larger: BTreeMap<&'static str, u64>,
    of_one: BTreeMap<&'static str, u64>,
}

impl LeftOut {
    fn note(&mut self, case: &Case) {
        let number = case.returned[0];
        if number == 17 {
            *self.zero.entry(case.call).or_insert(0) += 1;
        } else if number == 0 || number == 15 {
            let of = match case.call {
                "build" | "row_sum" | "sizes" if !read(&case.lent[0]).unwrap().groups_of_one() => &mut self.larger,
                _ => &mut self.of_one,
            };
            *of.entry(case.call).or_insert(0) += 1;
        }
    }
    fn tell(&self) {
        let of = |map: &BTreeMap<&str, u64>, call: &str| map.get(call).copied().unwrap_or(0);
        let three =
            |map| format!("{} builds, {} row sums, {} sizes", of(map, "build"), of(map, "row_sum"), of(map, "sizes"));
        println!(
            "held to the model and not to the Rust, a denominator being zero: {} builds, {} of h alone",
            of(&self.zero, "build"),
            of(&self.zero, "lookup_h_poly")
        );
        println!(
            "held to the model and not to the Rust, a group having two lookups or more: {}; with all groups of one: {}",
            three(&self.larger),
            three(&self.of_one)
        );
    }
}

/// Runs the cases through the library, and after sizes the builds that these allow or do not; ends with
/// 'N compared, M differ'.
fn compare(library: Library, cases: impl Iterator<Item = Case>) {
    let (mut compared, mut differ, mut skipped, mut left_out) = (0, 0, BTreeMap::new(), LeftOut::default());
    if let Library::Stub(fault) = library {
        println!("the model stands in the library's place; fault: {}", FAULTS[fault as usize]);
    }
    catch_faults();
    for (i, case) in cases.enumerate() {
        RUNNING.store(i as u64, Ordering::Relaxed);
        if !library.has(case.call) {
            *skipped.entry(case.call).or_insert(0) += 1;
            continue;
        }
        compared += 1;
        left_out.note(&case);
        let builds = if library.has("build") { sized_builds(&case) } else { vec![] };
        let differs = |case: Case| library.differs(&case).map(|what| (case, what));
        if let Some((case, what)) = [case].into_iter().chain(builds).find_map(differs) {
            differ += 1;
            if differ <= 5 {
                let file = format!("target/oracle/differs-{differ}.txt");
                let told = fs::write(&file, case.text()).map_or(String::new(), |_| format!("; the case is in {file}"));
                println!("case {i}, {}: {what}{told}", case.call);
            }
            if library != Library::Linked {
                break;
            }
        }
    }
    for call in CALLS.iter().filter(|c| !library.has(c.name)) {
        let cases = skipped.get(call.name).unwrap_or(&0);
        println!("skipped: {} ({cases} cases), the library has no hyperplonk_{}", call.name, call.name);
    }
    left_out.tell();
    println!("{compared} compared, {differ} differ");
    exit((differ > 0) as i32);
}

/// What the seeded cases are made of.
fn survey(cases: impl Iterator<Item = Case>) {
    let mut numbers = BTreeMap::new();
    let (mut seen, mut left_out) = (BTreeMap::new(), LeftOut::default());
    for case in cases {
        left_out.note(&case);
        *numbers.entry((case.call, case.returned[0])).or_insert(0) += 1;
        stored::features(&case).into_iter().for_each(|f| *seen.entry(f).or_insert(0) += 1);
    }
    for call in CALLS.iter() {
        let of = numbers.iter().filter(|n| n.0 .0 == call.name);
        println!("{}: {}", call.name, of.map(|(n, count)| format!("{}×{count}", n.1)).collect::<Vec<_>>().join(" "));
    }
    left_out.tell();
    seen.into_iter().for_each(|(f, n)| println!("{n:>6} {f}"));
}
