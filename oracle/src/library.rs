//! The project's static library, called as C does. Every lent slice stands against
//! a page that can't be read, once on its left and once on its right; shared ones
//! can't be written. `Stub` puts the model in the library's place, whole or with
//! one fault, to try the comparison itself.
use super::calls::{self, call, lent_right, Case, CALLS};
use super::model::{
    compose, group_columns, group_zeros, h_column, is_denominator, log_zeros, m_column, Factor, Tree, Zero,
};
use super::questions::{read, Circuit};
use std::{
    ffi::c_void,
    ptr,
    sync::atomic::{AtomicU64, Ordering},
};

#[derive(Clone, Copy, PartialEq)]
pub enum Library {
    Linked,
    Stub(u64),
}

/// The linked calls; oracle/run passes a cfg for each that the archive defines.
macro_rules! linked {
    ($($cfg:ident $name:literal $symbol:ident),*) => {
        $(#[cfg($cfg)] extern "C" { fn $symbol(); })*
        fn linked(name: &str) -> Option<*const ()> {
            match name {
                $(#[cfg($cfg)] $name => Some($symbol as *const ()),)*
                _ => None,
            }
        }
    };
}
linked!(has_build "build" hyperplonk_build, has_row_sum "row_sum" hyperplonk_row_sum,
    has_lookup_m_poly "lookup_m_poly" hyperplonk_lookup_m_poly,
    has_lookup_h_poly "lookup_h_poly" hyperplonk_lookup_h_poly, has_eq_xy "eq_xy" hyperplonk_eq_xy,
    has_sizes "sizes" hyperplonk_sizes,
    has_expression_degree "expression_degree" expression_degree,
    has_expression_queries "expression_queries" expression_queries,
    has_expression_values "expression_values" expression_values,
    has_circuit_first_no "circuit_first_no" circuit_first_no);

impl Library {
    pub fn has(self, name: &str) -> bool {
        matches!(self, Library::Stub(_)) || linked(name).is_some()
    }

    /// Calls with pointers, lengths and numbers, all words of one register each.
    pub fn call(self, name: &str, a: &[usize]) -> u64 {
        let Library::Linked = self else { return stub(name, a, self) };
        let f = linked(name).unwrap();
        type W = usize;
        macro_rules! go {
            ($($i:literal $t:ty),*) => {
                unsafe { std::mem::transmute::<_, unsafe extern "C" fn($($t),*) -> u64>(f)($(a[$i]),*) }
            };
        }
        match a.len() {
            2 => go!(0 W, 1 W),
            3 => go!(0 W, 1 W, 2 W),
            4 => go!(0 W, 1 W, 2 W, 3 W),
            5 => go!(0 W, 1 W, 2 W, 3 W, 4 W),
            7 => go!(0 W, 1 W, 2 W, 3 W, 4 W, 5 W, 6 W),
            10 => go!(0 W, 1 W, 2 W, 3 W, 4 W, 5 W, 6 W, 7 W, 8 W, 9 W),
            14 => go!(0 W, 1 W, 2 W, 3 W, 4 W, 5 W, 6 W, 7 W, 8 W, 9 W, 10 W, 11 W, 12 W, 13 W),
            18 => go!(0 W, 1 W, 2 W, 3 W, 4 W, 5 W, 6 W, 7 W, 8 W, 9 W, 10 W, 11 W, 12 W, 13 W, 14 W, 15 W, 16 W, 17 W),
            n => panic!("{n} arguments"),
        }
    }

    /// Runs a case; answers what came back and every buffer after, as in `Case`.
    pub fn run(self, case: &Case, at_end: bool) -> Result<(Vec<u64>, Vec<Vec<u64>>), String> {
        let kind = call(case.call);
        // Of `answer`, the words past those written stay as they were.
        let mut answer = vec![0x5a5a; kind.returned - 1 + if at_end { 0 } else { 2 }];
        let mut rooms = vec![];
        let mut args = vec![];
        for (i, slice) in case.lent.iter().enumerate() {
            if kind.numbers.contains(&i) {
                args.push(slice[0] as usize);
                continue;
            }
            let room = Room::with(slice, at_end, i >= kind.buffers);
            args.extend([room.words as usize, slice.len()]);
            rooms.push((i, room));
        }
        if kind.returned > 1 {
            let room = Room::with(&answer, at_end, true);
            args.extend([room.words as usize, answer.len()]);
            rooms.push((kind.lent, room));
        }
        let number = self.call(case.call, &args);
        let mut after = vec![];
        for (i, room) in &rooms {
            let words = room.after()?;
            if *i == kind.lent {
                answer = words;
            } else if *i >= kind.buffers {
                after.push(words);
            }
        }
        if answer.iter().skip(kind.returned - 1).any(|w| *w != 0x5a5a) {
            return Err("words of `answer` past the last were written".into());
        }
        answer.truncate(kind.returned - 1);
        answer.insert(0, number);
        Ok((answer, after))
    }

    /// What differs between a case and the library's run of it.
    pub fn differs(self, case: &Case) -> Option<String> {
        for at_end in [true, false] {
            let side = if at_end { "right" } else { "left" };
            let (returned, after) = match self.run(case, at_end) {
                Ok(run) => run,
                Err(what) => return Some(what),
            };
            if returned != case.returned {
                return Some(format!("({side} fence) returned {returned:?}, and {:?} is due", case.returned));
            }
            for (buffer, (got, due)) in after.iter().zip(&case.after).enumerate() {
                if let Some(at) = (0..due.len()).find(|i| got[*i] != due[*i]) {
                    return Some(format!(
                        "({side} fence) buffer {buffer}, word {at}: {}, and {} is due",
                        got[at], due[at]
                    ));
                }
            }
        }
        // An `answer` too short is left as it is.
        let kind = call(case.call);
        if kind.returned > 1 {
            let mut short = vec![0x5a5a; kind.returned - 2];
            let mut lent = case.lent.clone();
            let mut args: Vec<usize> = lent.iter_mut().flat_map(|s| [s.as_mut_ptr() as usize, s.len()]).collect();
            args.extend([short.as_mut_ptr() as usize, short.len()]);
            self.call(case.call, &args);
            if short.iter().any(|w| *w != 0x5a5a) {
                return Some("a short `answer` was written".into());
            }
        }
        None
    }
}

// ---- fenced memory

extern "C" {
    pub fn mmap(at: *mut c_void, len: usize, prot: i32, flags: i32, fd: i32, offset: i64) -> *mut c_void;
    pub fn mprotect(at: *mut c_void, len: usize, prot: i32) -> i32;
    fn munmap(at: *mut c_void, len: usize) -> i32;
    pub fn signal(number: i32, handler: usize) -> usize;
    fn write(fd: i32, bytes: *const u8, len: usize) -> isize;
    fn _exit(status: i32) -> !;
}
pub const PAGE: usize = 4096;
const FILL: u64 = 0xa5a5_a5a5_a5a5_a5a5;

/// Words in pages of their own, between two pages that can't be touched.
pub struct Room {
    base: *mut u8,
    bytes: usize,
    pub words: *mut u64,
    len: usize,
}

impl Room {
    pub fn with(slice: &[u64], at_end: bool, writable: bool) -> Room {
        let bytes = (8 * slice.len()).div_ceil(PAGE) * PAGE;
        unsafe {
            let base = mmap(ptr::null_mut(), bytes + 2 * PAGE, 0, 0x22, -1, 0) as *mut u8;
            assert!(base as isize != -1, "mmap");
            let start = base.add(PAGE) as *mut u64;
            let words = if at_end { start.add(bytes / 8 - slice.len()) } else { start };
            if bytes > 0 {
                assert_eq!(mprotect(start as _, bytes, 3), 0);
                (0..bytes / 8).for_each(|i| *start.add(i) = FILL);
                ptr::copy_nonoverlapping(slice.as_ptr(), words, slice.len());
                if !writable {
                    mprotect(start as _, bytes, 1);
                }
            }
            Room { base, bytes, words, len: slice.len() }
        }
    }

    /// The slice now; an error if a word beside it was written.
    pub fn after(&self) -> Result<Vec<u64>, String> {
        let start = unsafe { self.base.add(PAGE) } as *const u64;
        let all = (0..self.bytes / 8).map(|i| unsafe { *start.add(i) }).collect::<Vec<_>>();
        let at = (self.words as usize - start as usize) / 8;
        let beside = all[..at].iter().chain(&all[at + self.len..]);
        if beside.into_iter().any(|w| *w != FILL) {
            return Err("words beside a lent slice were written".into());
        }
        Ok(all[at..][..self.len].to_vec())
    }
}

impl Drop for Room {
    fn drop(&mut self) {
        unsafe { munmap(self.base as _, self.bytes + 2 * PAGE) };
    }
}

/// The case that runs, for the word on a fault.
pub static RUNNING: AtomicU64 = AtomicU64::new(0);

extern "C" fn on_fault(_: i32) {
    let text = format!(
        "case {}: a word outside the lent slices was touched, or the stack ran out\n",
        RUNNING.load(Ordering::Relaxed)
    );
    unsafe {
        write(1, text.as_ptr(), text.len());
        _exit(1)
    }
}

/// From here on a fault in a call names its case and ends with status 1.
pub fn catch_faults() {
    unsafe {
        signal(11, on_fault as usize);
        signal(7, on_fault as usize);
    }
}

// ---- the model in the library's place

pub const FAULTS: [&str; 35] = [
    "none",
    "one word of the first buffer",
    "a word past those written",
    "15 leaves its buffer as it was",
    "a refusal writes",
    "the last returned number",
    "a row sum of 0",
    "the word after the first slice is read",
    "the word before the last slice is written",
    "sizes: Items are visited",
    "sizes: a list's base is visited once for each expression",
    "sizes: the words of one column too few",
    "sizes: a refusal keeps its numbers",
    "sizes: question 11 is not asked",
    "17 leaves its buffer as it was",
    "17 makes the nodes 0",
    "17 keeps its numbers",
    "17 is not given",
    "17 before 15",
    "17: row 0 of a copied column is asked",
    "17: identity factors are asked",
    "17: permutation factors are not asked",
    "17: the table is not asked",
    "17: row 0 of a lookup is not asked",
    "lookup_h_poly: 17 before 14",
    "lookup_h_poly: 17: the input is not asked",
    "groups: the second member's inputs are not counted",
    "groups: h of the first member only",
    "groups: m and h for each lookup",
    "18 is not asked",
    "18 after 10",
    "18: a number that comes back is allowed",
    "18: tables of unlike width are allowed",
    "18: equal tables at other nodes are refused",
    "10: a group's degree is its first lookup's",
];

/// The factors of a build or of h alone that are zero; none where a build is refused by 1 to 13.
fn zeros(name: &str, lent: &[Vec<u64>]) -> Vec<Zero> {
    let slices: Vec<&[u64]> = lent.iter().map(|s| &s[..]).collect();
    match name {
        "build" => lent_right(&slices).map_or(vec![], |c| log_zeros(&c, slices[1], slices[2], slices[3])),
        "lookup_h_poly" => group_zeros(&[slices[1]], slices[2], slices[4][0]),
        _ => vec![],
    }
}

/// The circuit words with a group for each lookup.
fn ungrouped(words: &[u64]) -> Vec<u64> {
    let mut words = words.to_vec();
    let (start, count) = (words[20] as usize, words[21]);
    (0..count).for_each(|i| words[start + i as usize] = i);
    words
}

/// The words of a group's column of this kind (0 is m, 1 is h) if it were of the first member only.
fn first_only(c: &Circuit, columns: &mut [u64], kind: usize, gamma: u64) {
    let rows = 1 << c.k;
    let compressed_at = c.instances.len() + c.copied().len();
    let m_at = compressed_at + 2 * c.lookups.len();
    let built: Vec<Vec<u64>> = columns.chunks(rows).map(<[u64]>::to_vec).collect();
    let groups = c.group_sizes().len();
    for (g, (inputs, table)) in group_columns(c, &built[compressed_at..m_at]).into_iter().enumerate() {
        let to = match kind {
            0 => m_column(&inputs[..1], table),
            _ => h_column(&inputs[..1], table, &built[m_at + g], gamma),
        };
        columns[(m_at + kind * groups + g) * rows..][..rows].copy_from_slice(&to.unwrap());
    }
}

/// The number of a circuit if 18 were asked otherwise.
fn otherwise(fault: u64, words: &[u64], number: u64) -> u64 {
    let later = || read(&ungrouped(words)).err().unwrap_or(0);
    let numbers = |words: &[u64]| words[words[20] as usize..][..words[21] as usize].to_vec();
    match (fault, number) {
        (29, 18) => later(),
        (30, 18) if later() == 10 => 10,
        (31, 18) => {
            // The numbers that come back become new ones.
            let (mut seen, mut words) = (vec![], words.to_vec());
            let all = numbers(&words);
            let start = words[20] as usize;
            for (i, group) in all.iter().enumerate() {
                if i == 0 || all[i - 1] != *group {
                    seen.push(*group);
                }
                words[start + i] = seen.len() as u64 - 1;
            }
            let rule = |two: &[u64]| two[1] <= two[0] || two[1] == two[0] + 1;
            if all[0] == 0 && all.windows(2).all(rule) {
                read(&words).err().unwrap_or(0)
            } else {
                18
            }
        }
        (32, 18) => {
            let c = read(&ungrouped(words));
            let tables = |i: usize| c.as_ref().unwrap().lookups[i].iter().map(|p| p.1.clone()).collect::<Vec<_>>();
            let all = numbers(words);
            let rule = |i: &usize| all[*i] == all[i - 1] || all[i - 1].checked_add(1) == Some(all[*i]);
            let alike = |i: &usize| {
                let (a, b) = (tables(i - 1), tables(*i));
                let n = a.len().min(b.len());
                all[*i] != all[i - 1] || a[..n] == b[..n]
            };
            let passed = c.is_ok() && all[0] == 0 && (1..all.len()).all(|i| rule(&i) && alike(&i));
            if passed {
                0
            } else {
                18
            }
        }
        (33, 0) if !read(words).unwrap().groups_of_one() => 18,
        (34, 10) if read(&ungrouped(words)).is_ok() => 0,
        _ => number,
    }
}

/// The nodes visited if a list's base were for each of its expressions.
fn visits_of_bases(t: &Tree) -> u64 {
    let of = visits_of_bases;
    1 + match t {
        Tree::Negated(a) | Tree::Scaled(a, _) => of(a),
        Tree::Sum(a, b) | Tree::Product(a, b) => of(a) + of(b),
        Tree::List(list, base) => list.iter().map(|e| of(e) + of(base)).sum(),
        _ => 0,
    }
}

/// The number of a call that asks for other zeros than document 01's denominators, or asks at another time.
fn numbered(fault: u64, name: &str, lent: &[Vec<u64>], number: u64) -> u64 {
    let asked = |zero: &Zero| match fault {
        17 => false,
        19 => is_denominator(zero) || zero.0 == Factor::Permutation,
        20 => is_denominator(zero) || (zero.0 == Factor::Identity && zero.1 > 0),
        21 => is_denominator(zero) && zero.0 != Factor::Permutation,
        22 => is_denominator(zero) && zero.0 != Factor::Table,
        23 => is_denominator(zero) && (zero.1 > 0 || zero.0 == Factor::Permutation),
        25 => is_denominator(zero) && !(name == "lookup_h_poly" && zero.0 == Factor::Input(0)),
        _ => is_denominator(zero),
    };
    let early = (fault == 18 && number == 15) || (fault == 24 && number == 14 && name == "lookup_h_poly");
    if number != 0 && number != 17 && !early {
        return number;
    }
    match zeros(name, lent).iter().any(asked) {
        true => 17,
        false if early => number,
        false => 0,
    }
}

fn stub(name: &str, a: &[usize], library: Library) -> u64 {
    let Library::Stub(fault) = library else { unreachable!() };
    let kind = CALLS.iter().find(|c| c.name == name).unwrap();
    let mut at = 0;
    let (mut lent, mut places) = (vec![], vec![]);
    for i in 0..kind.lent {
        if kind.numbers.contains(&i) {
            lent.push(vec![a[at] as u64]);
            places.push(0);
            at += 1;
        } else {
            lent.push((0..a[at + 1]).map(|i| unsafe { *(a[at] as *const u64).add(i) }).collect());
            places.push(a[at]);
            at += 2;
        }
    }
    let mut case = calls::answer(name, lent);
    let number = case.returned[0];
    let needed = (case.after.first().zip(case.lent.get(kind.buffers)))
        .map_or(0, |(now, was)| (0..now.len()).rev().find(|i| now[*i] != was[*i]).map_or(0, |i| i + 1));
    let mut bump = |at: usize| case.after.get_mut(0).and_then(|b| b.get_mut(at)).map(|w| *w ^= 1);
    let last = case.returned.len() - 1;
    match fault {
        1 if number == 0 => drop(bump(0)),
        2 if number == 0 => drop(bump(needed)),
        3 if number == 15 => case.after = case.lent[kind.buffers..].to_vec(),
        4 if ![0, 15, 17].contains(&number) => drop(bump(0)),
        5 => case.returned[last] ^= 1,
        6 if name == "row_sum" => case.returned[1] = 0,
        7 => {
            let first = (places[0] == 0) as usize;
            drop(unsafe { ptr::read_volatile((a[first] as *const u64).add(a[first + 1])) })
        }
        8 => unsafe { ptr::write_volatile((places[kind.lent - 1] as *mut u64).sub(1), 0) },
        14 if number == 17 => case.after = case.lent[kind.buffers..].to_vec(),
        15 if number == 17 && name == "build" => case.after[1].fill(0),
        16 if number == 17 && name == "build" => case.returned[1..].copy_from_slice(&[4, 34, 1]),
        17..=25 => case.returned[0] = numbered(fault, name, &case.lent, number),
        26 | 27 if number == 0 && name == "build" => {
            let (c, gamma) = (read(&case.lent[0]).unwrap(), *case.lent[3].last().unwrap());
            first_only(&c, &mut case.after[0], fault as usize - 26, gamma);
        }
        28 if number == 0 && name == "sizes" => {
            let c = read(&case.lent[0]).unwrap();
            case.returned[1] += 2 * (c.lookups.len() - c.group_sizes().len() << c.k) as u64;
        }
        29..=34 if ["build", "row_sum", "sizes"].contains(&name) => {
            case.returned[0] = otherwise(fault, &case.lent[0], number);
        }
        _ if name != "sizes" => {}
        9 if number == 0 => case.returned[3] = case.returned[2],
        10 if number == 0 => case.returned[3] = visits_of_bases(&compose(&read(&case.lent[0]).unwrap())),
        11 if number == 0 => case.returned[1] = case.returned[1].saturating_sub(1 << case.lent[0][0]),
        12 if number != 0 => case.returned[1..].copy_from_slice(&[4, 34, 32]),
        13 if number == 11 => case.returned[0] = 0,
        _ => {}
    }
    for (words, place) in case.after.iter().zip(&places[kind.buffers..]) {
        words.iter().enumerate().for_each(|(i, w)| unsafe { *(*place as *mut u64).add(i) = *w });
    }
    if kind.returned > 1 && a[at + 1] >= last {
        case.returned[1..].iter().enumerate().for_each(|(i, w)| unsafe { *(a[at] as *mut u64).add(i) = *w });
    }
    case.returned[0]
}
