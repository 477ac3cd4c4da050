//! The calls as documents 01 and 02 word them, by the model: what each returns and
//! leaves in its buffers. And the case format of the stored answers.
use super::model::{self, columns, compose, composed_words, eq_xy, h_column, m_column, order, visits, Place, P};
use super::questions::{read, Circuit};
use std::fmt::Write;

/// A call by name: how many slices are lent, which of them are numbers, from
/// where on they are buffers, and how many words come back.
pub struct Call {
    pub name: &'static str,
    pub lent: usize,
    pub numbers: &'static [usize],
    pub buffers: usize,
    pub returned: usize,
}

pub const CALLS: [Call; 6] = [
    Call { name: "build", lent: 6, numbers: &[], buffers: 4, returned: 4 },
    Call { name: "row_sum", lent: 6, numbers: &[], buffers: 6, returned: 2 },
    Call { name: "lookup_m_poly", lent: 4, numbers: &[0], buffers: 3, returned: 1 },
    Call { name: "lookup_h_poly", lent: 6, numbers: &[0, 4], buffers: 5, returned: 1 },
    Call { name: "eq_xy", lent: 3, numbers: &[0], buffers: 2, returned: 1 },
    Call { name: "sizes", lent: 1, numbers: &[], buffers: 1, returned: 4 },
];

pub fn call(name: &str) -> &'static Call {
    CALLS.iter().find(|c| c.name == name).unwrap()
}

#[derive(Clone, Debug, PartialEq)]
pub struct Case {
    pub call: &'static str,
    /// Every slice in the call's order; a number is a slice of one.
    pub lent: Vec<Vec<u64>>,
    pub returned: Vec<u64>,
    /// Every buffer after the call.
    pub after: Vec<Vec<u64>>,
}

impl Case {
    /// A block of the case format.
    pub fn text(&self) -> String {
        let mut out = format!("{}\n", self.call);
        for slice in self.lent.iter().chain([&self.returned]).chain(&self.after) {
            write!(out, "{}", slice.len()).unwrap();
            slice.iter().for_each(|w| write!(out, " {w}").unwrap());
            out.push('\n');
        }
        out
    }

    /// The case of a block, or none where its shape is another.
    pub fn of_text(text: &str) -> Option<Case> {
        let mut lines = text.lines();
        let name = lines.next()?;
        let call = CALLS.iter().find(|c| c.name == name)?;
        let mut slices = vec![];
        for line in lines {
            let words: Vec<u64> = line.split(' ').map(|w| w.parse().ok()).collect::<Option<_>>()?;
            if words[0] != words.len() as u64 - 1 {
                return None;
            }
            slices.push(words[1..].to_vec());
        }
        if slices.len() != call.lent + 1 + call.lent - call.buffers {
            return None;
        }
        let after = slices.split_off(call.lent + 1);
        let returned = slices.pop()?;
        Some(Case { call: call.name, lent: slices, returned, after })
    }
}

fn ask(yes: bool, number: u64) -> Result<(), u64> {
    if yes {
        Ok(())
    } else {
        Err(number)
    }
}

fn below_p(slices: &[&[u64]]) -> bool {
    slices.iter().all(|s| s.iter().all(|w| *w < P))
}

/// The case with the model's answer; the calls' names are those of CALLS.
pub fn answer(name: &str, lent: Vec<Vec<u64>>) -> Case {
    let kind = call(name);
    assert_eq!(lent.len(), kind.lent);
    let mut after = lent[kind.buffers..].to_vec();
    let slices: Vec<&[u64]> = lent[..kind.buffers].iter().map(|s| &s[..]).collect();
    let returned = match name {
        "build" => build(&slices, &mut after),
        "row_sum" => match row_sum(&slices) {
            Ok(sum) => vec![0, sum],
            Err(number) => vec![number, 0],
        },
        "sizes" => match sizes(slices[0]) {
            Ok([columns, nodes, visits]) => vec![0, columns, nodes, visits],
            Err(number) => vec![number, 0, 0, 0],
        },
        _ => vec![stage(name, &slices, &mut after[0]).err().unwrap_or(0)],
    };
    Case { call: kind.name, lent, returned, after }
}

/// Questions 1 to 11 with 18, then 12 and 13.
pub fn lent_right(lent: &[&[u64]]) -> Result<Circuit, u64> {
    let c = read(lent[0])?;
    let user = c.challenges() as usize;
    let exact = lent[1].len() == c.instance_words() && lent[2].len() == c.witness_words() && lent[3].len() == user + 2;
    ask(exact, 12)?;
    ask(below_p(&lent[1..4]), 13)?;
    Ok(c)
}

/// As `lent_right`, then 14.
pub fn asked(lent: &[&[u64]], buffers: &[Vec<u64>]) -> Result<Circuit, u64> {
    let c = lent_right(lent)?;
    ask(buffers[0].len() >= c.column_words() && buffers[1].len() >= composed_words(&c).len(), 14)?;
    Ok(c)
}

fn build(lent: &[&[u64]], after: &mut [Vec<u64>]) -> Vec<u64> {
    let c = match asked(lent, after) {
        Ok(c) => c,
        Err(number) => return vec![number, 0, 0, 0],
    };
    let needed = c.column_words();
    match columns(&c, lent[1], lent[2], lent[3]) {
        Err(number) => {
            after[0][..needed].fill(0);
            vec![number, 0, 0, 0]
        }
        Ok(built) => {
            let (words, nodes) = (built.words(), composed_words(&c));
            assert_eq!(words.len(), needed);
            after[0][..needed].copy_from_slice(&words);
            after[1][..nodes.len()].copy_from_slice(&nodes);
            vec![0, needed as u64, nodes.len() as u64 / 4, c.parts()]
        }
    }
}

/// The polynomials by number, of column words as written: instance, preprocess,
/// witness, permutation, m, h, z.
pub fn polys<'a>(c: &'a Circuit, witness: &'a [u64], columns: &'a [u64]) -> Vec<&'a [u64]> {
    let rows = 1 << c.k;
    let built: Vec<&[u64]> = columns.chunks(rows).collect();
    let (instance, rest) = built.split_at(c.instances.len());
    let (permutation, rest) = rest.split_at(c.copied().len());
    let m_h_z = &rest[2 * c.lookups.len()..];
    (instance.iter().copied())
        .chain(c.preprocess.iter().map(|p| &p[..]))
        .chain(witness.chunks(rows))
        .chain(permutation.iter().copied())
        .chain(m_h_z.iter().copied())
        .collect()
}

fn row_sum(lent: &[&[u64]]) -> Result<u64, u64> {
    let [circuit, witness, columns, nodes, challenges, y] = lent else { unreachable!() };
    let c = read(circuit)?;
    let exact = witness.len() == c.witness_words()
        && columns.len() == c.column_words()
        && *nodes == composed_words(&c)
        && challenges.len() == c.challenges() as usize + 3
        && y.len() == c.k;
    ask(exact && below_p(&[witness, columns, challenges, y]), 16)?;
    let (order, polys) = (order(c.k), polys(&c, witness, columns));
    let place = Place { k: c.k, order: &order, polys: &polys, challenges, y };
    let tree = compose(&c);
    Ok((0..1 << c.k).map(|b| tree.value(&place, b)).fold(0, model::add))
}

/// Column words, nodes of the composed expression, and nodes visited by one evaluation of it on one row.
fn sizes(circuit: &[u64]) -> Result<[u64; 3], u64> {
    let c = read(circuit)?;
    Ok([c.column_words() as u64, composed_words(&c).len() as u64 / 4, visits(&c)])
}

/// A log of zeros: instance and witness words; and challenges that are not, none a simple sum or product of others, so that
/// no denominator is likely to be zero.
pub fn plain_log(c: &Circuit) -> [Vec<u64>; 3] {
    let challenges = (0..c.challenges() + 2).map(|i| model::pow(1000003 + i, 65537)).collect();
    [vec![0; c.instance_words()], vec![0; c.witness_words()], challenges]
}

/// What building needs is what `sizes` answers: of an accepted case of that call, builds with buffers of these words,
/// of one node word less and, where there is one, of one column word less.
pub fn sized_builds(case: &Case) -> Vec<Case> {
    if case.call != "sizes" || case.returned[0] != 0 {
        return vec![];
    }
    let (columns, nodes) = (case.returned[1] as usize, 4 * case.returned[2] as usize);
    let [instance, witness, challenges] = plain_log(&read(&case.lent[0]).unwrap());
    let build = |columns: usize, nodes: usize| {
        let (circuit, buffers) = (case.lent[0].clone(), [columns, nodes].map(|n| vec![0x5a5a; n]));
        let [columns, nodes] = buffers;
        answer("build", vec![circuit, instance.clone(), witness.clone(), challenges.clone(), columns, nodes])
    };
    let mut out = vec![build(columns, nodes), build(columns, nodes - 1)];
    if columns > 0 {
        out.push(build(columns - 1, nodes));
    }
    let exact = &out[0].returned;
    assert!([15, 17].contains(&exact[0]) || exact[..3] == case.returned[..3], "a build with exact buffers: {exact:?}");
    assert!(out[1..].iter().all(|b| b.returned == [14, 0, 0, 0]), "a build with a buffer too short");
    out
}

fn stage(name: &str, lent: &[&[u64]], out: &mut Vec<u64>) -> Result<(), u64> {
    let k = lent[0][0];
    ask((1..=10).contains(&k), 2)?;
    let rows = 1usize << k;
    let exact = match name {
        "eq_xy" => lent[1].len() == k as usize,
        "lookup_m_poly" => lent[1].len() == rows && lent[2].len() == rows,
        _ => lent[1].len() == rows && lent[2].len() == rows && lent[3].len() == rows,
    };
    ask(exact, 12)?;
    ask(below_p(&lent[1..]), 13)?;
    ask(out.len() >= rows, 14)?;
    let column = match name {
        "eq_xy" => Ok((0..rows).map(|b| eq_xy(lent[1], b)).collect()),
        "lookup_m_poly" => m_column(&[lent[1]], lent[2]),
        _ => h_column(&[lent[1]], lent[2], lent[3], lent[4][0]),
    };
    // 15 or 17: the words needed become 0.
    out[..rows].copy_from_slice(column.as_ref().unwrap_or(&vec![0; rows]));
    column.map(|_: Vec<u64>| ())
}
