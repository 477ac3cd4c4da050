//! The Rust's own `preprocess`, `prove` and `verify`, over a commitment that is the
//! column itself and a transcript read from a list: the columns that reach the
//! opening are those that the stages give.
use super::super::{verifier::pcs_query, HyperPlonk};
use super::generate;
use super::given::{build, f, words, Expr, Info, Log, Poly};
use super::model::columns;
use super::questions::read;
use super::sections::Rng;
use crate::{
    backend::{PlonkishBackend, PlonkishCircuit},
    pcs::{Evaluation, PolynomialCommitmentScheme},
    rand::RngCore,
    util::{arithmetic::Goldilocks as F, parallel::set_num_threads, transcript::*, Itertools},
    Error,
};
use std::{cell::RefCell, collections::VecDeque};

thread_local!(static OPENED: RefCell<Vec<Vec<F>>> = Default::default());

#[derive(Clone, Debug)]
pub struct Clear;

impl PolynomialCommitmentScheme<F> for Clear {
    type Param = ();
    type ProverParam = ();
    type VerifierParam = ();
    type Polynomial = Poly;
    type Commitment = Vec<Vec<F>>;
    type CommitmentChunk = Vec<F>;

    fn setup(_: usize, _: usize, _: impl RngCore) -> Result<(), Error> {
        Ok(())
    }
    fn trim(_: &(), _: usize, _: usize) -> Result<((), ()), Error> {
        Ok(((), ()))
    }
    fn commit(_: &(), poly: &Poly) -> Result<Vec<Vec<F>>, Error> {
        Ok(vec![poly.evals.clone()])
    }
    fn batch_commit<'a>(_: &(), polys: impl IntoIterator<Item = &'a Poly>) -> Result<Vec<Vec<Vec<F>>>, Error> {
        Ok(polys.into_iter().map(|poly| vec![poly.evals.clone()]).collect())
    }
    fn open(
        _: &(),
        _: &Poly,
        _: &Vec<Vec<F>>,
        _: &Vec<F>,
        _: &F,
        _: &mut impl TranscriptWrite<Vec<F>, F>,
    ) -> Result<(), Error> {
        unreachable!()
    }
    fn batch_open<'a>(
        _: &(),
        polys: impl IntoIterator<Item = &'a Poly>,
        _: impl IntoIterator<Item = &'a Vec<Vec<F>>>,
        _: &[Vec<F>],
        _: &[Evaluation<F>],
        _: &mut impl TranscriptWrite<Vec<F>, F>,
    ) -> Result<(), Error> {
        let polys = polys.into_iter().map(|poly| poly.evals.clone()).collect();
        OPENED.with(|opened| *opened.borrow_mut() = polys);
        Ok(())
    }
    fn read_commitments(
        _: &(),
        num_polys: usize,
        transcript: &mut impl TranscriptRead<Vec<F>, F>,
    ) -> Result<Vec<Vec<Vec<F>>>, Error> {
        (0..num_polys).map(|_| Ok(vec![transcript.read_commitment()?])).collect()
    }
    fn verify(_: &(), _: &Vec<Vec<F>>, _: &Vec<F>, _: &F, _: &mut impl TranscriptRead<Vec<F>, F>) -> Result<(), Error> {
        unreachable!()
    }
    fn batch_verify<'a>(
        _: &(),
        comms: impl IntoIterator<Item = &'a Vec<Vec<F>>>,
        points: &[Vec<F>],
        evals: &[Evaluation<F>],
        _: &mut impl TranscriptRead<Vec<F>, F>,
    ) -> Result<(), Error> {
        let comms = comms.into_iter().collect_vec();
        for eval in evals {
            let column = Poly::new(comms[eval.poly()][0].clone());
            if column.evaluate(&points[eval.point()]) != *eval.value() {
                return Err(Error::InvalidPcsOpen(format!("{eval:?}")));
            }
        }
        Ok(())
    }
}

#[derive(Clone, Default)]
pub struct Script {
    challenges: VecDeque<F>,
    values: VecDeque<F>,
    columns: VecDeque<Vec<F>>,
}

fn past_end() -> Error {
    Error::Transcript(std::io::ErrorKind::UnexpectedEof, String::new())
}

impl FieldTranscript<F> for Script {
    fn squeeze_challenge(&mut self) -> F {
        self.challenges.pop_front().expect("a challenge")
    }
    fn common_field_element(&mut self, _: &F) -> Result<(), Error> {
        Ok(())
    }
}
impl FieldTranscriptRead<F> for Script {
    fn read_field_element(&mut self) -> Result<F, Error> {
        self.values.pop_front().ok_or_else(past_end)
    }
}
impl FieldTranscriptWrite<F> for Script {
    fn write_field_element(&mut self, fe: &F) -> Result<(), Error> {
        self.values.push_back(*fe);
        Ok(())
    }
}
impl Transcript<Vec<F>, F> for Script {
    fn common_commitment(&mut self, _: &Vec<F>) -> Result<(), Error> {
        Ok(())
    }
}
impl TranscriptRead<Vec<F>, F> for Script {
    fn read_commitment(&mut self) -> Result<Vec<F>, Error> {
        self.columns.pop_front().ok_or_else(past_end)
    }
}
impl TranscriptWrite<Vec<F>, F> for Script {
    fn write_commitment(&mut self, comm: &Vec<F>) -> Result<(), Error> {
        self.columns.push_back(comm.clone());
        Ok(())
    }
}

struct NoRng;
impl RngCore for NoRng {
    fn next_u64(&mut self) -> u64 {
        unreachable!()
    }
}

impl PlonkishCircuit<F> for Log {
    fn circuit_info_without_preprocess(&self) -> Result<Info, Error> {
        Ok(self.info.clone())
    }
    fn circuit_info(&self) -> Result<Info, Error> {
        Ok(self.info.clone())
    }
    fn instances(&self) -> &[Vec<F>] {
        &self.instances
    }
    fn synthesize(&self, round: usize, _: &[F]) -> Result<Vec<Vec<F>>, Error> {
        let before = self.info.num_witness_polys[..round].iter().sum::<usize>();
        let polys = &self.witness[before..][..self.info.num_witness_polys[round]];
        Ok(polys.iter().map(|p| p.evals.clone()).collect())
    }
}

/// The columns that reached the opening; an error is verify's or prove's.
pub fn proved(log: &Log, after_gamma: &[F]) -> Result<Vec<Vec<F>>, Error> {
    let script = [&log.challenges[..], &[log.beta, log.gamma], after_gamma].concat();
    let mut transcript = Script { challenges: script.iter().copied().collect(), ..Default::default() };
    HyperPlonk::<Clear>::setup(&log.info, NoRng)?;
    let (pp, vp) = HyperPlonk::<Clear>::preprocess(&(), &log.info)?;
    HyperPlonk::<Clear>::prove(&pp, log, &mut transcript, NoRng)?;
    transcript.challenges = script.into_iter().collect();
    HyperPlonk::<Clear>::verify(&vp, &log.instances, &mut transcript, NoRng)?;
    Ok(OPENED.with(|opened| opened.borrow().clone()))
}

/// Why `prove` or `verify` fails on this log whose row sum is 0, if it does.
fn fails(log: &Log, composed: &Expr) -> bool {
    let (k, n) = (log.info.k, log.info.num_instances.len());
    let past_end = |q: &crate::util::expression::Query| {
        let places = (1usize << k) - 1;
        q.poly() < n && q.rotation().0 < 0 && log.info.num_instances[q.poly()] + q.rotation().distance() > places
    };
    // evaluate_for_rotation at a distance of k; no query to open; instance_evals.
    composed.max_used_rotation_distance() >= k
        || pcs_query(composed, n).is_empty()
        || composed.used_query().iter().any(past_end)
}

/// On logs that meet their circuit: prove's columns are the stages', verify is content.
pub fn through_prove(seed: u64, count: u64) {
    let rng = &mut Rng::new(seed);
    let (mut alike, mut passed_over, mut zero, mut larger) = (0, 0, 0, 0);
    for _ in 0..count {
        let log = generate::log(rng, false);
        let circuit = log.sections.words();
        let c = read(&circuit).unwrap();
        let refused = columns(&c, &log.instance, &log.witness, &log.challenges).err();
        zero += (refused == Some(17)) as u64;
        larger += (refused != Some(17) && !c.groups_of_one()) as u64;
        let given = Log::of(&circuit, &log.instance, &log.witness, &log.challenges);
        if !log.meets
            || refused.is_some()
            || !c.groups_of_one()
            || !c.cuts_are_alike()
            || fails(&given, &build(&given, &mut |_| {}).unwrap().1)
        {
            passed_over += 1;
            continue;
        }
        let built = build(&given, &mut |_| {}).unwrap().0;
        for threads in [2, 3, 64] {
            set_num_threads(threads);
            assert_eq!(build(&given, &mut |_| {}).unwrap().0, built, "cut for {threads} threads");
            set_num_threads(1);
        }
        let rest = f(&(0..1 + 2 * c.k).map(|_| 2 + rng.word() % (1 << 60)).collect_vec());
        let opened = proved(&given, &rest).unwrap_or_else(|e| panic!("{e:?} on {log:?}"));
        let all = (built.instance.iter().chain(&c.preprocess).cloned())
            .chain(given.witness.iter().map(|p| words(&p.evals)))
            .chain([built.permutation, built.m, built.h, built.z].concat())
            .collect_vec();
        assert_eq!(all, opened.iter().map(|p| words(p)).collect_vec());
        alike += 1;
    }
    println!(
        "{alike} logs through the Rust's prove and verify: its columns are the stages'; {passed_over} passed over, \
         {zero} of these for a zero denominator and {larger} for a group of two lookups or more"
    );
}
