//! Who answers as it should, and who does not.

use compare::{model, Amounts, Call, Comparison, Entries, Yielded};
use compare::{FelmugoConsumer, FelmugoOutcome};
use compare::{FelmugoReport, FelmugoResidue, FelmugoSigned, FelmugoVerdict};
use fields::Plain;
use olavm::{Reference, VALUES};
use tally::Tally;

/// A comparison that takes part of a second.
const AMOUNTS: Amounts = Amounts {
    operands: 100,
    signed: 100,
    rounds: 1,
    pairs: 1000,
    consumers: 200,
    runs: 50,
    rows: 24,
    limits: false,
};

/// Answers as it should.
pub struct Faithful(pub Reference);

impl Entries for Faithful {
    fn add(&self, a: u64, b: u64) -> FelmugoResidue {
        model::operation(a, b, |a, b| a + b)
    }

    fn sub(&self, a: u64, b: u64) -> FelmugoResidue {
        model::operation(a, b, |a, b| a - b)
    }

    fn mul(&self, a: u64, b: u64) -> FelmugoResidue {
        model::operation(a, b, |a, b| a * b)
    }

    fn signed(&self, residue: u64) -> FelmugoSigned {
        model::signed(residue)
    }

    fn unsigned(&self, value: i64) -> FelmugoResidue {
        model::unsigned(value)
    }

    fn pair_values(&self, call: Call, out: &mut [u64]) -> u64 {
        match model::pair_values(self.0, call, out.len()) {
            Ok(values) => {
                out[..VALUES].copy_from_slice(&values);
                0
            }
            Err(number) => number,
        }
    }

    fn pair_fold(&self, call: Call, alphas: &[u64], accs: &mut [u64]) -> u64 {
        match model::pair_fold(self.0, call, alphas, accs) {
            Ok(folded) => {
                accs.copy_from_slice(&folded);
                0
            }
            Err(number) => number,
        }
    }

    fn pair_judge(&self, call: Call) -> FelmugoVerdict {
        model::pair_judge(self.0, call)
    }

    fn run_report(&self, run: &[u64], masks: &[u64]) -> FelmugoReport {
        model::run_report::<Plain>(self.0, run, masks)
    }

    fn consumer_new(&self, alphas: &[u64], accs: &[u64], weights: [u64; 3]) -> FelmugoOutcome {
        model::consumer_new(alphas, accs, weights)
    }

    fn consumer_fold(&self, consumer: &mut FelmugoConsumer, yielded: Yielded) -> u64 {
        let (number, left) = model::consumer_fold(self.0, *consumer, yielded);
        *consumer = left;
        number
    }

    fn consumer_accumulators(&self, consumer: &FelmugoConsumer, out: &mut [u64]) -> u64 {
        match model::consumer_accumulators(consumer, out.len()) {
            Ok(accs) => {
                out.copy_from_slice(&accs);
                0
            }
            Err(number) => number,
        }
    }
}

/// Other answers, which may ask the faithful.
pub type Add<'a> = dyn Fn(&Faithful, u64, u64) -> FelmugoResidue + 'a;
pub type Signed<'a> = dyn Fn(&Faithful, u64) -> FelmugoSigned + 'a;
pub type Unsigned<'a> = dyn Fn(&Faithful, i64) -> FelmugoResidue + 'a;
pub type Values<'a> = dyn Fn(&Faithful, Call, &mut [u64]) -> u64 + 'a;
pub type Fold<'a> = dyn Fn(&Faithful, Call, &[u64], &mut [u64]) -> u64 + 'a;
pub type Judge<'a> = dyn Fn(&Faithful, Call) -> FelmugoVerdict + 'a;
pub type Report<'a> = dyn Fn(&Faithful, &[u64], &[u64]) -> FelmugoReport + 'a;
pub type Make<'a> = dyn Fn(&Faithful, &[u64], &[u64], [u64; 3]) -> FelmugoOutcome + 'a;
pub type Consume<'a> = dyn Fn(&Faithful, &mut FelmugoConsumer, Yielded) -> u64 + 'a;
pub type HandOver<'a> = dyn Fn(&Faithful, &FelmugoConsumer, &mut [u64]) -> u64 + 'a;

/// Answers as it should but for what it was given an answer to.
pub struct Impostor<'a> {
    faithful: Faithful,
    pub add: Option<&'a Add<'a>>,
    pub signed: Option<&'a Signed<'a>>,
    pub unsigned: Option<&'a Unsigned<'a>>,
    pub values: Option<&'a Values<'a>>,
    pub fold: Option<&'a Fold<'a>>,
    pub judge: Option<&'a Judge<'a>>,
    pub report: Option<&'a Report<'a>>,
    pub make: Option<&'a Make<'a>>,
    pub consume: Option<&'a Consume<'a>>,
    pub hand_over: Option<&'a HandOver<'a>>,
}

impl Impostor<'_> {
    fn new(rust: Reference) -> Self {
        Self {
            faithful: Faithful(rust),
            add: None,
            signed: None,
            unsigned: None,
            values: None,
            fold: None,
            judge: None,
            report: None,
            make: None,
            consume: None,
            hand_over: None,
        }
    }
}

impl Entries for Impostor<'_> {
    fn add(&self, a: u64, b: u64) -> FelmugoResidue {
        match self.add {
            Some(answer) => answer(&self.faithful, a, b),
            None => self.faithful.add(a, b),
        }
    }

    fn sub(&self, a: u64, b: u64) -> FelmugoResidue {
        self.faithful.sub(a, b)
    }

    fn mul(&self, a: u64, b: u64) -> FelmugoResidue {
        self.faithful.mul(a, b)
    }

    fn signed(&self, residue: u64) -> FelmugoSigned {
        match self.signed {
            Some(answer) => answer(&self.faithful, residue),
            None => self.faithful.signed(residue),
        }
    }

    fn unsigned(&self, value: i64) -> FelmugoResidue {
        match self.unsigned {
            Some(answer) => answer(&self.faithful, value),
            None => self.faithful.unsigned(value),
        }
    }

    fn pair_values(&self, call: Call, out: &mut [u64]) -> u64 {
        match self.values {
            Some(answer) => answer(&self.faithful, call, out),
            None => self.faithful.pair_values(call, out),
        }
    }

    fn pair_fold(&self, call: Call, alphas: &[u64], accs: &mut [u64]) -> u64 {
        match self.fold {
            Some(answer) => answer(&self.faithful, call, alphas, accs),
            None => self.faithful.pair_fold(call, alphas, accs),
        }
    }

    fn pair_judge(&self, call: Call) -> FelmugoVerdict {
        match self.judge {
            Some(answer) => answer(&self.faithful, call),
            None => self.faithful.pair_judge(call),
        }
    }

    fn run_report(&self, run: &[u64], masks: &[u64]) -> FelmugoReport {
        match self.report {
            Some(answer) => answer(&self.faithful, run, masks),
            None => self.faithful.run_report(run, masks),
        }
    }

    fn consumer_new(&self, alphas: &[u64], accs: &[u64], weights: [u64; 3]) -> FelmugoOutcome {
        match self.make {
            Some(answer) => answer(&self.faithful, alphas, accs, weights),
            None => self.faithful.consumer_new(alphas, accs, weights),
        }
    }

    fn consumer_fold(&self, consumer: &mut FelmugoConsumer, yielded: Yielded) -> u64 {
        match self.consume {
            Some(answer) => answer(&self.faithful, consumer, yielded),
            None => self.faithful.consumer_fold(consumer, yielded),
        }
    }

    fn consumer_accumulators(&self, consumer: &FelmugoConsumer, out: &mut [u64]) -> u64 {
        match self.hand_over {
            Some(answer) => answer(&self.faithful, consumer, out),
            None => self.faithful.consumer_accumulators(consumer, out),
        }
    }
}

pub fn compare(entries: &dyn Entries, rust: Reference) -> Tally {
    Comparison::everything(entries, rust, 1, AMOUNTS)
}

/// Whether the comparison finds who was taught to answer otherwise.
pub fn is_found<'a>(teach: impl FnOnce(&mut Impostor<'a>)) -> bool {
    let Some(rust) = Reference::find() else {
        return true;
    };
    let mut impostor = Impostor::new(rust);
    teach(&mut impostor);
    compare(&impostor, rust).failed() > 0
}
