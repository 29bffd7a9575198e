//! What is timed: one or several calls of an operation under a name.

use crate::timing::{medians, once};
use reference::inputs::Case;
use reference::{Answer, Fast, Operations};
use std::mem::forget;
use std::ptr::read_volatile;
use std::time::Duration;

/// A run of short calls makes them so often that it takes about as long as this.
const RUN: Duration = Duration::from_millis(10);

/// The value itself, by a read that the compiler can't see through, so that no
/// call is left out. (The standard library's is younger than some Rusts in use.)
fn black_box<T>(value: T) -> T {
    let seen = unsafe { read_volatile(&value) };
    forget(value);
    seen
}

/// How a case is called.
#[derive(Clone, Copy)]
enum Way {
    /// As it is, with rows in flat slices.
    Flat,
    /// With rows as records.
    Records,
    /// A single value of a table, once for each t, and each time of the same table.
    EveryT,
}

/// Calls that are timed together.
pub struct Call {
    pub name: String,
    /// Other calls that work out the same. Our time of each is shown beside this one.
    pub beside: Vec<Call>,
    /// Whether the time of the plain operation, which is written to be read, is shown
    /// beside too.
    pub plainly: bool,
    cases: Vec<Case>,
    way: Way,
}

impl Call {
    /// One call on flat slices, which is answered.
    pub fn new(name: impl Into<String>, case: Case) -> Call {
        let answer = case.clone().run::<Fast>();
        assert_eq!(answer.number, 0, "a refusal would be timed");
        Call::all(name, vec![case])
    }

    /// Several calls on flat slices, one after the other.
    pub fn all(name: impl Into<String>, cases: Vec<Case>) -> Call {
        Call {
            name: name.into(),
            beside: Vec::new(),
            plainly: false,
            cases,
            way: Way::Flat,
        }
    }

    /// One call on records.
    pub fn on_records(name: impl Into<String>, case: Case) -> Call {
        Call {
            way: Way::Records,
            ..Call::new(name, case)
        }
    }

    /// A single value of a table, asked for every t.
    pub fn every_t(name: impl Into<String>, case: Case) -> Call {
        Call {
            way: Way::EveryT,
            ..Call::new(name, case)
        }
    }

    /// The call with others beside it.
    pub fn beside(self, calls: Vec<Call>) -> Call {
        Call {
            beside: calls,
            ..self
        }
    }

    /// The call with the plain operation beside it.
    pub fn beside_plain(self) -> Call {
        Call {
            plainly: true,
            ..self
        }
    }

    /// The median times of two implementations that take turns, after their
    /// answers and what they leave in all they are lent were found the same.
    pub fn compare<P: Operations, O: Operations>(&self, runs: usize) -> [Duration; 2] {
        self.agree::<P, O>();
        self.times(runs, [run::<P>, run::<O>])
    }

    /// The median time of one implementation, after it was found to agree with
    /// another in the same way.
    pub fn time<P: Operations, O: Operations>(&self, runs: usize) -> Duration {
        self.agree::<P, O>();
        let [time] = self.times(runs, [run::<O>]);
        time
    }

    /// Finds answers and what is left in all that is lent the same.
    fn agree<P: Operations, O: Operations>(&self) {
        for case in &self.cases {
            let [mut first, mut second] = [case.clone(), case.clone()];
            let same = answers::<P>(self.way, &mut first) == answers::<O>(self.way, &mut second);
            assert!(same && first == second, "{}: not the same", self.name);
        }
    }

    /// The median times of functions that take turns.
    fn times<const N: usize>(&self, runs: usize, functions: [fn(&mut Work); N]) -> [Duration; N] {
        let single = once(&mut self.work(1), functions[0]);
        let times = (RUN.as_nanos() / single.as_nanos().max(1)).clamp(1, 500) as usize;
        medians(runs, || self.work(times), functions).map(|time| time / times as u32)
    }

    /// The calls, made so many times over.
    fn work(&self, times: usize) -> Work {
        Work {
            cases: vec![self.cases.clone(); times],
            way: self.way,
        }
    }
}

/// Makes the calls of a case, and hands each answer on; where a case has no form on
/// records there is none.
fn make<O: Operations>(way: Way, case: &mut Case, mut each: impl FnMut(Option<Answer<Vec<u64>>>)) {
    match way {
        Way::Flat => each(Some(case.run::<O>())),
        Way::Records => each(case.run_records::<O>()),
        Way::EveryT => {
            let mut next = 0;
            while ask(case, next) {
                each(Some(case.run::<O>()));
                next += 1;
            }
        }
    }
}

/// Makes this the t of a single value of a table, where it is below 2^n.
fn ask(case: &mut Case, next: usize) -> bool {
    match case {
        Case::TableValue { t, table, .. } => {
            *t = next;
            next < table.len()
        }
        _ => panic!("no other case is asked for every t"),
    }
}

/// All answers to a case.
fn answers<O: Operations>(way: Way, case: &mut Case) -> Vec<Option<Answer<Vec<u64>>>> {
    let mut answers = Vec::new();
    make::<O>(way, case, |answer| answers.push(answer));
    answers
}

/// The calls of one run.
struct Work {
    cases: Vec<Vec<Case>>,
    way: Way,
}

/// Makes the calls.
fn run<O: Operations>(work: &mut Work) {
    for case in work.cases.iter_mut().flatten() {
        make::<O>(work.way, black_box(case), |answer| drop(black_box(answer)));
    }
}
