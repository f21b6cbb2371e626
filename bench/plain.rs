//! The solver in plain Rust, as `bench/plain.py` writes it, and a program that solves one formula.
#![allow(unused)]

mod pg_cnf;
mod pg_sat_search;
mod pg_proof;
mod pg_sat;
mod pg_watch;

/// What the sources use of their library, where memory never runs out.
mod library {
    use std::ops::{Deref, DerefMut};

    #[derive(Clone, Copy, PartialEq, Eq)]
    pub struct AllocError;

    #[derive(Clone, Copy)]
    pub struct Global;

    #[derive(Clone, PartialEq, Eq)]
    pub struct Vec<T>(std::vec::Vec<T>);

    pub type Items<T> = Vec<T>;

    impl<T> Vec<T> {
        pub fn new(_: Global) -> Self {
            Vec(std::vec::Vec::new())
        }

        pub fn with_capacity(_: Global, count: usize) -> Result<Self, AllocError> {
            Ok(Vec(std::vec::Vec::with_capacity(count)))
        }

        pub fn push(&mut self, item: T) -> Result<(), AllocError> {
            self.0.push(item);
            Ok(())
        }

        pub fn reserve(&mut self, count: usize) -> Result<(), AllocError> {
            self.0.reserve(count);
            Ok(())
        }

        pub fn from_vec(items: Vec<T>) -> Self {
            items
        }

        pub fn as_slice(&self) -> &[T] {
            &self.0
        }

        pub fn as_mut_slice(&mut self) -> &mut [T] {
            &mut self.0
        }
    }

    impl<T: Clone> Vec<T> {
        pub fn from_elem(_: Global, item: T, count: usize) -> Result<Self, AllocError> {
            Ok(Vec(vec![item; count]))
        }

        pub fn from_slice(_: Global, items: &[T]) -> Result<Self, AllocError> {
            Ok(Vec(items.to_vec()))
        }

        pub fn extend_from_slice(&mut self, items: &[T]) -> Result<(), AllocError> {
            self.0.extend_from_slice(items);
            Ok(())
        }
    }

    impl<T> Deref for Vec<T> {
        type Target = std::vec::Vec<T>;

        fn deref(&self) -> &Self::Target {
            &self.0
        }
    }

    impl<T> DerefMut for Vec<T> {
        fn deref_mut(&mut self) -> &mut Self::Target {
            &mut self.0
        }
    }

    /// So many items in place, and more in memory of their own.
    pub struct SmallVec<T, const N: usize> {
        len: usize,
        inline: [T; N],
        more: std::vec::Vec<T>,
    }

    impl<const N: usize> SmallVec<i32, N> {
        pub fn new(_: Global) -> Self {
            SmallVec {
                len: 0,
                inline: [0; N],
                more: std::vec::Vec::new(),
            }
        }

        pub fn push(&mut self, item: i32) -> Result<(), AllocError> {
            if self.len < N {
                self.inline[self.len] = item;
            } else {
                if self.more.is_empty() {
                    self.more.extend_from_slice(&self.inline);
                }
                self.more.push(item);
            }
            self.len += 1;
            Ok(())
        }

        pub fn as_slice(&self) -> &[i32] {
            if self.len <= N {
                &self.inline[..self.len]
            } else {
                &self.more
            }
        }
    }

    pub trait CollectIn: Iterator + Sized {
        fn collect_in(self, _: Global) -> Result<Vec<Self::Item>, AllocError> {
            Ok(Vec(self.collect()))
        }
    }

    impl<I: Iterator> CollectIn for I {}
}

use library::{AllocError, Global, SmallVec};
use pg_cnf::{Clause, Cnf};
use pg_sat_search::Found;
use pg_proof::Step;
use pg_sat::{Answer, Counts};
use std::time::Instant;

/// A formula of a text in the format DIMACS CNF.
fn read(text: &str) -> Result<Cnf, AllocError> {
    let lines = || text.lines().filter(|line| !line.starts_with('c'));
    let head = lines().find(|line| line.starts_with('p')).expect("a head");
    let variables = head.split_whitespace().nth(2).expect("variables");
    let mut cnf = Cnf::new(Global, variables.parse().expect("a number"));
    let words = lines().filter(|line| !line.starts_with('p'));
    let mut clause: Vec<i32> = Vec::new();
    for word in words.flat_map(str::split_whitespace) {
        let literal: i32 = word.parse().expect("a literal");
        if literal != 0 {
            clause.push(literal);
            continue;
        }
        clause.sort_by_key(|literal| (literal.unsigned_abs(), *literal < 0));
        clause.dedup();
        let mut literals = SmallVec::new(Global);
        for literal in clause.drain(..) {
            literals.push(literal)?;
        }
        cnf.push(Clause::new(literals))?;
    }
    Ok(cnf)
}

/// The most memory that this process had, in MB.
fn peak() -> u64 {
    let status = std::fs::read_to_string("/proc/self/status").unwrap_or_default();
    let line = status.lines().find(|line| line.starts_with("VmHWM"));
    let word = line.and_then(|line| line.split_whitespace().nth(1));
    word.and_then(|word| word.parse::<u64>().ok()).unwrap_or(0) / 1024
}

/// The steps of a log, and how many literals and hints they have.
fn size(steps: &[Step]) -> String {
    let literals: usize = steps.iter().map(|step| step.lits.len()).sum();
    let hints: usize = steps.iter().map(|step| step.hints.len()).sum();
    format!("steps {} literals {literals} hints {hints}", steps.len())
}

/// The answer, with the size of its log, and what it took.
fn solved(cnf: &Cnf, budget: u32, keeps: bool) -> Result<(String, Counts), AllocError> {
    if keeps {
        let (answer, counts) = pg_sat::solve_counted(Global, cnf, budget)?;
        let told = match answer {
            Answer::Sat(_) => "yes".to_string(),
            Answer::Unsat(steps) => format!("no {}", size(&steps)),
            Answer::Spent(steps) => format!("open {}", size(&steps)),
        };
        return Ok((told, counts));
    }
    let (found, counts) = pg_sat_search::find_counted(Global, cnf, budget)?;
    let told = match found {
        Found::Model(_) => "yes".to_string(),
        Found::Refuted(steps) => format!("no {}", size(&steps)),
        Found::Open(steps) => format!("open {}", size(&steps)),
    };
    Ok((told, counts))
}

fn main() {
    let words: Vec<String> = std::env::args().collect();
    let name = words.get(1).expect("usage: plain FORMULA [BUDGET] [find|keep]");
    let budget = words.get(2).map_or(20_000, |word| word.parse().expect("a budget"));
    let keeps = words.get(3).is_some_and(|word| word == "keep");
    let text = std::fs::read_to_string(name).expect("a file");
    let Ok(cnf) = read(&text) else { return };
    let begun = Instant::now();
    if let Ok((answer, counts)) = solved(&cnf, budget, keeps) {
        let seconds = begun.elapsed().as_secs_f64();
        let rate = counts.set as f64 / seconds / 1e6;
        println!(
            "{answer} conflicts {} set {} seconds {seconds:.3} rate {rate:.1} peak {} MB",
            counts.conflicts,
            counts.set,
            peak()
        );
    }
}
