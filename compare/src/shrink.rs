//! Makes a failing call smaller while it still fails.

use crate::case::{each_part, Case, Element, Part, Visit};
use crate::checksum::mended;

/// Tries of one shrinking; each is a call on both sides.
const TRIES: usize = 20_000;

pub fn shrunk(case: &Case, fails: &dyn Fn(&Case) -> bool) -> Case {
    let mut search = Search {
        best: case.clone(),
        tries: 0,
        fails,
    };
    loop {
        let before = search.best.clone();
        each_part(&mut Shorten(&mut search));
        each_part(&mut Clear(&mut search));
        search.lower_numbers();
        if search.best == before || search.is_over() {
            return search.best;
        }
    }
}

/// The smallest failing call so far.
struct Search<'a> {
    best: Case,
    tries: usize,
    fails: &'a dyn Fn(&Case) -> bool,
}

impl Search<'_> {
    fn is_over(&self) -> bool {
        self.tries >= TRIES
    }

    /// Keeps a smaller call that still fails, as it is or with the checksum of
    /// the bytes that are left.
    fn offer(&mut self, smaller: Case) -> bool {
        let blob = mended(&smaller.blob);
        let is_other = blob != smaller.blob && smaller.blob != self.best.blob;
        if self.keeps(&smaller) {
            return true;
        }
        is_other && self.keeps(&Case { blob, ..smaller })
    }

    fn keeps(&mut self, smaller: &Case) -> bool {
        self.tries += 1;
        let fails = (self.fails)(smaller);
        if fails {
            self.best = smaller.clone();
        }
        fails
    }

    /// The two numbers toward zero, by ever smaller steps.
    fn lower_numbers(&mut self) {
        for n in 0..2 {
            let mut step = self.best.numbers[n];
            while step > 0 && !self.is_over() {
                let mut smaller = self.best.clone();
                smaller.numbers[n] = smaller.numbers[n].saturating_sub(step);
                if smaller.numbers[n] == self.best.numbers[n] || !self.offer(smaller) {
                    step /= 2;
                }
            }
        }
    }
}

/// Takes pieces away, from the end on.
struct Shorten<'a, 'b>(&'a mut Search<'b>);

impl Visit for Shorten<'_, '_> {
    fn part<T: Element>(&mut self, part: Part<T>) {
        let search = &mut *self.0;
        let mut piece = part(&mut search.best).len();
        while piece > 0 {
            let mut end = part(&mut search.best).len();
            while end > 0 && !search.is_over() {
                let from = end.saturating_sub(piece);
                let mut smaller = search.best.clone();
                part(&mut smaller).drain(from..end);
                search.offer(smaller);
                end = from;
            }
            piece /= 2;
        }
    }
}

/// Puts zeros in place of pieces.
struct Clear<'a, 'b>(&'a mut Search<'b>);

impl Visit for Clear<'_, '_> {
    fn part<T: Element>(&mut self, part: Part<T>) {
        let search = &mut *self.0;
        let zero = T::default();
        let mut piece = part(&mut search.best).len();
        while piece > 0 {
            let mut from = 0;
            while from < part(&mut search.best).len() && !search.is_over() {
                let to = (from + piece).min(part(&mut search.best).len());
                let mut smaller = search.best.clone();
                let numbers = &mut part(&mut smaller)[from..to];
                if numbers.iter().any(|number| *number != zero) {
                    numbers.fill(zero);
                    search.offer(smaller);
                }
                from = to;
            }
            piece /= 2;
        }
    }
}
