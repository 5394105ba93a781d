//! The whole history and its summary side by side.

use crate::history::History;
use crate::past::Past;
use crate::phase::Phase;
use crate::sheet::Sheet;
use crate::summary::Summary;

/// Pairs up to which the whole history is kept beside the summary.
const PLAIN_PAIRS: usize = 4_000;

/// The whole history and its summary side by side: each answer is taken from both and must be the
/// same. A history of more pairs is dropped, since scanning it takes quadratic time; from then on the
/// summary answers alone.
#[derive(Clone)]
pub struct Both {
    plain: Option<History>,
    quick: Summary,
}

impl Both {
    /// A summary that no words made, and so without a history.
    pub fn without_history(quick: Summary) -> Both {
        Both { plain: None, quick }
    }

    /// The summary.
    pub fn summary(&self) -> &Summary {
        &self.quick
    }

    /// The summary's answer, compared with the history's while that is kept.
    fn same<T: PartialEq + std::fmt::Debug>(
        &self,
        of_plain: impl Fn(&History) -> T,
        of_quick: impl Fn(&Summary) -> T,
    ) -> T {
        let answer = of_quick(&self.quick);
        if let Some(plain) = &self.plain {
            assert_eq!(of_plain(plain), answer, "history and summary differ");
        }
        answer
    }
}

impl Past for Both {
    fn fresh() -> Both {
        Both {
            plain: Some(History::fresh()),
            quick: Summary::fresh(),
        }
    }

    fn clock(&self) -> u32 {
        self.same(|p| p.clock(), |q| q.clock())
    }

    fn phase(&self) -> Phase {
        self.same(|p| p.phase(), |q| q.phase())
    }

    fn lowest(&self, sheet: &Sheet, word: u32) -> Option<u32> {
        self.same(|p| p.lowest(sheet, word), |q| q.lowest(sheet, word))
    }

    fn push(&mut self, sheet: &Sheet, word: u32) {
        self.quick.push(sheet, word);
        if let Some(plain) = &mut self.plain {
            plain.push(sheet, word);
            if plain.pairs.len() > PLAIN_PAIRS {
                self.plain = None;
            }
        }
    }

    fn extended_stands(&self) -> bool {
        self.same(|p| p.extended_stands(), |q| q.extended_stands())
    }

    fn regular_stands(&self) -> bool {
        self.same(|p| p.regular_stands(), |q| q.regular_stands())
    }

    fn second_ref_stands(&self) -> bool {
        self.same(|p| p.second_ref_stands(), |q| q.second_ref_stands())
    }

    fn last_ref(&self) -> Option<u32> {
        self.same(|p| p.last_ref(), |q| q.last_ref())
    }

    fn late_events(&self) -> Vec<&'static str> {
        self.same(|p| p.late_events(), |q| q.late_events())
    }
}
