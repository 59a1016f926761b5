//! Document 02's request (i), broken: other rules for a while whose condition is
//! `true`. All of this is asked under mutants alone.

use crate::file::VOID;
use crate::mutants::{Mutant, Mutant::*, Rules};
use crate::typing::{BUILTIN, Checker};

impl<R: Rules> Checker<'_, R> {
    /// The mark that a mutant gives the while at a node; `block` is its block's.
    pub(crate) fn other_while(&self, at: usize, behind: Option<u16>, block: bool) -> Option<bool> {
        let mutant = self.rules.mutant()?;
        let (is_true, last) = (self.kind(at + 1) == 11, behind == Some(0));
        let endless = is_true && last;
        Some(match mutant {
            WhileGoesOn => false,
            WhileReturns => endless || block,
            EndlessNotLast => is_true && behind.is_some(),
            EndlessStep => is_true && (last || behind.is_none()),
            EndlessLastButOne => is_true && behind == Some(1),
            EndlessLastTwo => is_true && matches!(behind, Some(0 | 1)),
            EndlessAlone => endless && self.file.node(self.parent(at)).children() == 1,
            EndlessAnyCondition => last,
            EndlessFalse => self.kind(at + 1) == 12 && last,
            EndlessNot | EndlessAnd | EndlessName => last && (is_true || self.is_like_true(mutant, at + 1)),
            EndlessInBodyOnly => endless && self.holder(at) == 2,
            EndlessNotInArms => endless && !matches!(self.holder(at), 35 | 36),
            EndlessNotInLoops => endless && !matches!(self.holder(at), 37 | 38),
            EndlessInVoidOnly => endless && self.result == VOID,
            EndlessUnlessReturns => endless && !block,
            EndlessIfReturns => endless && block,
            _ => return None,
        })
    }

    /// Whether a mutant takes a condition that is another node for `true`.
    fn is_like_true(&self, mutant: Mutant, at: usize) -> bool {
        let n = self.file.node(at);
        match (mutant, n.kind()) {
            (EndlessNot, 25) => n.x() == 1 && self.kind(at + 1) == 12,
            (EndlessAnd, 26) => n.x() == 12 && self.kind(at + 1) == 11 && self.kind(at + 2) == 11,
            (EndlessName, 15) => {
                let binder = self.find(n.x());
                binder < BUILTIN && self.kind(binder as usize) == 1 && self.kind(binder as usize + 1) == 11
            }
            _ => false,
        }
    }

    /// Whether a mutant lets the last for whose condition is at a node return.
    pub(crate) fn for_returns(&self, condition: usize, behind: Option<u16>) -> bool {
        let returns = |mutant, kind| self.breaks(mutant) && self.kind(condition) == kind;
        behind == Some(0) && (returns(EndlessFor, 11) || returns(EndlessForWithout, 40))
    }

    /// Whether a mutant lets the if at a node, which returns by a while(true) at
    /// the end of an arm, go on.
    pub(crate) fn goes_on_by_loop(&self, mutant: Mutant, at: usize) -> bool {
        self.breaks(mutant) && (at + 1..self.next).any(|i| self.kind(i) == 38 && self.ends_arm(i, at))
    }

    /// The while at a node decides the mark of the if at `top`, around it.
    fn ends_arm(&self, mut at: usize, top: usize) -> bool {
        while at > top && self.rows[at][0] == 1 {
            at = self.parent(at);
            if !matches!(self.kind(at), 35 | 36 | 39) {
                return false;
            }
        }
        at == top
    }

    pub(crate) fn kind(&self, at: usize) -> u16 {
        self.file.node(at).kind()
    }

    /// The kind of the node whose block a statement stands in.
    fn holder(&self, at: usize) -> u16 {
        self.kind(self.parent(self.parent(at)))
    }

    /// The node whose child a node is; `after` counts the subtrees between them.
    pub(crate) fn parent(&self, at: usize) -> usize {
        let mut after = 0;
        for i in (0..at).rev() {
            let children = self.file.node(i).children();
            if children > after {
                return i;
            }
            after = after + 1 - children;
        }
        at
    }
}
