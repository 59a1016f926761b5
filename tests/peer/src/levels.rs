//! Document 02's request (vi), broken: other blocks, other meanings of a name.
//! All of this is asked under mutants alone.

use crate::mutants::{Mutant, Mutant::*, Rules};
use crate::types::NONE;
use crate::typing::{Checker, Judged, fault};

impl<R: Rules> Checker<'_, R> {
    /// Whether a mutant refuses the var at a node; `bound` is what the rule says.
    pub(crate) fn other_clash(&self, at: usize, name: u16, bound: bool) -> Option<bool> {
        let mutant = self.rules.mutant()?;
        let binder = self.find(name);
        if !self.is_local(binder) {
            let inner = mutant == InnerStillClashes && (self.own..at).any(|i| self.is_var(i, name));
            return Some(inner || mutant == FreshAgainstGlobals && binder != NONE);
        }
        let binder = binder as usize;
        let hides = match mutant {
            _ if self.breaks(FreshAtAllLevels) => true,
            VarFreshAtAllLevels => true,
            VarFreshOneOut => self.level(at) <= self.level(binder) + 1,
            HiddenOnceOnly => self.locals(name).len() > 1,
            ParameterNotHidden => self.kind(binder) == 3,
            VarNotHidden => self.kind(binder) == 31 && !self.is_of_for(binder),
            ForVarNotHidden => self.is_of_for(binder),
            IfNullNameNotHidden => self.kind(binder) == 36,
            InnerStillClashes => (self.own..at).any(|i| self.is_var(i, name)),
            ForStepInBlock => self.is_step(binder) && self.level(at) == self.level(binder) + 1,
            _ => false,
        };
        let apart = mutant == ForVarsApart && self.is_of_for(at) && !self.is_step(at);
        Some((bound || hides) && !apart)
    }

    /// Where a mutant has a var's 7 stand.
    pub(crate) fn clash_place(&self, at: usize) -> usize {
        if self.breaks(ForStepClashPlace) && self.is_step(at) { self.parent(at) } else { at }
    }

    /// What a mutant takes for the block that goes on after an inner one.
    pub(crate) fn other_block(&self, outer: usize) -> Option<usize> {
        match self.rules.mutant()? {
            BlockAnew => Some(self.next),
            BlockAllLevels => Some(0),
            _ => Some(outer),
        }
    }

    /// The binder that a mutant has a name mean.
    pub(crate) fn other_meaning(&self, name: u16) -> Option<u16> {
        match self.rules.mutant()? {
            OutermostMeant => self.locals(name).last().copied(),
            NextMeant => self.locals(name).get(1).copied(),
            HiddenTwiceForgotten => self.locals(name).get(..3).map(|nearest| nearest[1]),
            ParameterMeant => self.nearest(name, |kind| kind == 3),
            IfNullNameHidesNothing => self.nearest(name, |kind| kind != 36),
            IndexNameHidesNothing => self.nearest(name, |kind| kind != 18),
            _ => None,
        }
    }

    /// The nearest local binder of a name whose kind satisfies a test.
    fn nearest(&self, name: u16, test: fn(u16) -> bool) -> Option<u16> {
        self.locals(name).into_iter().find(|&binder| test(self.kind(binder as usize)))
    }

    /// A binder, or under a mutant the outermost local of its name.
    pub(crate) fn hidden_by(&self, binder: u16, name: u16, mutant: Mutant) -> u16 {
        if !self.breaks(mutant) {
            return binder;
        }
        self.locals(name).last().copied().unwrap_or(binder)
    }

    /// A mutant of these asks that an index name be fresh.
    pub(crate) fn index_asks(&self, at: usize, name: u16, mutants: &[Mutant]) -> Judged<()> {
        let Some(mutant) = mutants.iter().find(|&&m| self.breaks(m)) else { return Ok(()) };
        let binder = self.find(name);
        let clash = self.is_local(binder)
            && match mutant {
                IndexNameFreshInBlock => binder as usize >= self.own,
                IndexNamesDiffer => self.kind(binder as usize) == 18,
                _ => true,
            };
        if clash { fault(7, at) } else { Ok(()) }
    }

    /// Takes the local bindings made from a node on out of the scope.
    pub(crate) fn put_aside(&mut self, first: usize) -> Vec<u16> {
        let mut nodes = Vec::new();
        while self.scope > 0 && self.work[self.scope - 1][1] as usize >= first {
            nodes.push(self.work[self.scope - 1][1]);
            self.leave(self.scope - 1);
        }
        nodes
    }

    /// Puts them back.
    pub(crate) fn take_back(&mut self, nodes: Vec<u16>) {
        for node in nodes.into_iter().rev() {
            self.bind(self.file.node(node as usize).x(), node as usize);
        }
    }

    /// What a mutant hides from the initializer of a for's variable.
    pub(crate) fn initializers_aside(&mut self, at: usize) -> Vec<u16> {
        let hides = self.breaks(ForInitializersOutside) && self.is_of_for(at) && !self.is_step(at);
        if hides { self.put_aside(self.own) } else { vec![] }
    }

    /// Whether a mutant overlooks the local that hides a function from the left
    /// side at a node.
    pub(crate) fn overlooks(&self, binder: u16, left: usize) -> bool {
        let Some(mutant) = self.rules.mutant().filter(|_| self.is_local(binder)) else { return false };
        let binder = binder as usize;
        match mutant {
            HidingForgotten => true,
            HidingOwnOnly => binder < self.own,
            HidingNearOnly => self.level(left) > self.level(binder) + 1,
            HidingParameterForgotten => self.kind(binder) == 3,
            HidingVarForgotten => self.kind(binder) == 31 && !self.is_of_for(binder),
            HidingForVarForgotten => self.is_of_for(binder),
            HidingIfNullForgotten => self.kind(binder) == 36,
            _ => false,
        }
    }

    /// A parameter, var or if? before a node has the name.
    pub(crate) fn was_local(&self, name: u16, at: usize) -> bool {
        (0..at).any(|i| matches!(self.kind(i), 3 | 31 | 36) && self.file.node(i).x() == name)
    }

    fn is_var(&self, at: usize, name: u16) -> bool {
        self.kind(at) == 31 && self.file.node(at).x() == name
    }

    /// A var that is a for's variable or step.
    fn is_of_for(&self, at: usize) -> bool {
        self.kind(at) == 31 && self.kind(self.parent(at)) == 37
    }

    /// A var that is a for's step: the for's block stands behind it.
    fn is_step(&self, at: usize) -> bool {
        self.is_of_for(at) && self.kind(self.past_tree(at)) == 39
    }

    /// The level of a node's scope, counted as document 02 does; a binder that is
    /// an if? counts with its name.
    fn level(&self, at: usize) -> usize {
        let (mut node, mut level) = (at, usize::from(self.kind(at) == 36));
        while self.kind(node) != 2 {
            let (child, parent) = (node, self.parent(node));
            level += match (self.kind(parent), self.kind(child)) {
                (37, 39) => 2,
                (36, 39) if self.is_first_arm(child, parent) => 2,
                (37, _) | (35 | 36 | 38, 39) => 1,
                _ => 0,
            };
            node = parent;
        }
        level
    }

    fn is_first_arm(&self, arm: usize, test: usize) -> bool {
        let next = self.past_tree(arm);
        next < self.file.nodes.len() && self.parent(next) == test
    }
}
