//! Comparing types under mutants: other answers and, for document 02's request
//! (viii), other counts; and other sums of a check. All of this is asked under
//! mutants alone.

use crate::Below;
use crate::file::{ARRAY, FUNCTION, Four, NULLABLE, STRUCT, VOID, listed, name_type};
use crate::mutants::{Mutant, Mutant::*, Rules};
use crate::types::{How, Types};
use crate::typing::Checker;

impl<R: Rules> Types<'_, R> {
    /// A pair, which counts other than 1 under some mutants.
    pub(crate) fn pair_under(&self, mutant: Mutant, how: How, a: u16, b: u16) -> Below {
        let found = self.other_pair(mutant, how, a, b).unwrap_or_else(|| self.pair(how, a, b));
        let uncounted = self.uncounted(mutant, how, a, b);
        let fields = self.fields_counted(mutant, how, a, b);
        Below { pairs: found.pairs - u32::from(uncounted) + fields, ..found }
    }

    /// What a mutant says of a pair.
    fn other_pair(&self, mutant: Mutant, how: How, a: u16, b: u16) -> Option<Below> {
        let (t, u) = (self.file.ty(a), self.file.ty(b));
        if [t.kind(), u.kind()] == [FUNCTION; 2] {
            return Some(self.functions_under(mutant, how, t, u));
        }
        let inside = |a, b| Below::one(true).then(|| self.compare(How::Below, a, b));
        Some(match (mutant, t.kind(), u.kind()) {
            _ if how == How::Equal => return None,
            (_, ARRAY, ARRAY) => return self.other_arrays(mutant, a, b),
            (UndeclaredBelowItself, STRUCT, STRUCT) if self.equal(a, b) => Below::one(true),
            (NullablesInvariant, NULLABLE, NULLABLE) if !self.equal(a, b) => Below::one(false),
            (_, NULLABLE, NULLABLE) => return None,
            (NullableBelowPlain, NULLABLE, _) => inside(t.a(), b),
            (NullableGoesOn, NULLABLE, _) => Below { holds: false, ..inside(t.a(), b) },
            (PlainNotBelowNullable, _, NULLABLE) => Below::one(false),
            (PlainGoesOn, 0 | 1 | VOID, NULLABLE) => inside(a, u.a()),
            _ => return None,
        })
    }

    /// What a mutant says of two arrays.
    fn other_arrays(&self, mutant: Mutant, a: u16, b: u16) -> Option<Below> {
        let (element, other) = (self.file.ty(a).a(), self.file.ty(b).a());
        let right = self.pair(How::Below, a, b);
        let there = || self.compare(How::Below, element, other);
        let back = || self.compare(How::Below, other, element);
        Some(match mutant {
            NumbersCompared => Below::one(a == b),
            ArraysCovariant => Below { holds: right.holds || there().holds, ..right },
            ArraysOfMutual => Below { holds: right.holds || there().holds && back().holds, ..right },
            ArrayBelowItselfIfFormed => Below { holds: right.holds && self.well_formed(a), ..right },
            EqualityOne => Below { pairs: 2, ..right },
            EqualityNone => Below { pairs: 1, ..right },
            EqualityBySubtyping => Below { pairs: 1 + there().pairs, ..right },
            _ => return None,
        })
    }

    /// Two functions: what they refer to, in some order, up to some failing pair.
    fn functions_under(&self, mutant: Mutant, how: How, t: Four, u: Four) -> Below {
        let (p, q) = (self.file.parameters(t), self.file.parameters(u));
        let [late, last_first, returns_first, goes_on] = match how {
            How::Below => [NumbersLate, LastParameterFirst, ReturnsFirst, ComparingGoesOn],
            How::Equal => [EqualNumbersLate, EqualLastParameterFirst, EqualReturnsFirst, EqualityGoesOn],
        };
        let numbers = p.len() == q.len() || mutant == ParameterNumberFree && how == How::Below;
        let mut order: Vec<(bool, u16, u16)> = p.iter().zip(q).map(|(p, q)| (false, listed(q), listed(p))).collect();
        if mutant == last_first {
            order.reverse();
        }
        let place = if mutant == returns_first { 0 } else { order.len() };
        order.insert(place, (true, t.a(), u.a()));
        if !numbers {
            order.truncate(if mutant == late { order.len() - 1 } else { 0 });
        }
        let mut all = Below::one(true);
        for (is_return, a, b) in order {
            if all.holds || mutant == goes_on || is_return && mutant == ReturnsAnyway {
                let next = self.referred(mutant, how, is_return, [a, b]);
                all = Below { holds: all.holds && next.holds, pairs: all.pairs + next.pairs };
            }
        }
        Below { holds: all.holds && numbers, ..all }
    }

    /// A pair that two functions refer to.
    fn referred(&self, mutant: Mutant, how: How, is_return: bool, [a, b]: [u16; 2]) -> Below {
        match (mutant, how, is_return) {
            (EqualWithoutReturn, How::Equal, true) => return Below::START,
            (ReturnContravariant, How::Below, true) | (ParametersCovariant, How::Below, false) => {
                return self.compare(how, b, a);
            }
            _ => {}
        }
        let right = self.compare(how, a, b);
        match (mutant, how, is_return) {
            (ReturnInvariant, How::Below, true) | (ParametersInvariant, How::Below, false) => {
                Below { holds: right.holds && self.equal(a, b), ..right }
            }
            (AllBelowVoid, How::Below, true) => Below { holds: right.holds || b == VOID, ..right },
            (InnerFunctionsOne, ..) if self.file.kind_of(a) == FUNCTION => Below { pairs: 1, ..right },
            _ => right,
        }
    }

    /// Whether a mutant leaves a pair out.
    fn uncounted(&self, mutant: Mutant, how: How, a: u16, b: u16) -> bool {
        let kinds = [self.file.kind_of(a), self.file.kind_of(b)];
        let both = |kind: u16| kinds == [kind; 2];
        let below = how == How::Below;
        let refers = below && kinds[1] == NULLABLE && ![0, 1, VOID, NULLABLE].contains(&kinds[0]);
        match mutant {
            NullablesUncounted => below && both(NULLABLE),
            ReferencesUncounted => refers,
            ArraysUncounted => below && both(ARRAY),
            FunctionsUncounted => below && both(FUNCTION),
            VoidsUncounted => both(VOID),
            UnlikeUncounted => kinds[0] != kinds[1] && !refers,
            UndeclaredUncounted => below && both(STRUCT) && (self.record(a).is_none() || self.record(b).is_none()),
            EqualStructsUncounted => !below && both(STRUCT),
            EqualArraysUncounted => !below && both(ARRAY),
            EqualNullablesUncounted => !below && both(NULLABLE),
            EqualFunctionsUncounted => !below && both(FUNCTION),
            FailingUncounted => !refers && self.fails_itself(how, kinds, a, b),
            _ => false,
        }
    }

    /// A pair that fails before it leads to others.
    fn fails_itself(&self, how: How, [kind, other]: [u16; 2], a: u16, b: u16) -> bool {
        let numbers = [a, b].map(|t| self.file.ty(t).c());
        match kind {
            _ if kind != other => true,
            STRUCT => !self.pair(how, a, b).holds,
            FUNCTION => numbers[0] != numbers[1],
            _ => false,
        }
    }

    /// Only under a mutant: how many fields of two structs are compared.
    fn fields_counted(&self, mutant: Mutant, how: How, a: u16, b: u16) -> u32 {
        let counts =
            [a, b].map(|t| if self.file.kind_of(t) == STRUCT { self.record(t).map(|r| r.count) } else { None });
        match (mutant, how, counts) {
            (FieldsCounted, How::Below, [Some(first), Some(second)]) => first.min(second) as u32,
            _ => 0,
        }
    }

    /// The count that a mutant has for a whole question.
    pub(crate) fn other_count(&self, a: u16, b: u16, found: Below) -> Option<Below> {
        let pairs = match self.rules.mutant()? {
            SameNumberOne if a == b && found.holds => 1,
            EqualTypesOne if self.equal(a, b) && found.holds => 1,
            SameTypeParts if self.equal(a, b) => self.parts(a),
            LeftParts => self.parts(a),
            NoIsZero if !found.holds => 0,
            NoIsOne if !found.holds => 1,
            FirstPairUncounted => found.pairs.max(1) - 1,
            CountCut => found.pairs % 256,
            _ => return None,
        };
        Some(Below { pairs, ..found })
    }

    fn parts(&self, t: u16) -> u32 {
        let four = self.file.ty(t);
        match four.kind() {
            ARRAY | NULLABLE => 1 + self.parts(four.a()),
            FUNCTION => {
                let taken = self.file.parameters(four).iter().map(|p| self.parts(listed(p)));
                1 + self.parts(four.a()) + taken.sum::<u32>()
            }
            _ => 1,
        }
    }
}

impl<R: Rules> Checker<'_, R> {
    /// Notes the sum where a node's turn comes. Some mutants then lose what the
    /// children before it were asked.
    #[inline(always)]
    pub(crate) fn turn_comes(&mut self, at: usize) {
        if let Some(mutant) = self.rules.mutant() {
            self.note(at, self.pairs);
            self.lose_before(mutant, at);
        }
    }

    fn note(&mut self, place: usize, sum: u32) {
        self.sums.resize(self.file.nodes.len() + 2, 0);
        self.sums[place] = sum;
    }

    fn lose_before(&mut self, mutant: Mutant, at: usize) {
        let kinds: &[u16] = match mutant {
            OperandsLost => &[18, 19, 26, 30],
            ListLost => &[16, 21, 24, 34],
            ArmsLost => &[35, 36],
            LoopsLost => &[37, 38],
            StatementsLost => &[39],
            _ => return,
        };
        let parent = self.parent(at);
        if parent + 1 < at && kinds.contains(&self.kind(parent)) {
            self.pairs = self.sums[parent];
        }
    }

    /// Notes the sum where a step on a declaration begins, and its kind.
    #[inline(always)]
    pub(crate) fn step_begins(&mut self, kind: u16) {
        let Some(mutant) = self.rules.mutant() else { return };
        let end = self.file.nodes.len();
        self.note(end, self.pairs);
        let before = std::mem::replace(&mut self.sums[end + 1], kind.into());
        if mutant == StepsAnew || mutant == GlobalsLost && before == 1 && kind == 2 {
            self.pairs = 0;
        }
    }

    /// The sum that a mutant tells.
    pub(crate) fn other_sum(&self, number: u16) -> Option<u32> {
        let before = self.sums.get(self.file.nodes.len()).copied().unwrap_or(0);
        Some(match self.rules.mutant()? {
            RefusalZero if number > 0 => 0,
            OtherRefusalZero if number > 0 && number != 11 => 0,
            RefusingStepLost if number > 0 => before,
            SumCut => self.pairs % (1 << 16),
            _ => return None,
        })
    }

    /// The count that a mutant has for one question of a rule.
    pub(crate) fn other_question(&self, found: Below) -> Option<u32> {
        (self.rules.mutant()? == BrokenUncounted && !found.holds).then_some(0)
    }

    /// What a mutant makes of a list's questions; `more` has one more than `asked`.
    pub(crate) fn other_also(&mut self, asked: Below, more: Below, [a, b]: [u16; 2], early: Mutant) -> Option<Below> {
        let mutant = self.rules.mutant()?;
        if mutant == ListGoesOn {
            let next = self.question(a, b);
            return Some(Below { holds: asked.holds && next.holds, pairs: asked.pairs + next.pairs });
        }
        if mutant == early {
            self.pairs += more.pairs;
            return Some(Below { pairs: 0, ..more });
        }
        None
    }

    /// What a mutant adds for the questions at a node.
    pub(crate) fn other_addend(&mut self, at: usize, asked: Below, free: Mutant) -> Option<u32> {
        let (mutant, kind) = (self.rules.mutant()?, self.kind(at));
        let is_list = matches!(kind, 16 | 21 | 24 | 34);
        Some(match mutant {
            _ if mutant == free => 0,
            BrokenListUncounted if is_list && !asked.holds => 0,
            ChildrenLost if is_list => {
                self.pairs = self.sums[at];
                asked.pairs
            }
            ListFromLast if is_list => self.asked_in_order(self.list(at).into_iter().rev()),
            FieldOrder if kind == 21 => {
                let mut list = self.list(at);
                list.sort();
                self.asked_in_order(list)
            }
            IfNullWhole if kind == 36 => asked.pairs + 1,
            _ => return None,
        })
    }

    /// The questions of the list at a node, whose children are typed: the place of
    /// the type that is due, the child's type, the type that is due.
    fn list(&self, at: usize) -> Vec<(usize, [u16; 2])> {
        let n = self.file.node(at);
        let mut child = at + 1;
        let mut list = Vec::new();
        for k in 0..n.children() as usize {
            let field = self.work[child][0] as usize;
            let callee = self.file.ty(self.rows[at + 1][0]);
            let due = match n.kind() {
                16 => Some((k, self.file.ty(n.t()).a())),
                21 => self.types.record(n.t()).map(|r| (field, name_type(&self.file.fields_of(r)[field]).ty)),
                _ => k.checked_sub(1).map(|k| (k, listed(&self.file.parameters(callee)[k]))),
            };
            list.extend(due.map(|(k, due)| (k, [self.rows[child][0], due])));
            child = self.past_tree(child);
        }
        list
    }

    fn asked_in_order(&self, list: impl IntoIterator<Item = (usize, [u16; 2])>) -> u32 {
        let ask = |asked: Below, (_, [a, b]): (usize, [u16; 2])| asked.then(|| self.question(a, b));
        list.into_iter().fold(Below::START, ask).pairs
    }

    /// Both directions of an equality, as a mutant asks them.
    pub(crate) fn other_both(&self, a: u16, b: u16) -> Option<Below> {
        let mutant = self.rules.mutant()?;
        let [there, back] = [self.question(a, b), self.question(b, a)];
        let holds = there.holds && back.holds;
        Some(match mutant {
            EqualityBackOnly => back,
            EqualityThereOnly => there,
            EqualityBackAnyway => Below { holds, pairs: there.pairs + back.pairs },
            EqualityBackUncounted => Below { holds, ..there },
            EqualityTurned => back.then(|| there),
            _ => return None,
        })
    }
}
