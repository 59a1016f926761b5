//! Statements and blocks: document 01, "Typing, and where the print is
//! damaged", document 02's requests (i) and (vi), and document 001, section 4,
//! from variable declarations on.
//! A mark is true for a statement that definitely returns.

use crate::expressions::BOOL;
use crate::file::{Four, NULLABLE, VOID};
use crate::mutants::{Mutant, Mutant::*, Rules};
use crate::types::NONE;
use crate::typing::{Checker, Judged, fault};

impl<R: Rules> Checker<'_, R> {
    /// Opens a block at a node and gives the one around it. A mutant has the
    /// two be one.
    fn open(&mut self, node: usize, one: Mutant) -> usize {
        let outer = self.own;
        if !self.breaks(one) {
            self.own = node;
        }
        outer
    }

    /// Goes back to the block around.
    fn close(&mut self, outer: usize) {
        self.own = self.other_block(outer).unwrap_or(outer);
    }

    /// Types the block at `next`, which stands inside the present one.
    fn block(&mut self, one: Mutant) -> Judged<bool> {
        let outer = self.open(self.next, one);
        let mark = self.statements()?;
        self.close(outer);
        if self.breaks(RestoredTooFar) {
            self.put_aside(outer);
        }
        Ok(mark)
    }

    /// Types the statements of the block at `next`; what they bind is gone after
    /// them.
    pub(crate) fn statements(&mut self) -> Judged<bool> {
        let at = self.next;
        self.next += 1;
        self.turn_comes(at);
        let scope = self.scope;
        let last = self.file.node(at).children();
        let mut mark = last == 0 && self.breaks(EmptyBlockReturns);
        let mut late = Ok(());
        for k in 1..=last {
            let child = self.next;
            mark = self.statement(Some(last - k))?;
            if mark && k < last && !self.goes_on_by_loop(EndlessIfNotLast, child) {
                let dead = fault(14, if self.breaks(DeadCodePlace) { at } else { child });
                if self.breaks(DeadCodeLate) {
                    late = late.and(dead);
                } else if !self.breaks(DeadCodeAllowed) {
                    dead?;
                }
            }
        }
        late?;
        if !self.breaks(BlockVarsStay) {
            self.leave(scope);
        }
        self.rows[at] = [u16::from(mark), NONE];
        Ok(mark)
    }

    /// Types the statement at `next` and gives its mark. `behind` counts the
    /// statements of its block that stand behind it; a for's step has no block.
    fn statement(&mut self, behind: Option<u16>) -> Judged<bool> {
        let at = self.next;
        self.next += 1;
        self.turn_comes(at);
        let n = self.file.node(at);
        let mark = match n.kind() {
            30 => self.assignment(at)?,
            31 => self.var(at, n.x())?,
            32 => self.return_value(at)?,
            33 => self.return_void(at)?,
            34 => self.call(at, n, true).map(|_| self.breaks(CallStatementReturns))?,
            35 => self.if_bool(at)?,
            36 => self.if_null(at, n)?,
            37 => self.for_loop(at, n, behind)?,
            _ => self.while_loop(at, behind)?,
        };
        let shown = mark && !(n.kind() == 38 && self.breaks(EndlessRowNone));
        self.rows[at] = [u16::from(shown), NONE];
        Ok(mark)
    }

    /// No function's name on the left, both sides, subtype.
    fn assignment(&mut self, at: usize) -> Judged<bool> {
        let banned = self.assigns_function(self.next);
        if banned && !self.breaks(FunctionTestLast) {
            return fault(15, at);
        }
        let left = self.expression()?;
        let right = self.expression()?;
        if banned {
            return fault(15, at);
        }
        let pair = if self.breaks(AssignmentTurned) { [left, right] } else { [right, left] };
        if self.ask(at, pair, AssignmentUncounted) { Ok(false) } else { fault(11, at) }
    }

    /// The left side is the name of a function or built-in that no local hides.
    fn assigns_function(&self, left: usize) -> bool {
        let n = self.file.node(left);
        if n.kind() != 15 || self.breaks(FunctionAssignable) {
            return false;
        }
        let binder = self.find(n.x());
        let global_pointer = self.breaks(FunctionGlobalBanned)
            && binder < self.file.nodes.len() as u16
            && self.file.node(binder as usize).kind() == 1
            && self.file.kind_of(self.type_of(binder)) == crate::file::FUNCTION;
        let overlooked = self.overlooks(binder, left) && self.global_function(n.x());
        let after = self.breaks(HidingStays) && self.was_local(n.x(), left);
        self.is_function(binder) && !after || global_pointer || overlooked
    }

    /// Only under a mutant: some function has the name, hidden or not.
    fn global_function(&self, name: u16) -> bool {
        (0..self.file.nodes.len()).any(|i| self.file.node(i).kind() == 2 && self.file.node(i).x() == name)
    }

    /// Expression, then a fresh name, then the binding.
    fn var(&mut self, at: usize, name: u16) -> Judged<bool> {
        if self.breaks(VarFreshFirst) {
            self.fresh(at, name)?;
        }
        let aside = self.initializers_aside(at);
        self.expression()?;
        self.take_back(aside);
        if !self.breaks(VarMayRepeat) {
            self.fresh(at, name)?;
        }
        self.bind(name, at);
        Ok(self.breaks(VarReturns))
    }

    /// The var's own block has not bound the name: document 02, (vi).
    fn fresh(&self, at: usize, name: u16) -> Judged<()> {
        let binder = self.find(name);
        let bound = self.is_local(binder) && binder as usize >= self.own;
        if self.other_clash(at, name, bound).unwrap_or(bound) {
            return fault(7, self.clash_place(at));
        }
        Ok(())
    }

    /// Void first, then the expression and the subtype.
    fn return_value(&mut self, at: usize) -> Judged<bool> {
        if self.result == VOID && !self.breaks(ReturnVoidLast) {
            return fault(13, at);
        }
        let child = self.next;
        let t = self.expression()?;
        if self.result == VOID {
            return fault(13, at);
        }
        let below = self.ask(at, [t, self.result], ReturnUncounted) || self.breaks(ReturnFree);
        let equal = !self.breaks(ReturnEqual) || self.types.equal(t, self.result);
        if below && equal { Ok(true) } else { fault(11, if self.breaks(ReturnPlace) { child } else { at }) }
    }

    fn return_void(&mut self, at: usize) -> Judged<bool> {
        self.pairs += u32::from(self.breaks(BareReturnCounted));
        if self.result == VOID || self.breaks(ReturnNothing) {
            return Ok(true);
        }
        fault(if self.breaks(ReturnNothingIsEleven) { 11 } else { 13 }, at)
    }

    /// Condition, block, block.
    fn if_bool(&mut self, at: usize) -> Judged<bool> {
        if self.breaks(ConditionFree) {
            self.expression()?;
        } else {
            self.expression_of(BOOL, at)?;
        }
        let (first, second) = (self.block(IfShared)?, self.block(ElseShared)?);
        Ok(if self.breaks(EitherArmReturns) { first || second } else { first && second })
    }

    /// Nullable expression, subtype, block with the name, block without it. The
    /// name is a block of its own, which the first block stands in.
    fn if_null(&mut self, at: usize, n: Four) -> Judged<bool> {
        let scope = self.scope;
        if self.breaks(IfNullNameInExpression) {
            self.bind(n.x(), at);
        }
        let t = self.expression()?;
        self.leave(scope);
        if self.file.kind_of(t) != NULLABLE {
            return fault(10, at);
        }
        let inside = self.file.ty(t).a();
        if self.breaks(IfNullFormed) && !self.types.well_formed(n.t()) {
            return fault(9, at);
        }
        let pair = if self.breaks(IfNullTurned) { [n.t(), inside] } else { [inside, n.t()] };
        if !self.ask(at, pair, IfNullUncounted) {
            return fault(11, at);
        }
        if self.breaks(IfNullNameOutside) {
            self.fresh(at, n.x())?;
        }
        if self.breaks(IfNullFresh) && self.is_local(self.find(n.x())) {
            return fault(7, at);
        }
        let outer = self.open(at, IfNullNameOutside);
        self.bind(n.x(), at);
        let first = self.block(IfNullNameInArm)?;
        self.close(outer);
        if !self.breaks(IfNullNameInElse) {
            self.leave(scope);
        }
        let second = self.block(IfNullElseShared)?;
        self.leave(scope);
        if self.breaks(IfNullNameStays) {
            self.bind(n.x(), at);
        }
        Ok(if self.breaks(IfNullEitherArm) { first || second } else { first && second })
    }

    /// Vars, condition, step, block; all bindings are gone after it. Vars and
    /// step are one block, which the block stands in.
    fn for_loop(&mut self, at: usize, n: Four, behind: Option<u16>) -> Judged<bool> {
        let outside = self.scope;
        let outer = self.open(at, ForVarsOutside);
        for _ in 0..n.children() - 3 {
            self.statement(None)?;
        }
        let condition = self.next;
        self.for_condition(at)?;
        let inside = self.scope;
        let late = self.for_step(at)?;
        if !self.breaks(ForStepStays) && !self.breaks(ForStepInBlock) {
            self.leave(inside);
        }
        let mark = self.block(ForBlockShared)?;
        self.close(outer);
        late?;
        self.leave(if self.breaks(ForVarsStay) { inside } else { outside });
        Ok(mark && self.breaks(ForReturns) || self.for_returns(condition, behind))
    }

    fn for_condition(&mut self, at: usize) -> Judged<()> {
        if self.absent() {
            return Ok(());
        }
        let parent = if self.breaks(ForConditionPlace) { self.next } else { at };
        let aside = if self.breaks(ForConditionOutside) { self.put_aside(at) } else { vec![] };
        self.expression_of(BOOL, parent)?;
        self.take_back(aside);
        Ok(())
    }

    /// A step that returns breaks at itself; only a mutant hands that on.
    fn for_step(&mut self, at: usize) -> Judged<Judged<()>> {
        let child = self.next;
        if self.breaks(ForStepApart) {
            self.own = child;
        }
        if self.absent() || !self.statement(None)? || self.breaks(ForStepMayReturn) {
            return Ok(Ok(()));
        }
        if self.goes_on_by_loop(EndlessIfStep, child) {
            return Ok(Ok(()));
        }
        let returns = fault(14, if self.breaks(ForStepPlace) { at } else { child });
        if self.breaks(ForStepMarkLate) { Ok(returns) } else { returns.map(Ok) }
    }

    /// Moves past a 40, which adds no premise.
    fn absent(&mut self) -> bool {
        if self.file.node(self.next).kind() != 40 {
            return false;
        }
        self.rows[self.next] = [if self.breaks(AbsentRow) { NONE } else { 0 }, NONE];
        self.next += 1;
        true
    }

    /// Condition, block. It may go on, unless its condition is the node `true`
    /// and it is the last statement of its block: document 02, (i).
    fn while_loop(&mut self, at: usize, behind: Option<u16>) -> Judged<bool> {
        if self.breaks(WhileConditionFree) {
            self.expression()?;
        } else {
            self.expression_of(BOOL, at)?;
        }
        let block = self.block(WhileShared)?;
        let endless = self.file.node(at + 1).kind() == 11;
        let mark = endless && behind == Some(0);
        Ok(self.other_while(at, behind, block).unwrap_or(mark))
    }
}
