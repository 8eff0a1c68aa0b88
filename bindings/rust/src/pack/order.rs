//! Instructions in the order in which they ran: the numbering of invocations.

use super::{Group, Instruction, Pack};

/// An instruction where it ran. Its number is its place among the steps.
#[derive(Clone, Copy, Debug, PartialEq, Eq)]
pub struct Step<'a> {
    /// Index of the outer instruction.
    pub outer: u32,
    /// Index in its group; none for an outer instruction.
    pub inner: Option<u32>,
    /// Stack height: 1 for an outer instruction, else what the pack tells.
    pub height: Option<u32>,
    /// The instruction.
    pub instruction: &'a Instruction,
}

impl Pack {
    /// Each outer instruction, then the groups that name it in the pack's order; the inner index
    /// starts anew in each group. Groups that name no outer instruction are left out.
    ///
    /// ```
    /// use mbelaguy::pack::{Group, Inner, Instruction, Pack};
    ///
    /// let pack = Pack {
    ///     outer: vec![Instruction::default(), Instruction::default()],
    ///     groups: vec![Group { outer: 0, instructions: vec![Inner::default()] }],
    ///     ..Pack::default()
    /// };
    /// let places: Vec<_> = pack.steps().iter().map(|step| (step.outer, step.inner)).collect();
    /// assert_eq!(places, [(0, None), (0, Some(0)), (1, None)]);
    /// ```
    pub fn steps(&self) -> Vec<Step<'_>> {
        let mut groups: Vec<&Group> = self.groups.iter().collect();
        groups.sort_by_key(|group| group.outer);
        let mut groups = groups.into_iter().peekable();
        let mut steps = Vec::new();
        for (outer, instruction) in (0..).zip(&self.outer) {
            steps.push(Step { outer, inner: None, height: Some(1), instruction });
            while let Some(group) = groups.next_if(|group| group.outer == outer) {
                steps.extend((0..).zip(&group.instructions).map(|(inner, item)| Step {
                    outer,
                    inner: Some(inner),
                    height: item.height,
                    instruction: &item.instruction,
                }));
            }
        }
        steps
    }
}
