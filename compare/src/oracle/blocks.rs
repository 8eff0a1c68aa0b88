//! Parents and the number of tests, by their definitions over the blocks. An invocation's block is all
//! that comes after it and before its end.

/// For each invocation its parent: the nearest earlier one whose block holds it.
pub fn parents(ends: &[usize]) -> Vec<Option<usize>> {
    let parent = |member: usize| (0..member).rev().find(|&earlier| member < ends[earlier]);
    (0..ends.len()).map(parent).collect()
}

/// For each invocation the members of its block that lie in no other member's block, and one more if
/// the block ends before the last invocation does.
pub fn tests(ends: &[usize]) -> usize {
    let one = |i: usize| tops(ends, i) + usize::from(ends[i] < ends.len());
    (0..ends.len()).map(one).sum()
}

/// Members of a block that lie in no other member's block.
fn tops(ends: &[usize], i: usize) -> usize {
    let mut count = 0;
    let mut covered = 0;
    for (member, end) in ends.iter().enumerate().take(ends[i]).skip(i + 1) {
        if member >= covered {
            count += 1;
        }
        covered = covered.max(*end);
    }
    count
}
