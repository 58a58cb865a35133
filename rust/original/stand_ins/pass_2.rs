// Stand-in: the second pass of the calculation, which is not run here.

use super::{Info, Objects, Pass};

pub struct PassTwo;

impl Pass for PassTwo {
    fn pass(_info: &impl Info, _objects: &mut Objects) {
        unreachable!("the calculation is not run")
    }
}
