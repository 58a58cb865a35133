// Stand-in: the third pass of the calculation, which is not run here.

use super::{Info, Objects, Pass};

pub struct PassThree;

impl Pass for PassThree {
    fn pass(_info: &impl Info, _objects: &mut Objects) {
        unreachable!("the calculation is not run")
    }
}
