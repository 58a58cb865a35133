// Stand-in: the fourth pass of the calculation, which is not run here.

use super::{Info, Objects, Pass};

pub struct PassFour;

impl Pass for PassFour {
    fn pass(_info: &impl Info, _objects: &mut Objects) {
        unreachable!("the calculation is not run")
    }
}
