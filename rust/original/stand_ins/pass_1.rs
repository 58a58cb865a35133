// Stand-in: the first pass of the calculation, which is not run here.

use super::{Fit, Info, Item, Objects};

pub struct PassOne;

impl PassOne {
    pub fn pass(_info: &impl Info, _fit: &Fit) -> Objects {
        unreachable!("the calculation is not run")
    }
}

impl Item {
    pub fn set_type_ids(&mut self, _info: &impl Info) {
        unreachable!("the calculation is not run")
    }
}
