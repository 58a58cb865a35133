// Stand-in: what a fit hands out to others. The calculation is not run here.

use super::{Info, Objects, Projection};

pub fn outgoing(_info: &impl Info, _objects: &Objects) -> Projection {
    unreachable!("the calculation is not run")
}

pub fn beacon() {
    unreachable!("the calculation is not run")
}
