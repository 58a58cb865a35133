//! Training at full size: a fit that lists as much as there may be over the
//! catalogue of full size, and the longest plan that there can be.

use super::skills;
use crate::case::{Ask, Case, Room, Steps};
use crate::model::Skill;
use crate::names::REQUIRED;
use crate::sketch::Sketch;

pub const COUNT: usize = 3;

/// The most skills that a result wants, each at the highest level.
const WANTED: i32 = 512;

pub fn case(number: usize) -> Case {
    match number {
        0 => {
            let mut case = skills::untrained();
            case.title = "training for 512 listed skills, at full size".to_string();
            case.asks = vec![
                Ask::Train(0, Steps::Of(1), Room::OneShort),
                Ask::Train(0, Steps::Of(1_234), Room::Exact),
                Ask::Train(0, Steps::All, Room::Longer(40)),
                Ask::Train(0, Steps::Of(u32::MAX), Room::Exact),
            ];
            case
        }
        1 => longest(512),
        _ => longest(513),
    }
}

/// 512 skills at level 255, none of them listed, beside so many that are: one by
/// one they come to 130,560 steps.
fn longest(listed: i32) -> Case {
    let mut sketch = Sketch::hull()
        .ship(REQUIRED, 3300.0)
        .ship(REQUIRED + 1, 255.0);
    for number in 0..WANTED - 1 {
        // Ids that fall and rise by turns, so that skills are added anywhere.
        sketch = sketch
            .base(wanted(number), REQUIRED, wanted(number + 1) as f32)
            .base(wanted(number), REQUIRED + 1, 255.0);
    }
    let other = |number: i32| Skill {
        id: 3301 + 2 * (number - listed / 2),
        level: (number % 6) as u8,
    };
    sketch.fit.skills = (0..listed).map(other).collect();
    let steps = [
        Steps::Of(0),
        Steps::Of(255),
        Steps::Of(256),
        Steps::Of(65_536),
        Steps::Of(65_537),
        Steps::OneLess,
        Steps::All,
        Steps::OneMore,
        Steps::Of(131_072),
        Steps::Of(u32::MAX),
    ];
    let mut asks = steps
        .map(|steps| Ask::Train(0, steps, Room::Longer(40)))
        .to_vec();
    asks.push(Ask::Train(0, Steps::All, Room::Exact));
    asks.push(Ask::Train(0, Steps::All, Room::OneShort));
    asks.extend([Steps::OneLess, Steps::All].map(|steps| Ask::Trained(0, steps)));
    sketch.case("the longest plan", &asks)
}

/// The skill of a number: 3300, 3298, 3302, 3296, ..
fn wanted(number: i32) -> i32 {
    match number % 2 {
        0 => 3300 + number,
        _ => 3299 - number,
    }
}
