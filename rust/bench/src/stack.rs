//! How much stack a call takes: how deep a thread can be when it makes the
//! call and still lives.
//!
//! A child process goes down so many frames in a thread of a known stack and
//! makes the call there; one frame too many and the child dies. The deepest
//! child that lives says how far down it was, and so does the deepest one that
//! makes no call: what lies between is the call's.

use std::hint::black_box;
use std::process::Command;
use std::thread;

use compare::checker::Terms;

use crate::subject::{self, Catalogue, Fit};
use crate::{fits, world};

/// The stack that the calls may take, and that the child's thread has.
pub const BUDGET: usize = 256 * 1024;

/// Each frame of the descent takes at least so much.
const FRAME: usize = 64;

#[derive(Clone, Copy, PartialEq)]
pub enum Call {
    Nothing,
    List,
    Skill,
    Hall,
    Widen,
    Train,
    Trim,
    Cause,
    LeaveOut,
}

impl Call {
    pub const ALL: [Call; 9] = [
        Call::Nothing,
        Call::List,
        Call::Skill,
        Call::Hall,
        Call::Widen,
        Call::Train,
        Call::Trim,
        Call::Cause,
        Call::LeaveOut,
    ];

    pub fn name(self) -> &'static str {
        match self {
            Call::Nothing => "nothing",
            Call::List => "list",
            Call::Skill => "skill",
            Call::Hall => "hall",
            Call::Widen => "widen",
            Call::Train => "train",
            Call::Trim => "trim",
            Call::Cause => "cause",
            Call::LeaveOut => "leave out",
        }
    }
}

/// A call with its input: the largest fit, and for the skills, the training and the
/// trim a chain of 512; the trim has one skill more, so that it walks twice. The cause is
/// one of the longest list, and so many pairs are what is left out of.
pub struct Prepared {
    call: Call,
    catalogue: Vec<u8>,
    input: Vec<u8>,
    buffer: Vec<u8>,
}

impl Prepared {
    pub fn new(call: Call) -> Prepared {
        let largest = Fit::new(&fits::fit(fits::LARGEST, 0));
        let (catalogue, input, room) = match call {
            // One byte less than any list could take: it is counted, too,
            // before it is written.
            Call::List => (world::catalogue(world::SMALL), largest.image, 123_383),
            Call::Skill => {
                let fit = Fit::new(&fits::at_chain());
                (world::chain(512, 2), fit.image, 12_288)
            }
            Call::Hall => {
                let fits: Vec<Fit> = (0..64)
                    .map(|number| Fit::new(&fits::fit(fits::LARGEST, number)))
                    .collect();
                (
                    world::catalogue(world::SMALL),
                    subject::hall_input(&fits),
                    0,
                )
            }
            Call::Widen => {
                let catalogue = world::catalogue(world::SMALL);
                let room = catalogue.image().len();
                let old = catalogue.old_image();
                (catalogue, old, room)
            }
            Call::Train => {
                let fit = Fit::new(&fits::at_chain());
                let room = fit.image.len() + subject::TRAINED;
                (world::chain(512, 2), fit.image, room)
            }
            Call::Trim => {
                let catalogue = world::far_chain(512);
                let room = catalogue.image().len();
                (catalogue, Fit::new(&fits::beside_chain()).image, room)
            }
            Call::LeaveOut => {
                let fit = Fit::new(&fits::worst(0));
                (world::catalogue(world::SMALL), fit.image, subject::ANY_SET)
            }
            Call::Cause => {
                let fit = Fit::new(&fits::worst(0));
                (
                    world::catalogue(world::SMALL),
                    fit.image,
                    subject::ANY_CAUSE,
                )
            }
            Call::Nothing => (Default::default(), Vec::new(), 0),
        };
        Prepared {
            call,
            catalogue: Catalogue::new(&catalogue).image,
            input,
            buffer: vec![0; room],
        }
    }

    /// Makes the call.
    pub fn make(&mut self) {
        let library = subject::library();
        let (catalogue, input) = (&self.catalogue, &self.input);
        let word = match self.call {
            Call::List => library.list(catalogue, input, Terms::default(), &mut self.buffer),
            Call::Skill => library.skill(catalogue, input, 0, Terms::default(), &mut self.buffer),
            Call::Hall => library.hall(catalogue, input),
            Call::Widen => library.widen(input, &mut self.buffer),
            Call::Train => library.train(catalogue, input, 0, u32::MAX, &mut self.buffer),
            Call::Trim => library.trim(catalogue, input, &mut self.buffer),
            Call::Cause => library.cause(catalogue, input, 0, &mut self.buffer),
            Call::LeaveOut => library.leave_out(catalogue, input, u32::MAX, &mut self.buffer),
            Call::Nothing => 0,
        };
        assert_eq!(word >> 32, 0, "the call is answered");
    }
}

/// Bytes of stack that a call takes.
pub fn measure(call: Call) -> usize {
    deepest(Call::Nothing) - deepest(call)
}

/// How many bytes lie between the thread's first frame and the deepest one
/// from which the call comes back.
fn deepest(call: Call) -> usize {
    let mut depth = child(call, 0).expect("a call from the top comes back");
    let (mut lives, mut dies) = (0, BUDGET / FRAME);
    while lives + 1 < dies {
        let frames = lives + (dies - lives) / 2;
        match child(call, frames) {
            Some(further) => (depth, lives) = (further, frames),
            None => dies = frames,
        }
    }
    depth
}

/// How deep the child was when it made the call, if it lives.
fn child(call: Call, frames: usize) -> Option<usize> {
    let program = std::env::current_exe().expect("this program has a path");
    let output = Command::new(program)
        .args(["--in-stack", call.name(), &frames.to_string()])
        .output()
        .expect("this program can be run");
    let said = String::from_utf8_lossy(&output.stdout);
    said.trim().parse().ok().filter(|_| output.status.success())
}

/// The child's part: makes a call so many frames down, and gives the number of
/// bytes that this is.
pub fn call_at(call: Call, frames: usize) -> usize {
    let mut prepared = Prepared::new(call);
    let thread = thread::Builder::new().stack_size(BUDGET);
    let thread = thread.spawn(move || {
        let top = 0u8;
        let top = black_box(&top) as *const u8 as usize;
        top - descend(frames, &mut prepared)
    });
    let thread = thread.expect("a thread can be started");
    thread.join().expect("the call does not panic")
}

/// Goes down and makes the call at the bottom; where that is.
#[inline(never)]
fn descend(frames: usize, call: &mut Prepared) -> usize {
    let here = black_box([0u8; FRAME]);
    let bottom = if frames == 0 {
        call.make();
        here.as_ptr() as usize
    } else {
        descend(frames - 1, call)
    };
    black_box(&here);
    bottom
}
