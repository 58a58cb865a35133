//! The calls from several threads at once.

use std::thread;

use compare::checker::{Checker, Terms};
use compare::reference::Original;
use fitcheck::{ListOptions, Reader};

use crate::common::images;

#[test]
fn threads_do_not_disturb_each_other() {
    let threads: Vec<_> = (0..4u64)
        .map(|thread| {
            thread::spawn(move || {
                for case in (300 + thread..700).step_by(3) {
                    let (catalogue, fits) = images(41, case);
                    for fit in fits {
                        let mut expected = vec![0; 24 * fitcheck::MOST_ENTRIES];
                        let word = Original.list(&catalogue, &fit, Terms::default(), &mut expected);
                        let mut room = vec![0; 24 * fitcheck::MOST_ENTRIES];
                        let listed = fitcheck::list_into(
                            &catalogue,
                            &fit,
                            &ListOptions::new(Reader::Officer),
                            &mut room,
                        );
                        match listed {
                            Ok(entries) => {
                                assert_eq!(entries.len() as u64, word);
                                assert!(expected.starts_with(entries.as_flattened()));
                            }
                            Err(refusal) => assert_eq!(u64::from(refusal.number()), word >> 32),
                        }
                    }
                }
            })
        })
        .collect();
    for thread in threads {
        thread.join().unwrap();
    }
}
