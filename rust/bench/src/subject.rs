//! One input, ready for both sides: images for the library and the scan,
//! structures for the original.

use std::cell::OnceCell;
use std::hint::black_box;

use compare::checker::{Checker, ENTRY, Terms};
use compare::names::{COUNT, REQUIRED};
use compare::page::Limits;
use compare::reader::Reader;
use compare::reference::Original;
use compare::{model, rattle, reference};
use original::{Info, ItemResult, Rule, Run, Target, Violation};

use crate::scan;
use crate::tables::{HashedTables, SortedTables};
use crate::timing::{medians, once};

/// A buffer for any list, and one for the skills of any result: the calls
/// write into these in one pass, and count before they write into shorter ones.
pub const ANY_LIST: usize = 135_696;

/// A buffer for the pairs of any entry.
pub const ANY_CAUSE: usize = 1_024;

/// A buffer for what is taken off any fit.
pub const ANY_SET: usize = 1_032;

/// A buffer of another length, for as many entries as fit into 64 KiB.
pub const MIDDLE: usize = 65_520;
const ANY_SKILLS: usize = 12_288;

/// By how much a fit grows at most when it is trained: 512 skills of five bytes.
pub const TRAINED: usize = 2_560;

/// What every call brings but those of [`leagues`], [`pages`] and [`readers`].
const NO_LEAGUE: Terms = Terms {
    reader: Reader::OFFICER,
    profile: &[],
    allowance: 0,
    limits: Limits::MAIN,
};

/// How often each task is sampled.
const ROUNDS: usize = 101;

/// A catalogue for both sides.
pub struct Catalogue {
    pub image: Vec<u8>,
    hashed: HashedTables,
    sorted: SortedTables,
    /// Without the names by which a result demands skills.
    hashed_part: HashedTables,
    sorted_part: SortedTables,
    /// For the reference, where it is asked.
    decoded: OnceCell<reference::Catalogue>,
}

impl Catalogue {
    pub fn new(catalogue: &model::Catalogue) -> Catalogue {
        let image = catalogue.image();
        assert!(scan::catalogue(&image), "the catalogue is accepted");
        Catalogue {
            image,
            hashed: HashedTables::new(catalogue, COUNT),
            sorted: SortedTables::new(catalogue, COUNT),
            hashed_part: HashedTables::new(catalogue, REQUIRED),
            sorted_part: SortedTables::new(catalogue, REQUIRED),
            decoded: OnceCell::new(),
        }
    }

    fn decoded(&self) -> &reference::Catalogue {
        let decode = || reference::Catalogue::decode(&self.image);
        let decode = || decode().expect("the catalogue is accepted");
        self.decoded.get_or_init(decode)
    }
}

/// A fit for both sides.
pub struct Fit {
    pub image: Vec<u8>,
    decoded: reference::Fit,
}

impl Fit {
    pub fn new(fit: &model::Fit) -> Fit {
        let image = fit.image();
        assert!(scan::fit(&image), "the fit is accepted");
        let decoded = reference::Fit::decode(&image).expect("the fit is accepted");
        Fit { image, decoded }
    }

    fn run<'a, I: Info>(&'a self, info: &'a I) -> Run<'a, I> {
        Run {
            info,
            fit: &self.decoded.fit,
            calculation: &self.decoded.calculation,
        }
    }

    fn result(&self, number: u32) -> &ItemResult {
        self.decoded.result(number).expect("the result is there")
    }
}

/// The library, which every figure is about.
pub fn library() -> Box<dyn Checker> {
    rattle::library().expect(rattle::MISSING)
}

/// What the list call takes, and what it is held against; nanoseconds.
pub struct List {
    /// Entries of all fits together.
    pub entries: usize,
    /// With a buffer for any list, with one of [`MIDDLE`] bytes, and with one
    /// that just holds the entries.
    pub list: f64,
    pub middle: f64,
    pub exact: f64,
    pub scan: f64,
    /// `validate` as published.
    pub original: f64,
    /// `validate` with the skill rule kept from finding anything: its entries
    /// are not in the list, so this is the work that the list call does too.
    pub part: f64,
}

/// What the skill call takes, and what it is held against.
pub struct Skill {
    pub entries: usize,
    pub skill: f64,
    pub exact: f64,
    pub scan: f64,
    /// `report`, the faster of the two tables.
    pub original: f64,
}

/// What the hall call takes, and what it is held against; of all fits.
pub struct Hall {
    pub faulted: usize,
    pub hall: f64,
    /// As many scans of the catalogue as there are fits, and a scan of each
    /// fit.
    pub scans: f64,
    pub fit_scans: f64,
    /// List calls on a smaller catalogue.
    pub small_lists: f64,
    /// `validate`, without the skill rule as above.
    pub part: f64,
}

/// What the widening of a catalogue takes, and what it is held against.
pub struct Widen {
    /// Bytes of the old form and of the new one.
    pub old: usize,
    pub new: usize,
    pub widen: f64,
    /// As many bytes as the new form has, copied.
    pub copy: f64,
    /// The least reading that refusals 1 to 3 ask for, and that copy.
    pub scan: f64,
    /// The same in plain Rust: no refusal, all else copied and each value
    /// converted.
    pub plain: f64,
}

/// What training for one result takes, and what it is held against.
pub struct Train {
    /// Levels that are missing, of all fits together.
    pub missing: u32,
    /// With one step, with as many as are missing, and with 4,294,967,295.
    pub steps: [f64; 3],
    /// The skill call of the same result.
    pub skill: f64,
    /// A copy of the fit.
    pub copy: f64,
}

/// What trimming a catalogue takes, and what it is held against.
pub struct Trim {
    /// Bytes of the catalogue, and of those that are left for each fit, together.
    pub whole: usize,
    pub small: usize,
    pub trim: f64,
    /// The same of a catalogue that is trimmed already.
    pub again: f64,
    /// The list call of the same fit.
    pub list: f64,
}

/// The same once, where it takes seconds, beside one of the skill calls whose walks
/// it makes.
pub struct WorstTrim {
    pub whole: usize,
    pub small: usize,
    pub trim: f64,
    pub skill: f64,
}

/// What it takes to tell what makes an entry, and what that is held against.
pub struct Cause {
    /// Pairs that are kept, of all fits together.
    pub kept: usize,
    pub cause: f64,
    /// The list call of the same fit.
    pub list: f64,
}

/// What it takes to tell what to take off, and what that is held against.
pub struct LeaveOut {
    /// Pairs, tries and pairs that are taken off, of one fit.
    pub pairs: usize,
    pub tries: u32,
    pub taken: usize,
    pub leave_out: f64,
    /// The list call of the same fit.
    pub list: f64,
}

/// Goes through the fits in turn, so that no branch of either side learns one
/// fit by heart.
struct Turns<'a> {
    fits: &'a [Fit],
    next: usize,
}

impl<'a> Turns<'a> {
    fn new(fits: &'a [Fit]) -> Turns<'a> {
        Turns { fits, next: 0 }
    }

    fn next(&mut self) -> (usize, &'a Fit) {
        let number = self.next;
        self.next = (number + 1) % self.fits.len();
        (number, black_box(&self.fits[number]))
    }
}

/// Times the list call, over the fits in turn.
pub fn list(catalogue: &Catalogue, fits: &[Fit]) -> List {
    let library = library();
    let mut long = vec![0; ANY_LIST];
    let mut exact: Vec<Vec<u8>> = fits
        .iter()
        .map(|fit| agreed_list(&*library, catalogue, fit))
        .collect();
    let bytes: usize = exact.iter().map(Vec::len).sum();
    let mut middle = vec![0; MIDDLE];

    let [
        mut t0,
        mut t1,
        mut t2,
        mut t3,
        mut t4,
        mut t5,
        mut t6,
        mut t7,
    ] = std::array::from_fn(|_| Turns::new(fits));
    let image = &catalogue.image;
    let [
        list,
        middle,
        exact,
        scan,
        hashed,
        sorted,
        hashed_part,
        sorted_part,
    ] = medians(
        ROUNDS,
        [
            &mut || {
                let fit = t0.next().1;
                black_box(library.list(black_box(image), &fit.image, NO_LEAGUE, &mut long));
            },
            &mut || {
                let fit = t7.next().1;
                black_box(library.list(black_box(image), &fit.image, NO_LEAGUE, &mut middle));
            },
            &mut || {
                let (number, fit) = t1.next();
                black_box(library.list(
                    black_box(image),
                    &fit.image,
                    NO_LEAGUE,
                    &mut exact[number],
                ));
            },
            &mut || {
                black_box(scan::catalogue(black_box(image)));
                black_box(scan::fit(&t2.next().1.image));
            },
            &mut || drop(black_box(t3.next().1.run(&catalogue.hashed).validate())),
            &mut || drop(black_box(t4.next().1.run(&catalogue.sorted).validate())),
            &mut || {
                drop(black_box(
                    t5.next().1.run(&catalogue.hashed_part).validate(),
                ))
            },
            &mut || {
                drop(black_box(
                    t6.next().1.run(&catalogue.sorted_part).validate(),
                ))
            },
        ],
    );
    List {
        entries: bytes / ENTRY,
        list,
        middle,
        exact,
        scan,
        original: hashed.min(sorted),
        part: hashed_part.min(sorted_part),
    }
}

/// Times the list call over fits and over others in turn. The original alone
/// cannot list the second ones, as their drones are more than it adds up, or
/// their types are missing: their lists are the reference's.
pub fn beside(catalogue: &Catalogue, usual: &[Fit], others: &[Fit]) -> [f64; 2] {
    let library = library();
    let mut long = [vec![0; ANY_LIST], vec![0; ANY_LIST]];
    for fit in others {
        let [given, expected] = &mut long;
        let word = library.list(&catalogue.image, &fit.image, NO_LEAGUE, given);
        assert_eq!(
            word,
            Original.list(&catalogue.image, &fit.image, NO_LEAGUE, expected),
            "entries of the library and of the reference"
        );
        assert_eq!(given, expected, "bytes of the library and of the reference");
    }
    let [mut t0, mut t1] = [usual, others].map(Turns::new);
    let [first, second] = &mut long;
    let image = &catalogue.image;
    let call = |fit: &Fit, out: &mut Vec<u8>| {
        black_box(library.list(black_box(image), &fit.image, NO_LEAGUE, out));
    };
    medians(
        ROUNDS,
        [&mut || call(t0.next().1, first), &mut || {
            call(t1.next().1, second)
        }],
    )
}

/// Times the list call over the fits in turn, without a profile and with one:
/// what the library lists with it is the reference's.
pub fn leagues(catalogue: &Catalogue, fits: &[Fit], terms: Terms) -> [f64; 2] {
    let library = library();
    let mut long = [vec![0; ANY_LIST], vec![0; ANY_LIST]];
    for fit in fits {
        let [given, expected] = &mut long;
        let word = library.list(&catalogue.image, &fit.image, terms, given);
        assert_eq!(
            word,
            Original.list(&catalogue.image, &fit.image, terms, expected),
            "entries of the library and of the reference"
        );
        assert_eq!(given, expected, "bytes of the library and of the reference");
    }
    let [mut t0, mut t1] = [fits, fits].map(Turns::new);
    let [first, second] = &mut long;
    let image = &catalogue.image;
    let call = |fit: &Fit, terms: Terms, out: &mut Vec<u8>| {
        black_box(library.list(black_box(image), &fit.image, black_box(terms), out));
    };
    medians(
        ROUNDS,
        [&mut || call(t0.next().1, NO_LEAGUE, first), &mut || {
            call(t1.next().1, terms, second)
        }],
    )
}

/// Times a call over the fits in turn, on the main page and on one that takes as
/// much as the fits have: what the library leaves is the same.
pub fn pages(catalogue: &Catalogue, fits: &[Fit], result: Option<u32>, small: Limits) -> [f64; 2] {
    let library = library();
    let call = |fit: &Fit, limits: Limits, out: &mut Vec<u8>| {
        let (image, fit) = (black_box(&catalogue.image), &fit.image);
        let terms = Terms {
            limits: black_box(limits),
            ..NO_LEAGUE
        };
        black_box(match result {
            None => library.list(image, fit, terms, out),
            Some(result) => library.skill(image, fit, result, terms, out),
        })
    };
    let mut long = [vec![0; ANY_LIST], vec![0; ANY_LIST]];
    let [main, smaller] = &mut long;
    for fit in fits {
        let word = call(fit, small, smaller);
        assert_eq!(word >> 32, 0, "the smaller page answers");
        assert_eq!(word, call(fit, Limits::MAIN, main), "as the main page does");
        assert_eq!(smaller, main, "byte by byte");
    }
    let [mut t0, mut t1] = [fits, fits].map(Turns::new);
    medians(
        ROUNDS,
        [
            &mut || {
                call(t0.next().1, Limits::MAIN, main);
            },
            &mut || {
                call(t1.next().1, small, smaller);
            },
        ],
    )
}

/// Times the list call over the fits in turn, for an officer and for a guest:
/// what the library lists for either is the reference's.
pub fn readers(catalogue: &Catalogue, fits: &[Fit]) -> [f64; 2] {
    let library = library();
    let call = |checker: &dyn Checker, fit: &Fit, reader: Reader, out: &mut Vec<u8>| {
        let terms = Terms {
            reader: black_box(reader),
            ..NO_LEAGUE
        };
        black_box(checker.list(black_box(&catalogue.image), &fit.image, terms, out))
    };
    let mut long = [vec![0; ANY_LIST], vec![0; ANY_LIST]];
    let [first, second] = &mut long;
    for fit in fits {
        for reader in [Reader::OFFICER, Reader::GUEST] {
            assert_eq!(
                call(&*library, fit, reader, first),
                call(&Original, fit, reader, second),
                "entries of the library and of the reference"
            );
            assert_eq!(first, second, "bytes of the library and of the reference");
        }
    }
    let [mut t0, mut t1] = [fits, fits].map(Turns::new);
    medians(
        ROUNDS,
        [
            &mut || {
                call(&*library, t0.next().1, Reader::OFFICER, first);
            },
            &mut || {
                call(&*library, t1.next().1, Reader::GUEST, second);
            },
        ],
    )
}

/// The list of both sides, byte by byte the same: the library's with either
/// buffer, and the original's over each of the tables that are timed.
pub fn agreed_list(library: &dyn Checker, catalogue: &Catalogue, fit: &Fit) -> Vec<u8> {
    let originals = [
        fit.run(&catalogue.hashed).validate(),
        fit.run(&catalogue.sorted).validate(),
        fit.run(&catalogue.hashed_part).validate(),
        fit.run(&catalogue.sorted_part).validate(),
    ];
    let call = |out: &mut [u8]| library.list(&catalogue.image, &fit.image, NO_LEAGUE, out);
    agreed(&originals, ANY_LIST, call, |rule| {
        !matches!(rule, Rule::Skill { .. })
    })
}

/// The skills of one result, byte by byte the same on both sides.
pub fn agreed_skills(
    library: &dyn Checker,
    catalogue: &Catalogue,
    fit: &Fit,
    result: u32,
) -> Vec<u8> {
    let (outcome, target) = (fit.result(result), target(result));
    let originals = [
        fit.run(&catalogue.hashed).report(outcome, target),
        fit.run(&catalogue.sorted).report(outcome, target),
    ];
    let call = |out: &mut [u8]| library.skill(&catalogue.image, &fit.image, result, NO_LEAGUE, out);
    agreed(&originals, ANY_SKILLS, call, |_| true)
}

/// How many fits of a hall have a list; each list is byte by byte the same on
/// both sides, and the hall call counts them.
pub fn agreed_hall(library: &dyn Checker, catalogue: &Catalogue, fits: &[Fit]) -> usize {
    let lists = fits.iter().map(|fit| agreed_list(library, catalogue, fit));
    let faulted = lists.filter(|list| !list.is_empty()).count();
    let clear = fits.len() - faulted;
    let word = library.hall(&catalogue.image, &hall_input(fits));
    assert_eq!(
        word,
        (clear + 256 * faulted) as u64,
        "clear and faulted fits"
    );
    faulted
}

/// What a result's skills are listed on.
fn target(result: u32) -> Target {
    match result {
        0 | 1 => Target::Ship,
        _ => Target::Item {
            index: result as usize - 2,
        },
    }
}

/// The entries' bytes: those of the call with a long buffer, with an exact one
/// and with one in between, and those of the original every time, of the rules
/// that count.
fn agreed(
    originals: &[Vec<Violation>],
    any: usize,
    call: impl Fn(&mut [u8]) -> u64,
    counts: impl Fn(&Rule) -> bool,
) -> Vec<u8> {
    let mut long = vec![0; any];
    let count = call(&mut long) as usize;
    assert!(ENTRY * count <= any, "the call is answered");
    long.truncate(ENTRY * count);
    for room in [ENTRY * count, MIDDLE] {
        let mut shorter = vec![0; room];
        if room < ENTRY * count {
            continue;
        }
        assert_eq!(call(&mut shorter), count as u64, "with {room} bytes");
        shorter.truncate(ENTRY * count);
        assert!(shorter == long, "bytes with {room} bytes and with more");
    }
    for found in originals {
        let listed = found.iter().filter(|violation| counts(&violation.rule));
        let bytes: Vec<u8> = listed.flat_map(reference::entry).collect();
        assert!(bytes == long, "bytes of the library and of the original");
    }
    long
}

/// Times the skill call of one result, over the fits in turn.
pub fn skill(catalogue: &Catalogue, fits: &[Fit], result: u32) -> Skill {
    let library = library();
    let target = target(result);
    let mut long = vec![0; ANY_SKILLS];
    let mut exact: Vec<Vec<u8>> = fits
        .iter()
        .map(|fit| agreed_skills(&*library, catalogue, fit, result))
        .collect();
    let bytes: usize = exact.iter().map(Vec::len).sum();

    let [mut t0, mut t1, mut t2, mut t3, mut t4] = std::array::from_fn(|_| Turns::new(fits));
    let image = &catalogue.image;
    let [skill, exact, scan, hashed, sorted] = medians(
        ROUNDS,
        [
            &mut || {
                let fit = t0.next().1;
                let (image, fit) = (black_box(image), &fit.image);
                black_box(library.skill(image, fit, result, NO_LEAGUE, &mut long));
            },
            &mut || {
                let (number, fit) = t1.next();
                let buffer = &mut exact[number];
                let (image, fit) = (black_box(image), &fit.image);
                black_box(library.skill(image, fit, result, NO_LEAGUE, buffer));
            },
            &mut || {
                black_box(scan::catalogue(black_box(image)));
                black_box(scan::fit(&t2.next().1.image));
            },
            &mut || {
                let fit = t3.next().1;
                let run = fit.run(&catalogue.hashed);
                drop(black_box(run.report(fit.result(result), target)));
            },
            &mut || {
                let fit = t4.next().1;
                let run = fit.run(&catalogue.sorted);
                drop(black_box(run.report(fit.result(result), target)));
            },
        ],
    );
    Skill {
        entries: bytes / ENTRY,
        skill,
        exact,
        scan,
        original: hashed.min(sorted),
    }
}

/// Times the hall call on the fits, with list calls on both catalogues beside.
pub fn hall(catalogue: &Catalogue, small: &Catalogue, fits: &[Fit]) -> Hall {
    let library = library();
    let mut long = vec![0; ANY_LIST];
    let input = hall_input(fits);
    let faulted = agreed_hall(&*library, catalogue, fits);
    agreed_hall(&*library, small, fits);

    let image = &catalogue.image;
    let [hall, scans, fit_scans, small_lists, hashed, sorted] = medians(
        ROUNDS,
        [
            &mut || {
                black_box(library.hall(black_box(image), black_box(&input)));
            },
            &mut || {
                for _ in fits {
                    black_box(scan::catalogue(black_box(image)));
                }
            },
            &mut || {
                for fit in fits {
                    black_box(scan::fit(black_box(&fit.image)));
                }
            },
            &mut || {
                for fit in fits {
                    let image = black_box(&small.image);
                    black_box(library.list(image, &fit.image, NO_LEAGUE, &mut long));
                }
            },
            &mut || {
                for fit in fits {
                    drop(black_box(fit.run(&catalogue.hashed_part).validate()));
                }
            },
            &mut || {
                for fit in fits {
                    drop(black_box(fit.run(&catalogue.sorted_part).validate()));
                }
            },
        ],
    );
    Hall {
        faulted,
        hall,
        scans,
        fit_scans,
        small_lists,
        part: hashed.min(sorted),
    }
}

/// Times the widening of a catalogue's old form.
pub fn widen(catalogue: &model::Catalogue) -> Widen {
    let library = library();
    let old = catalogue.old_image();
    let new = agreed_widened(&*library, &old);
    assert!(new == catalogue.image(), "bytes of the new form");
    let [mut widened, mut copied, mut plain] = std::array::from_fn(|_| vec![0; new.len()]);
    let [widen, copy, scan, plain] = medians(
        ROUNDS,
        [
            &mut || {
                black_box(library.widen(black_box(&old), &mut widened));
            },
            &mut || black_box(&mut copied).copy_from_slice(black_box(&new)),
            &mut || {
                black_box(scan::catalogue(black_box(&new)));
            },
            &mut || scan::widened(black_box(&old), black_box(&mut plain)),
        ],
    );
    Widen {
        old: old.len(),
        new: new.len(),
        widen,
        copy,
        scan: scan + copy,
        plain,
    }
}

/// The widened catalogue, byte by byte the same from the library, from
/// document 02 in plain code, and from what is timed beside it.
pub fn agreed_widened(library: &dyn Checker, old: &[u8]) -> Vec<u8> {
    let expected = reference::widen(old).expect("the old catalogue is accepted");
    let mut new = vec![0; expected.len()];
    assert_eq!(library.widen(old, &mut new), new.len() as u64, "its length");
    assert!(new == expected, "bytes of the library and of document 02");
    let mut plain = vec![0; expected.len()];
    scan::widened(old, &mut plain);
    assert!(plain == expected, "bytes of what is timed beside it");
    new
}

/// Times the training for one result, over the fits in turn.
pub fn train(catalogue: &Catalogue, fits: &[Fit], result: u32) -> Train {
    let library = library();
    let plans = fits.iter().map(|fit| {
        for steps in [0, 1, u32::MAX] {
            agreed_trained(&*library, catalogue, fit, result, steps);
        }
        let missing = missing(&*library, catalogue, fit, result);
        agreed_trained(&*library, catalogue, fit, result, missing);
        missing
    });
    let plans: Vec<u32> = plans.collect();
    let longest = fits.iter().map(|fit| fit.image.len()).max().unwrap_or(0);
    let [mut one, mut all, mut most] = std::array::from_fn(|_| vec![0; longest + TRAINED]);
    let (mut listed, mut copied) = (vec![0; ANY_SKILLS], vec![0; longest]);
    let [mut t0, mut t1, mut t2, mut t3, mut t4] = std::array::from_fn(|_| Turns::new(fits));
    let image = &catalogue.image;
    let call = |fit: &Fit, steps: u32, out: &mut Vec<u8>| {
        black_box(library.train(black_box(image), &fit.image, result, black_box(steps), out));
    };
    let [one, all, most, skill, copy] = medians(
        ROUNDS,
        [
            &mut || call(t0.next().1, 1, &mut one),
            &mut || {
                let (number, fit) = t1.next();
                call(fit, plans[number], &mut all);
            },
            &mut || call(t2.next().1, u32::MAX, &mut most),
            &mut || {
                let (image, fit) = (black_box(image), &t3.next().1.image);
                black_box(library.skill(image, fit, result, NO_LEAGUE, &mut listed));
            },
            &mut || {
                let fit = &t4.next().1.image;
                black_box(&mut copied)[..fit.len()].copy_from_slice(black_box(fit));
            },
        ],
    );
    Train {
        missing: plans.iter().sum(),
        steps: [one, all, most],
        skill,
        copy,
    }
}

/// The levels that a result lacks, by the library's own list.
fn missing(library: &dyn Checker, catalogue: &Catalogue, fit: &Fit, result: u32) -> u32 {
    let listed = agreed_skills(library, catalogue, fit, result);
    let levels = listed
        .chunks_exact(ENTRY)
        .map(|entry| entry[12] - entry[16]);
    levels.map(u32::from).sum()
}

/// The fit after so many steps, byte by byte the same from the library and from
/// the reference, which asks the original after each of them.
pub fn agreed_trained(
    library: &dyn Checker,
    catalogue: &Catalogue,
    fit: &Fit,
    result: u32,
    steps: u32,
) -> Vec<u8> {
    let call = |checker: &dyn Checker| {
        let mut out = vec![0; fit.image.len() + TRAINED];
        let word = checker.train(&catalogue.image, &fit.image, result, steps, &mut out);
        (word, out)
    };
    let (word, mut trained) = call(library);
    assert_eq!(word >> 32, 0, "the training is answered");
    let expected = call(&Original);
    assert!(
        (word, &trained) == (expected.0, &expected.1),
        "bytes of the library and of the reference"
    );
    trained.truncate(word as usize);
    trained
}

/// Times the trim to each of the fits in turn.
pub fn trim(catalogue: &Catalogue, fits: &[Fit]) -> Trim {
    let library = library();
    let image = &catalogue.image;
    let trimmed = fits.iter().map(|fit| agreed_trimmed(&*library, image, fit));
    let trimmed: Vec<Vec<u8>> = trimmed.collect();
    let [mut new, mut newer] = std::array::from_fn(|_| vec![0; image.len()]);
    let mut listed = vec![0; ANY_LIST];
    let [mut t0, mut t1, mut t2] = std::array::from_fn(|_| Turns::new(fits));
    let [trim, again, list] = medians(
        ROUNDS,
        [
            &mut || {
                let fit = &t0.next().1.image;
                black_box(library.trim(black_box(image), fit, &mut new));
            },
            &mut || {
                let (number, fit) = t1.next();
                let small = black_box(&trimmed[number]);
                black_box(library.trim(small, &fit.image, &mut newer));
            },
            &mut || {
                let fit = &t2.next().1.image;
                black_box(library.list(black_box(image), fit, NO_LEAGUE, &mut listed));
            },
        ],
    );
    Trim {
        whole: image.len(),
        small: trimmed.iter().map(Vec::len).sum(),
        trim,
        again,
        list,
    }
}

/// Times one trim, and the skill call of the ship.
pub fn worst_trim(catalogue: &Catalogue, fit: &Fit) -> WorstTrim {
    let library = library();
    let image = &catalogue.image;
    let small = agreed_trimmed(&*library, image, fit);
    let (mut new, mut listed) = (vec![0; image.len()], vec![0; ANY_SKILLS]);
    WorstTrim {
        whole: image.len(),
        small: small.len(),
        trim: once(|| {
            black_box(library.trim(black_box(image), &fit.image, &mut new));
        }),
        skill: once(|| {
            black_box(library.skill(black_box(image), &fit.image, 0, NO_LEAGUE, &mut listed));
        }),
    }
}

/// The trimmed catalogue, byte by byte the same from the library and from
/// document 02 in plain code.
pub fn agreed_trimmed(library: &dyn Checker, catalogue: &[u8], fit: &Fit) -> Vec<u8> {
    let expected = reference::trim(catalogue, &fit.image).expect("the trim is answered");
    let mut new = vec![0; catalogue.len()];
    let word = library.trim(catalogue, &fit.image, &mut new);
    assert_eq!(word, expected.len() as u64, "its length");
    new.truncate(expected.len());
    assert!(new == expected, "bytes of the library and of document 02");
    new
}

/// Times the cause of the last entry of a rule and a sub of each of the fits, in turn.
pub fn cause(catalogue: &Catalogue, fits: &[Fit], rule: [u8; 2]) -> Cause {
    let library = library();
    let positions = fits.iter().map(|fit| position(catalogue, fit, rule));
    let positions: Vec<u32> = positions.collect();
    let asked = fits.iter().zip(&positions);
    let kept = asked.map(|(fit, at)| agreed_cause(&*library, catalogue, fit, *at).len() / 4);
    let kept = kept.sum();
    let (mut pairs, mut listed) = (vec![0; ANY_CAUSE], vec![0; ANY_LIST]);
    let [mut t0, mut t1] = std::array::from_fn(|_| Turns::new(fits));
    let image = &catalogue.image;
    let [cause, list] = medians(
        ROUNDS,
        [
            &mut || {
                let (number, fit) = t0.next();
                let (image, at) = (black_box(image), black_box(positions[number]));
                black_box(library.cause(image, &fit.image, at, &mut pairs));
            },
            &mut || {
                let fit = &t1.next().1.image;
                black_box(library.list(black_box(image), fit, NO_LEAGUE, &mut listed));
            },
        ],
    );
    Cause { kept, cause, list }
}

/// Where the last entry of a rule and a sub stands in an officer's list.
pub fn position(catalogue: &Catalogue, fit: &Fit, rule: [u8; 2]) -> u32 {
    let listed = reference::officers_list(catalogue.decoded(), &fit.decoded).entries;
    let last = listed.iter().rposition(|entry| entry[1..3] == rule);
    last.unwrap_or_else(|| panic!("no entry of rule {rule:?}")) as u32
}

/// The kept pairs, the same from the library and from document 02 over the original.
pub fn agreed_cause(
    library: &dyn Checker,
    catalogue: &Catalogue,
    fit: &Fit,
    position: u32,
) -> Vec<u8> {
    let cause = reference::Cause::of(catalogue.decoded(), &fit.decoded, position);
    let expected = cause.expect("the cause is answered").image();
    let mut out = vec![0; ANY_CAUSE];
    let word = library.cause(&catalogue.image, &fit.image, position, &mut out);
    assert_eq!(word, expected.len() as u64, "their bytes");
    out.truncate(expected.len());
    assert!(out == expected, "pairs of the library and of document 02");
    out
}

/// Times what to take off each of the fits, in turn, within a budget.
pub fn leave_out(catalogue: &Catalogue, fits: &[Fit], budget: u32) -> LeaveOut {
    let library = library();
    let mut first = (0, 0);
    for fit in fits.iter().rev() {
        let left = agreed_left(&*library, catalogue, fit, budget);
        first = (left.tries, left.numbers().len());
    }
    let (mut set, mut listed) = (vec![0; ANY_SET], vec![0; ANY_LIST]);
    let [mut t0, mut t1] = std::array::from_fn(|_| Turns::new(fits));
    let image = &catalogue.image;
    let [leave_out, list] = medians(
        ROUNDS,
        [
            &mut || {
                let fit = &t0.next().1.image;
                black_box(library.leave_out(black_box(image), fit, budget, &mut set));
            },
            &mut || {
                let fit = &t1.next().1.image;
                black_box(library.list(black_box(image), fit, NO_LEAGUE, &mut listed));
            },
        ],
    );
    LeaveOut {
        pairs: fits[0].decoded.pairs().count(),
        tries: first.0,
        taken: first.1,
        leave_out,
        list,
    }
}

/// What to take off, the same from the library and from document 02 over the original.
pub fn agreed_left(
    library: &dyn Checker,
    catalogue: &Catalogue,
    fit: &Fit,
    budget: u32,
) -> reference::leave_out::Left {
    let judge = reference::Judge::new(catalogue.decoded(), &fit.decoded);
    let left = reference::LeaveOut::of(&judge).within(budget);
    let expected = left.image();
    let mut out = vec![0; ANY_SET];
    let word = library.leave_out(&catalogue.image, &fit.image, budget, &mut out);
    assert_eq!(word, expected.len() as u64, "their bytes");
    out.truncate(expected.len());
    assert!(out == expected, "sets of the library and of document 02");
    left
}

/// A hall input: the number of fits, their lengths, the fits end to end.
pub fn hall_input(fits: &[Fit]) -> Vec<u8> {
    let lengths = fits.iter().map(|fit| fit.image.len() as u32);
    let mut input = (fits.len() as u32).to_le_bytes().to_vec();
    input.extend(lengths.flat_map(u32::to_le_bytes));
    for fit in fits {
        input.extend_from_slice(&fit.image);
    }
    input
}
