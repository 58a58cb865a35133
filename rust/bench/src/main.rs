//! The benchmark: `cargo run --profile timed -p bench [-- OPTION]`.

use std::hint::black_box;
use std::process::ExitCode;
use std::{env, fs, panic};

use bench::fits::{self, Shape};
use bench::report;
use bench::stack::{self, Call};
use bench::subject::{self, Catalogue, Fit, List};
use bench::svg::{self, Chart, Curve};
use bench::world::{self, FULL, PARTS, SMALL};
use compare::checker::Terms;
use compare::page::Limits;
use compare::profile::League;

const USAGE: &str = "\
bench              all tables
bench --svg FILE   and both curves of growth as a picture
bench --lists      the tables of list calls and halls alone
bench --trims      the table of trims alone
bench --causes     the table of causes alone
bench --leave-outs the table of what to leave out alone
bench --stacks     the stack of each call alone
bench --call CASE TIMES
                   the library's call of case 1 (one pair), a, b, c, C (full-size),
                   w (worst pairs), d, D (small fits), h, H (halls of clear fits), e, f, g, l,
                   m, n, N (worst pairs, a group limit), V (256 stacks of cargo), o (16 pairs,
                   65,552 tries) or O (256 pairs, 256 tries) alone, for a profiler
";

/// How many fits of one shape take turns.
const FITS: u64 = 8;

/// The fits of a hall.
const HALL: u64 = 64;

/// The result whose skills are asked for: that of the first module.
const MODULE: u32 = 2;

/// How many pairs the growing fits have.
const PAIRS: [usize; 5] = [1, 4, 16, 64, 256];

fn main() -> ExitCode {
    let arguments: Vec<String> = env::args().skip(1).collect();
    let arguments: Vec<&str> = arguments.iter().map(String::as_str).collect();
    match arguments.as_slice() {
        [] => everything(None),
        ["--svg", file] => everything(Some(file)),
        ["--lists"] => {
            let [small, .., full] = PARTS.map(|part| Catalogue::new(&world::catalogue(part)));
            lists(&small, &full);
            hall(&small, &full);
        }
        ["--trims"] => {
            let [small, .., full] = PARTS.map(|part| Catalogue::new(&world::catalogue(part)));
            trims(&small, &full);
        }
        ["--causes"] => {
            let [small, .., full] = PARTS.map(|part| Catalogue::new(&world::catalogue(part)));
            causes(&small, &full);
        }
        ["--leave-outs"] => {
            let [small, .., full] = PARTS.map(|part| Catalogue::new(&world::catalogue(part)));
            leave_outs(&small, &full);
        }
        ["--stacks"] => stacks(),
        ["--call", case, times] => match times.parse() {
            Ok(times) if call(case, times) => {}
            _ => return usage(),
        },
        ["--in-stack", name, frames] => {
            let call = Call::ALL.into_iter().find(|call| call.name() == *name);
            let (Some(call), Ok(frames)) = (call, frames.parse()) else {
                return usage();
            };
            println!("{}", stack::call_at(call, frames));
        }
        _ => return usage(),
    }
    ExitCode::SUCCESS
}

fn usage() -> ExitCode {
    eprint!("{USAGE}");
    ExitCode::from(2)
}

fn of_shape(shape: Shape, count: u64) -> Vec<Fit> {
    (0..count)
        .map(|number| Fit::new(&fits::fit(shape, number)))
        .collect()
}

fn all_clear(shape: Shape, count: u64) -> Vec<Fit> {
    (0..count)
        .map(|number| Fit::new(&fits::clear(shape, number)))
        .collect()
}

fn everything(picture: Option<&str>) {
    if overflow_is_checked() {
        println!("This build checks sums for overflow, which slows the original down;");
        println!("`cargo run --profile timed -p bench` does not.\n");
    }
    let catalogues = PARTS.map(|part| Catalogue::new(&world::catalogue(part)));
    let [small, .., full] = &catalogues;
    lists(small, full);
    hangars(small);
    leagues(small, full);
    missing(small, full);
    pages(small, full);
    readers(small, full);
    skills(small, full);
    hall(small, full);
    widen();
    trainings(small, full);
    trims(small, full);
    causes(small, full);
    leave_outs(small, full);
    let by_pairs = grown_pairs(small);
    let by_part = grown_catalogue(&catalogues);
    if let Some(file) = picture {
        let drawn = picture_of(&by_pairs, &by_part);
        fs::write(file, drawn).unwrap_or_else(|error| panic!("{file}: {error}"));
    }
    stacks();
}

/// Whether sums are checked in this build, the original's among them.
fn overflow_is_checked() -> bool {
    let hook = panic::take_hook();
    panic::set_hook(Box::new(|_| {}));
    let checked = panic::catch_unwind(|| black_box(u8::MAX) + 1).is_err();
    panic::set_hook(hook);
    checked
}

fn lists(small: &Catalogue, full: &Catalogue) {
    println!("## List calls, µs\n");
    report::list_head();
    let worst: Vec<Fit> = (0..FITS)
        .map(|number| Fit::new(&fits::worst(number)))
        .collect();
    for (title, shape, target) in [
        ("one pair", fits::of_pairs(1), 0.9),
        ("(a) small fit", fits::SMALL, 0.9),
        ("(b) realistic fit", fits::REALISTIC, 0.95),
        ("(c) 256 pairs", fits::LARGEST, 0.9),
    ] {
        list_rows(title, small, full, &of_shape(shape, FITS), target);
    }
    list_rows("256 of the worst pairs", small, full, &worst, 0.9);
    println!();
}

/// A row for each catalogue.
fn list_rows(title: &str, small: &Catalogue, full: &Catalogue, fits: &[Fit], target: f64) {
    for (size, catalogue) in [("small", small), ("full-size", full)] {
        let row = subject::list(catalogue, fits);
        let title = format!("{title}, {size} catalogue");
        report::list_row(&title, fits.len(), &row, target);
    }
}

fn hangars(small: &Catalogue) {
    println!("## Whole hangars, small catalogue, µs\n");
    let ones = of_shape(fits::HANGAR, FITS);
    let full: Vec<Fit> = (0..FITS)
        .map(|number| Fit::new(&fits::full_hangar(number)))
        .collect();
    report::hangar_table(subject::beside(small, &ones, &full));
    println!();
}

/// A profile of as many groups as may be, from those of the catalogues on.
fn leagues(small: &Catalogue, full: &Catalogue) {
    println!("## (h) A league of 4,096 groups, realistic fit, µs\n");
    report::league_head();
    let prices: Vec<(i32, u32)> = (0..4_096).map(|group| (group, group as u32 % 50)).collect();
    let league = League::of(&prices, 120);
    let profile = league.image();
    let terms = Terms {
        profile: &profile,
        allowance: league.allowance,
        ..Terms::default()
    };
    let fits = of_shape(fits::REALISTIC, FITS);
    for (title, catalogue, has_target) in [
        ("small catalogue", small, false),
        ("full-size catalogue", full, true),
    ] {
        let row = subject::leagues(catalogue, &fits, terms);
        report::league_row(title, row, has_target);
    }
    println!();
}

/// The realistic fit, and the same with none of its items' types there.
fn missing(small: &Catalogue, full: &Catalogue) {
    println!("## (i) Missing types, realistic fit, µs\n");
    report::missing_head();
    let there = of_shape(fits::REALISTIC, FITS);
    let gone: Vec<Fit> = (0..FITS)
        .map(|number| Fit::new(&fits::vanished(number)))
        .collect();
    for (title, catalogue) in [("small catalogue", small), ("full-size catalogue", full)] {
        let row = subject::beside(catalogue, &there, &gone);
        report::missing_row(title, row);
    }
    println!();
}

/// Limits that refuse nothing: what they cost is asking for them.
fn pages(small: &Catalogue, full: &Catalogue) {
    println!("## (j) A page of 64 pairs and 64 skills, realistic fit, µs\n");
    report::page_head();
    let room = Limits::of(64, 64);
    let fits = of_shape(fits::REALISTIC, FITS);
    for (title, catalogue) in [("small catalogue", small), ("full-size catalogue", full)] {
        for (call, result) in [("list", None), ("skills of a module", Some(MODULE))] {
            let row = subject::pages(catalogue, &fits, result, room);
            report::page_row(&format!("{call}, {title}"), row);
        }
    }
    println!();
}

/// The fits' 400 skills are looked up for an officer, and for a guest they are
/// not.
fn readers(small: &Catalogue, full: &Catalogue) {
    println!("## (k) A guest's list, realistic fit, µs\n");
    report::reader_head();
    let fits = of_shape(fits::REALISTIC, FITS);
    for (title, catalogue) in [("small catalogue", small), ("full-size catalogue", full)] {
        report::reader_row(title, subject::readers(catalogue, &fits));
    }
    println!();
}

fn skills(small: &Catalogue, full: &Catalogue) {
    println!("## Skill calls, µs\n");
    report::skill_head();
    let realistic = of_shape(fits::REALISTIC, FITS);
    let chained = [Fit::new(&fits::at_chain())];
    let bare = Catalogue::new(&world::chain(512, 2));
    let wide = Catalogue::new(&world::chain(512, 12));
    for (title, catalogue, fits, result) in [
        (
            "(e) one module, small catalogue",
            small,
            &realistic[..],
            MODULE,
        ),
        (
            "(e) one module, full-size catalogue",
            full,
            &realistic,
            MODULE,
        ),
        ("(f) chain of 512, 2 base values each", &bare, &chained, 0),
        ("(f) chain of 512, 12 base values each", &wide, &chained, 0),
    ] {
        let row = subject::skill(catalogue, fits, result);
        // The chain's catalogue is small, so that its scan does not count.
        report::skill_row(title, fits.len(), &row, result == MODULE);
    }
    println!();
}

fn hall(small: &Catalogue, full: &Catalogue) {
    println!("## (d) A hall of 64, full-size catalogue\n");
    for (kind, shape, target) in [
        ("realistic", fits::REALISTIC, 0.75),
        ("small", fits::SMALL, 0.85),
    ] {
        let faulted = of_shape(shape, HALL);
        let clear = all_clear(shape, HALL);
        for (fits, expected) in [(faulted, HALL), (clear, 0)] {
            let row = subject::hall(full, small, &fits);
            assert_eq!(row.faulted as u64, expected, "{kind} fits that are faulted");
            report::hall_table(kind, fits.len(), &row, target);
            println!();
        }
    }
}

fn widen() {
    println!("## (g) Old catalogues widened, µs\n");
    report::widen_head();
    for (title, part) in [("small catalogue", SMALL), ("full-size catalogue", FULL)] {
        report::widen_row(title, &subject::widen(&world::catalogue(part)));
    }
    println!();
}

/// No step is a walk of its own; what many cost more than one is skills put in.
fn trainings(small: &Catalogue, full: &Catalogue) {
    println!("## (l) Training, µs\n");
    report::train_head();
    let realistic = of_shape(fits::REALISTIC, FITS);
    let chained = [Fit::new(&fits::at_chain())];
    let chain = Catalogue::new(&world::chain(512, 2));
    let crowded = [Fit::new(&fits::at_falling_chain())];
    let falling = Catalogue::new(&world::falling_chain(512, 2));
    let amid = [Fit::new(&fits::at_narrowing_chain())];
    let narrowing = Catalogue::new(&world::narrowing_chain(512, 2));
    for (title, catalogue, fits, result) in [
        ("one module, small catalogue", small, &realistic[..], MODULE),
        ("one module, full-size catalogue", full, &realistic, MODULE),
        ("chain of 512, 2 base values each", &chain, &chained, 0),
        (
            "falling chain of 512 before 512 listed",
            &falling,
            &crowded,
            0,
        ),
        (
            "narrowing chain of 512 amid 512 listed",
            &narrowing,
            &amid,
            0,
        ),
    ] {
        let row = subject::train(catalogue, fits, result);
        report::train_row(title, fits.len(), &row);
    }
    println!();
}

/// A phone page's catalogue: one walk for all results, or R + 2 where they want over
/// 512 skills together, for each window of marks, once more where there are two; and
/// two passes over what is marked.
fn trims(small: &Catalogue, full: &Catalogue) {
    println!("## (m) Trimmed catalogues, µs\n");
    report::trim_head();
    let realistic = of_shape(fits::REALISTIC, FITS);
    let largest = of_shape(fits::LARGEST, FITS);
    for (title, catalogue, fits, has_target) in [
        ("realistic fit, small catalogue", small, &realistic, false),
        ("realistic fit, full-size catalogue", full, &realistic, true),
        ("256 pairs, full-size catalogue", full, &largest, false),
    ] {
        let row = subject::trim(catalogue, fits);
        report::trim_row(title, fits.len(), &row, has_target);
    }
    println!();
    let [together, apart] = [0, 2].map(|others| Fit::new(&fits::all_at_one_skill(others)));
    let [heavy, heaviest] = [world::heavy(), world::heaviest()];
    let [heavy, heaviest] = [heavy, heaviest].map(|catalogue| Catalogue::new(&catalogue));
    for (title, catalogue, fit) in [
        (
            "One skill of 1,000,000 base values, wanted by 258 results",
            &heavy,
            &together,
        ),
        (
            "The same, of results that want 517 skills together",
            &heavy,
            &apart,
        ),
        (
            "One of 838,000, of such results, over two windows of marks",
            &heaviest,
            &apart,
        ),
    ] {
        let row = subject::worst_trim(catalogue, fit);
        report::worst_trim_row(title, 258, &row);
    }
    println!();
}

/// What makes an entry: the list, and then one pass over the pairs; of the hold, a sum
/// for each.
fn causes(small: &Catalogue, full: &Catalogue) {
    println!("## (n) Causes, µs\n");
    report::cause_head();
    let made = |make: fn(u64) -> compare::model::Fit| -> Vec<Fit> {
        (0..FITS).map(|number| Fit::new(&make(number))).collect()
    };
    let crowded = made(fits::crowded);
    let worst = made(fits::worst);
    let laden = made(fits::laden);
    let hangars = made(fits::full_hangar);
    for (title, catalogue, fits, rule) in [
        ("realistic fit, CPU, full-size", full, &crowded, [1, 0]),
        ("realistic fit, a rack, full-size", full, &crowded, [2, 0]),
        (
            "realistic fit, a group limit, full-size",
            full,
            &crowded,
            [17, 0],
        ),
        ("realistic fit, drones, full-size", full, &crowded, [1, 5]),
        ("realistic fit, cargo, full-size", full, &crowded, [1, 11]),
        (
            "256 of the worst pairs, a rack, small",
            small,
            &worst,
            [2, 0],
        ),
        (
            "256 of the worst pairs, a taken slot, small",
            small,
            &worst,
            [8, 0],
        ),
        (
            "256 of the worst pairs, a taken part, small",
            small,
            &worst,
            [10, 0],
        ),
        (
            "256 of the worst pairs, a group limit, small",
            small,
            &worst,
            [17, 2],
        ),
        (
            "256 of the worst pairs, a type limit, small",
            small,
            &worst,
            [18, 0],
        ),
        ("256 stacks of drones, small", small, &hangars, [1, 5]),
        ("256 stacks of cargo, small", small, &laden, [1, 11]),
        ("256 stacks of cargo, full-size", full, &laden, [1, 11]),
    ] {
        let row = subject::cause(catalogue, fits, rule);
        report::cause_row(&format!("{title} catalogue"), fits.len(), &row);
    }
    println!();
}

/// What to take off: the list, and then the tries.
fn leave_outs(small: &Catalogue, full: &Catalogue) {
    println!("## (o) What to leave out\n");
    report::leave_out_head();
    let made = |make: &dyn Fn(u64) -> compare::model::Fit| -> Vec<Fit> {
        (0..FITS).map(|number| Fit::new(&make(number))).collect()
    };
    let crowded = made(&fits::crowded);
    let sixteen = made(&|number| fits::gathered(16, number));
    let all = made(&|number| fits::gathered(256, number));
    let steps = made(&|number| fits::stepped(16, number));
    let long = made(&|number| fits::stepped(256, number));
    let worst = made(&fits::worst);
    for (title, catalogue, fits, budget) in [
        ("realistic fit, full-size", full, &crowded, u32::MAX),
        ("16 pairs, every rule, small", small, &sixteen, 65_552),
        ("16 pairs, every rule, full-size", full, &sixteen, 65_552),
        ("16 pairs, limits in steps, small", small, &steps, 65_552),
        ("256 pairs, every rule, small", small, &all, 256),
        ("256 pairs, every rule, full-size", full, &all, 256),
        ("256 pairs, limits in steps, small", small, &long, 256),
        ("256 of the worst pairs, small", small, &worst, 256),
        ("256 of the worst pairs, no try, small", small, &worst, 0),
    ] {
        let row = subject::leave_out(catalogue, fits, budget);
        report::leave_out_row(&format!("{title} catalogue"), &row);
    }
    println!();
}

fn grown_pairs(small: &Catalogue) -> Vec<List> {
    println!("## Growth with the pairs, small catalogue, µs\n");
    report::growth_head("pairs");
    let mut rows = Vec::new();
    for pairs in PAIRS {
        let row = subject::list(small, &of_shape(fits::of_pairs(pairs), FITS));
        report::growth_row(&pairs.to_string(), &row);
        rows.push(row);
    }
    println!();
    rows
}

fn grown_catalogue(catalogues: &[Catalogue]) -> Vec<List> {
    println!("## Growth with the catalogue, realistic fit, µs\n");
    report::growth_head("part of the full size");
    let fits = of_shape(fits::REALISTIC, FITS);
    let mut rows = Vec::new();
    for (part, catalogue) in PARTS.iter().zip(catalogues) {
        let row = subject::list(catalogue, &fits);
        report::growth_row(&part_name(*part), &row);
        rows.push(row);
    }
    println!();
    rows
}

fn part_name(part: usize) -> String {
    match part {
        FULL => "1".to_string(),
        _ => format!("1/{part}"),
    }
}

fn picture_of(by_pairs: &[List], by_part: &[List]) -> String {
    svg::draw(&[
        Chart {
            title: "By the fit's size (1/64 of the catalogue)",
            across: "pairs",
            marks: PAIRS.iter().map(usize::to_string).collect(),
            curves: curves(by_pairs),
        },
        Chart {
            title: "By the catalogue's size (a realistic fit)",
            across: "part of the full size",
            marks: PARTS.iter().map(|part| part_name(*part)).collect(),
            curves: curves(by_part),
        },
    ])
}

fn curves(rows: &[List]) -> Vec<Curve<'static>> {
    let curve = |name, colour, time: fn(&List) -> f64| Curve {
        name,
        colour,
        values: rows.iter().map(|row| time(row) / 1e3).collect(),
    };
    vec![
        curve("the list call", "#c2410c", |row| row.list),
        curve("scan + the original", "#1d4ed8", |row| {
            row.scan + row.original
        }),
        curve("scan + the original's list part", "#15803d", |row| {
            row.scan + row.part
        }),
        curve("scan", "#777777", |row| row.scan),
    ]
}

fn stacks() {
    println!("## Stack, bytes\n");
    println!("| call | stack | of 256 KiB |");
    println!("|---|---|---|");
    for call in &Call::ALL[1..] {
        let call = *call;
        let bytes = stack::measure(call);
        let share = bytes as f64 / stack::BUDGET as f64 * 100.0;
        println!("| {} | {bytes} | {share:.1} % |", call.name());
    }
}

/// Makes the library's call of a case so many times, and nothing else.
fn call(case: &str, times: usize) -> bool {
    let library = subject::library();
    let mut buffer = vec![0; subject::ANY_LIST];
    let (catalogue, fit, result) = match case {
        "a" => (world::catalogue(SMALL), fits::fit(fits::SMALL, 0), None),
        "b" => (world::catalogue(FULL), fits::fit(fits::REALISTIC, 0), None),
        "c" => (world::catalogue(SMALL), fits::fit(fits::LARGEST, 0), None),
        "C" => (world::catalogue(FULL), fits::fit(fits::LARGEST, 0), None),
        "1" => (
            world::catalogue(SMALL),
            fits::fit(fits::of_pairs(1), 0),
            None,
        ),
        "w" => (world::catalogue(SMALL), fits::worst(0), None),
        "e" => (
            world::catalogue(FULL),
            fits::fit(fits::REALISTIC, 0),
            Some(MODULE),
        ),
        "f" => (world::chain(512, 2), fits::at_chain(), Some(0)),
        "d" | "D" | "h" | "H" => {
            let catalogue = world::catalogue(FULL).image();
            let shape = match case {
                "d" | "h" => fits::REALISTIC,
                _ => fits::SMALL,
            };
            let fits = match case {
                "d" | "D" => of_shape(shape, HALL),
                _ => all_clear(shape, HALL),
            };
            let input = subject::hall_input(&fits);
            for _ in 0..times {
                black_box(library.hall(black_box(&catalogue), &input));
            }
            return true;
        }
        "g" => {
            let old = world::catalogue(FULL).old_image();
            let mut new = vec![0; old.len() + old.len() / 3];
            for _ in 0..times {
                black_box(library.widen(black_box(&old), &mut new));
            }
            return true;
        }
        "l" => {
            let catalogue = world::catalogue(FULL).image();
            let fit = fits::fit(fits::REALISTIC, 0).image();
            let mut new = vec![0; fit.len() + subject::TRAINED];
            for _ in 0..times {
                let catalogue = black_box(&catalogue);
                black_box(library.train(catalogue, &fit, MODULE, u32::MAX, &mut new));
            }
            return true;
        }
        "m" => {
            let catalogue = world::catalogue(FULL).image();
            let fit = fits::fit(fits::REALISTIC, 0).image();
            let mut new = vec![0; catalogue.len()];
            for _ in 0..times {
                black_box(library.trim(black_box(&catalogue), &fit, &mut new));
            }
            return true;
        }
        "n" | "N" | "V" => {
            let (part, fit, rule) = match case {
                "n" => (FULL, fits::crowded(0), [2, 0]),
                "N" => (SMALL, fits::worst(0), [17, 2]),
                _ => (SMALL, fits::laden(0), [1, 11]),
            };
            let (catalogue, fit) = (Catalogue::new(&world::catalogue(part)), Fit::new(&fit));
            let at = subject::position(&catalogue, &fit, rule);
            for _ in 0..times {
                let image = black_box(&catalogue.image);
                black_box(library.cause(image, &fit.image, at, &mut buffer));
            }
            return true;
        }
        "o" | "O" => {
            let (pairs, budget) = if case == "o" {
                (16, 65_552)
            } else {
                (256, 256)
            };
            let catalogue = world::catalogue(SMALL).image();
            let fit = fits::gathered(pairs, 0).image();
            for _ in 0..times {
                let catalogue = black_box(&catalogue);
                black_box(library.leave_out(catalogue, &fit, budget, &mut buffer));
            }
            return true;
        }
        _ => return false,
    };
    let (catalogue, fit) = (catalogue.image(), fit.image());
    for _ in 0..times {
        let catalogue = black_box(&catalogue);
        black_box(match result {
            Some(result) => library.skill(catalogue, &fit, result, Terms::default(), &mut buffer),
            None => library.list(catalogue, &fit, Terms::default(), &mut buffer),
        });
    }
    true
}
