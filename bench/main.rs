//! How long the library takes beside the same work written by hand in Rust, and beside the best methods known to us.
//!
//!     bench                           the library's tables
//!     bench lines | laying            one row of them alone
//!     bench programs OURS OTHER DIR   the table of the program OURS beside the program OTHER, with files in the folder
//!     bench write N DIR               writes the files of the N-th row of that table, from 0, into the folder

mod best;
mod ours;
mod plain;
mod scenarios;

use scenarios::{Scenario, YardPlan, line_of};
use std::hint::black_box;

/// What a judging answered, with its two pages.
#[derive(PartialEq, Clone)]
struct Judged {
    code: u32,
    timetable: Vec<u32>,
    ring: Vec<u16>,
}

fn judged(run: impl FnOnce(&mut [u32], &mut [u16]) -> u32) -> Judged {
    let mut timetable = vec![0; 1024];
    let mut ring = vec![0; 1024];
    let code = run(&mut timetable, &mut ring);
    Judged { code, timetable, ring }
}

#[repr(C)]
struct TimeSpec {
    seconds: i64,
    nanoseconds: i64,
}

unsafe extern "C" {
    fn clock_gettime(clock: i32, time: *mut TimeSpec) -> i32;
}

/// The time in nanoseconds that this thread has run, so that others on the machine count for little.
fn run_time() -> f64 {
    const THREAD_CPUTIME: i32 = 3;
    let mut time = TimeSpec { seconds: 0, nanoseconds: 0 };
    assert!(unsafe { clock_gettime(THREAD_CPUTIME, &mut time) } == 0);
    time.seconds as f64 * 1e9 + time.nanoseconds as f64
}

fn time_once(call: &mut dyn FnMut(u32), count: u32) -> f64 {
    let start = run_time();
    call(count);
    run_time() - start
}

/// How many goes each call has.
const GOES: u32 = 36;

/// The least time of one turn of each of the calls, in nanoseconds. Each is told how many turns to make; the calls take
/// their goes by turns, each go of at least 4 milliseconds, so that a slower spell of the machine meets them alike.
fn times_of<const N: usize>(goes: u32, mut calls: [&mut dyn FnMut(u32); N]) -> [f64; N] {
    let mut counts = [1u32; N];
    for (call, count) in calls.iter_mut().zip(&mut counts) {
        while time_once(*call, *count) < 4e6 {
            *count *= 2;
        }
    }
    let mut least = [f64::MAX; N];
    for _ in 0..goes {
        for i in 0..N {
            least[i] = least[i].min(time_once(calls[i], counts[i]) / counts[i] as f64);
        }
    }
    least
}

/// The three times of a row, in nanoseconds.
struct Row {
    name: String,
    ours: f64,
    plain: f64,
    best: f64,
}

fn show(row: &Row) {
    let micro = |ns: f64| format!("{:.1}", ns / 1000.0);
    println!(
        "| {} | {} | {} | {} | {:.2} | {:.2} |",
        row.name,
        micro(row.ours),
        micro(row.plain),
        micro(row.best),
        row.ours / row.plain,
        row.ours / row.best
    );
}

/// How many rounds the plain judging makes, counted apart from the measured code.
fn rounds_of(s: &Scenario) -> usize {
    let YardPlan::Lanes(lanes) = &s.yard else {
        return 0;
    };
    let mut yard = plain::LaneYard::new();
    yard.lay(lanes).unwrap();
    plain::rounds(&plain::Sheet::fill(&s.entries).unwrap(), &yard, s.rule, s.gap)
}

/// The times of one judging, after a check that all three answer the same.
fn judging(s: &Scenario, goes: u32) -> Row {
    match &s.yard {
        YardPlan::Lanes(lanes) => {
            let mut yard = plain::LaneYard::new();
            yard.lay(lanes).unwrap();
            judging_in(s, goes, &yard, &best::LaneYard::lay(lanes))
        }
        YardPlan::Grid(g) => judging_in(s, goes, &plain::GridYard::set_out(g), &best::GridYard::set_out(g)),
    }
}

fn judging_in<P: plain::Yard, B: plain::Yard>(s: &Scenario, goes: u32, yard: &P, best_yard: &B) -> Row {
    let flat = ours::Flat::new(s);
    let sheet = plain::Sheet::fill(&s.entries).unwrap();
    let best_sheet = best::Sheet::fill(&s.entries).unwrap();
    let said = judged(|t, r| flat.run(1, 1, 1, t, r));
    let plain_said = judged(|t, r| plain::judge(&sheet, yard, s.rule, s.gap, t, r));
    let best_said = judged(|t, r| best::judge(&best_sheet, best_yard, s.rule, s.gap, t, r));
    assert!(said == plain_said, "{}: the library and the plain judging differ", s.name);
    assert!(said == best_said, "{}: the library and the best judging differ", s.name);
    let mut pages: [_; 4] = std::array::from_fn(|_| (vec![0u32; 1024], vec![0u16; 1024]));
    let [ours_pages, none_pages, plain_pages, best_pages] = &mut pages;
    // The library enters and judges in one call, so a call of many judgings is timed, and one of none is taken away.
    let many = 256;
    let [with, without, plain, best] = times_of(goes, [
        &mut |n| {
            for _ in 0..n {
                black_box(flat.run(1, 1, many, &mut ours_pages.0, &mut ours_pages.1));
            }
        },
        &mut |n| {
            for _ in 0..n {
                black_box(flat.run(1, 1, 0, &mut none_pages.0, &mut none_pages.1));
            }
        },
        &mut |n| {
            for _ in 0..n {
                let (t, r) = &mut *plain_pages;
                black_box(plain::judge(black_box(&sheet), black_box(yard), s.rule, s.gap, t, r));
            }
        },
        &mut |n| {
            for _ in 0..n {
                let (t, r) = &mut *best_pages;
                black_box(best::judge(black_box(&best_sheet), black_box(best_yard), s.rule, s.gap, t, r));
            }
        },
    ]);
    Row { name: s.name.clone(), ours: (with - without) / many as f64, plain, best }
}

/// The times of opening a sheet and entering everything.
fn entering(s: &Scenario, goes: u32) -> Row {
    let mut bare = s.clone();
    bare.yard = YardPlan::Lanes(Vec::new());
    let flat = ours::Flat::new(&bare);
    let (mut timetable, mut ring) = (vec![0; 1024], vec![0; 1024]);
    let [ours, plain, best] = times_of(goes, [
        &mut |n| assert!(black_box(flat.run(1, n, 0, &mut timetable, &mut ring)) == 0),
        &mut |n| {
            for _ in 0..n {
                assert!(black_box(plain::Sheet::fill(black_box(&s.entries))).is_ok());
            }
        },
        &mut |n| {
            for _ in 0..n {
                assert!(black_box(best::Sheet::fill(black_box(&s.entries))).is_ok());
            }
        },
    ]);
    Row { name: "entering a full sheet".into(), ours, plain, best }
}

/// The times of laying 8,192 lanes.
fn laying(s: &Scenario) -> Row {
    let mut bare = s.clone();
    bare.entries.clear();
    let flat = ours::Flat::new(&bare);
    let YardPlan::Lanes(lanes) = &s.yard else { unreachable!() };
    let (mut timetable, mut ring) = (vec![0; 1024], vec![0; 1024]);
    let (mut other_timetable, mut other_ring) = (vec![0; 1024], vec![0; 1024]);
    let mut yard = plain::LaneYard::new();
    let [with, without, plain] = times_of(GOES, [
        &mut |n| {
            for _ in 0..n {
                assert!(black_box(flat.run(256, 1, 0, &mut timetable, &mut ring)) == 0);
            }
        },
        &mut |n| {
            for _ in 0..n {
                assert!(black_box(flat.run(0, 1, 0, &mut other_timetable, &mut other_ring)) == 0);
            }
        },
        &mut |n| {
            for _ in 0..n {
                assert!(yard.lay(black_box(lanes)).is_ok());
                black_box(&yard);
            }
        },
    ]);
    Row { name: "laying 8,192 lanes".into(), ours: (with - without) / 256.0, plain, best: plain }
}

/// The times of reading 100,000 lines and writing them back.
fn copying() -> Row {
    let text = scenarios::lines(100_000);
    let mut pages: [_; 3] = std::array::from_fn(|_| vec![0u8; text.len() + 64]);
    for copy in [ours::copy_lines, plain::copy_lines, best::copy_lines] {
        pages[0].fill(0);
        let count = copy(&text, &mut pages[0]);
        assert!(pages[0][..count] == text[..], "the lines are not written back as they were");
    }
    let take = |copy: fn(&[u8], &mut [u8]) -> usize, page: &mut [u8], n: u32| {
        for _ in 0..n {
            black_box(copy(black_box(&text), page));
        }
    };
    let [a, b, c] = &mut pages;
    let [ours, plain, best] = times_of(GOES, [
        &mut |n| take(ours::copy_lines, a, n),
        &mut |n| take(plain::copy_lines, b, n),
        &mut |n| take(best::copy_lines, c, n),
    ]);
    Row { name: "100,000 lines read and written".into(), ours, plain, best }
}

fn tables() {
    println!("| What | ours, µs | plain Rust, µs | best Rust, µs | ours/plain | ours/best |");
    println!("|---|---|---|---|---|---|");
    let full = scenarios::full_two_rounds();
    let judged = [
        full.clone(),
        scenarios::full_yard(),
        scenarios::many_rounds(),
        scenarios::ring(),
        scenarios::ring_full(),
        scenarios::grid(),
    ];
    for s in &judged {
        let mut row = judging(s, GOES);
        row.name = format!("judging: {}", row.name);
        show(&row);
    }
    show(&entering(&full, GOES));
    show(&laying(&scenarios::full_yard()));
    show(&copying());

    println!();
    println!("| Scenario | carriers | stops | precedences | lanes | rounds |");
    println!("|---|---|---|---|---|---|");
    for s in &judged {
        let lanes = match &s.yard {
            YardPlan::Lanes(lanes) => lanes.len().to_string(),
            YardPlan::Grid(_) => "grid".into(),
        };
        let rounds = match rounds_of(s) {
            0 => "few".into(),
            n => n.to_string(),
        };
        println!("| {} | {} | {} | {} | {} | {} |", s.name, s.count(1), s.stops(), s.count(3), lanes, rounds);
    }

    println!();
    println!("| Growth | stops | precedences | rounds | ours, µs | plain Rust, µs | best Rust, µs | entering, µs |");
    println!("|---|---|---|---|---|---|---|---|");
    let mut grown: Vec<(&str, Scenario)> = Vec::new();
    for groups in [2, 4, 8, 16] {
        grown.push(("stops", scenarios::sized(groups)));
    }
    for (size, count) in [(1, 60), (2, 30), (3, 20), (4, 15), (5, 12)] {
        grown.push(("precedences", scenarios::crowded(size, count)));
    }
    for turns in [1, 2, 4, 7] {
        grown.push(("rounds", scenarios::chain("chain", 64, turns)));
    }
    for (what, s) in &grown {
        let row = judging(s, GOES / 3);
        let filled = entering(s, GOES / 3);
        println!(
            "| {what} | {} | {} | {} | {:.1} | {:.1} | {:.1} | {:.1} |",
            s.stops(),
            s.count(3),
            rounds_of(s),
            row.ours / 1000.0,
            row.plain / 1000.0,
            row.best / 1000.0,
            filled.ours / 1000.0
        );
    }
}

/// A run of the program: its name, the scenario of its yard and sheet, and the lines after those of the sheet.
fn runs() -> Vec<(&'static str, Scenario, String)> {
    let full = scenarios::full_two_rounds();
    let precedences: Vec<_> = full.entries.iter().filter(|e| e[0] == 3).copied().collect();
    let mut turned = String::new();
    for i in 0..50_000 {
        let e = precedences[i * 7 % precedences.len()];
        turned.push_str(&line_of(&[4, e[1], e[2], e[3]]));
        turned.push_str(&line_of(&e));
    }
    let mut stops = String::new();
    for i in 0..200_000u32 {
        stops.push_str(&line_of(&[2, (i % 70) as u16, (i % 4100) as u16, 0]));
    }
    let random = String::from_utf8(scenarios::lines(250_000)).unwrap();
    let random = random.split_inclusive('\n').filter(|l| !l.starts_with("05")).collect();
    vec![
        ("100,000 judgings of 64 stops", scenarios::crowded(2, 2), "05000000\n".repeat(100_000)),
        ("2,000 judgings of a full sheet", full.clone(), "05000000\n".repeat(2_000)),
        ("300 judgings of hundreds of rounds", scenarios::many_rounds(), "05000000\n".repeat(300)),
        ("100,000 strikings and entries on a full sheet", full.clone(), turned),
        ("200,000 stops that are refused", full, stops),
        ("200,000 random entries", scenarios::crowded(2, 2), random),
    ]
}

#[repr(C)]
struct Usage {
    user: [i64; 2],
    system: [i64; 2],
    rest: [i64; 14],
}

unsafe extern "C" {
    fn getrusage(who: i32, usage: *mut Usage) -> i32;
}

/// The time in seconds that the programs which have ended ran, for themselves and in the system.
fn children_time() -> f64 {
    const CHILDREN: i32 = -1;
    let mut usage = Usage { user: [0; 2], system: [0; 2], rest: [0; 14] };
    assert!(unsafe { getrusage(CHILDREN, &mut usage) } == 0 && usage.rest.len() == 14);
    let seconds = |t: [i64; 2]| t[0] as f64 + t[1] as f64 / 1e6;
    seconds(usage.user) + seconds(usage.system)
}

/// Runs a program in the folder on the folder's stdin, with its output to a file; answers how long it ran.
fn run_program(program: &str, folder: &str, output: &str) -> std::io::Result<f64> {
    let start = children_time();
    let status = std::process::Command::new(program)
        .current_dir(folder)
        .stdin(std::fs::File::open(format!("{folder}/stdin"))?)
        .stdout(std::fs::File::create(format!("{folder}/{output}"))?)
        .status()?;
    assert!(status.success(), "{program} ended with {status}");
    Ok(children_time() - start)
}

/// Writes the files of a run into a folder, and answers how many lines it has.
fn write_run(scenario: &Scenario, tail: &str, folder: &str) -> std::io::Result<usize> {
    let mut lines: String = scenario.entries.iter().map(line_of).collect();
    lines.push_str(tail);
    std::fs::write(format!("{folder}/yard.hex"), scenario.yard_text())?;
    std::fs::write(format!("{folder}/stdin"), &lines)?;
    Ok(lines.lines().count())
}

fn programs(ours: &str, other: &str, folder: &str) -> std::io::Result<()> {
    println!("| Run | lines | ours, ms | C++, ms | ours/C++ |");
    println!("|---|---|---|---|---|");
    for (name, scenario, tail) in runs() {
        let count = write_run(&scenario, &tail, folder)?;
        let mut least = [f64::MAX; 2];
        for _ in 0..9 {
            least[0] = least[0].min(run_program(ours, folder, "ours")?);
            least[1] = least[1].min(run_program(other, folder, "other")?);
        }
        let same = std::fs::read(format!("{folder}/ours"))? == std::fs::read(format!("{folder}/other"))?;
        assert!(same, "{name}: the two programs differ");
        println!(
            "| {name} | {} | {:.0} | {:.0} | {:.2} |",
            count,
            least[0] * 1e3,
            least[1] * 1e3,
            least[0] / least[1]
        );
    }
    Ok(())
}

fn main() -> std::io::Result<()> {
    let args: Vec<String> = std::env::args().collect();
    match args.iter().map(String::as_str).collect::<Vec<_>>()[1..] {
        [] => {
            tables();
            Ok(())
        }
        ["lines"] => {
            show(&copying());
            Ok(())
        }
        ["laying"] => {
            show(&laying(&scenarios::full_yard()));
            Ok(())
        }
        ["programs", ours, other, folder] => programs(ours, other, folder),
        ["write", n, folder] => {
            let n: usize = n.parse().map_err(std::io::Error::other)?;
            let (_, scenario, tail) = &runs()[n];
            write_run(scenario, tail, folder).map(|_| ())
        }
        _ => Err(std::io::Error::other("usage: bench [lines | laying | programs OURS OTHER FOLDER | write N FOLDER]")),
    }
}
