//! Times the library, through its Rust package, beside the model: single weighings, and full certificates sent to a register.
//! Both are built for release and given the same bytes and words in one run; both have to answer the same.

mod charts;

use charts::{graded_choice, graded_weighted, random_choice, random_weighted};
use model::chart::Chart;
use model::register::Register as ModelRegister;
use model::solver::{best_pairing, best_potentials, certificate, Certificate};
use model::table::{Side, Table, Top};
use std::hint::black_box;
use std::time::Instant;

const TOP: u32 = 1_000_000_000;

/// The pair of the single weighings.
const PAIR: (usize, usize) = (3, 17);

/// The shortest of so many runs each is told. They take turns, so that both have the machine alike.
const RUNS: usize = 25;

/// The seconds that the shortest run of either takes.
fn time_both(mut library: impl FnMut(), mut model: impl FnMut()) -> (f64, f64) {
    let mut shortest = (f64::MAX, f64::MAX);
    for _ in 0..RUNS {
        let start = Instant::now();
        library();
        shortest.0 = shortest.0.min(start.elapsed().as_secs_f64());
        let start = Instant::now();
        model();
        shortest.1 = shortest.1.min(start.elapsed().as_secs_f64());
    }
    shortest
}

fn side_of(side: Side) -> settle::Side {
    match side {
        Side::Upper => settle::Side::Upper,
        Side::Lower => settle::Side::Lower,
    }
}

/// Weighs one showing many times, in a fresh register's table.
fn weighings(name: &str, bytes: &[u8]) {
    const TIMES: u32 = 20_000;
    let chart = Chart::of_file(bytes).expect("the file holds a chart");
    let top = Top::new(TOP).expect("the top is in range");
    let library = settle::Register::new(bytes, TOP).expect("the register is made");
    let model = ModelRegister::new(chart.clone(), top);
    let (s, t) = PAIR;
    for (side, showing) in [(Side::Upper, "a pairing"), (Side::Lower, "potentials")] {
        let table = Table::starting(side, chart.told(), top);
        let words = match side {
            Side::Upper => best_pairing(&chart, &table, s, t),
            Side::Lower => best_potentials(&chart, &table, s, t),
        };
        let claim = library.weigh(side_of(side), s, t, &words).expect("the showing is valid");
        assert_eq!(model.weigh(side, s as u32, t as u32, &words).ok(), Some(claim), "the two answer the same");
        let times = time_both(
            || {
                for _ in 0..TIMES {
                    let _ = black_box(library.weigh(side_of(side), s, t, black_box(&words)));
                }
            },
            || {
                for _ in 0..TIMES {
                    let _ = black_box(model.weigh(side, s as u32, t as u32, black_box(&words)));
                }
            },
        );
        let nanoseconds = |seconds: f64| format!("{:.0} ns", seconds / f64::from(TIMES) * 1e9);
        println!(
            "| {name}: {showing} of {} words | {} | {} | {:.2} |",
            words.len(),
            nanoseconds(times.0),
            nanoseconds(times.1),
            times.0 / times.1
        );
    }
}

fn send_to_library(bytes: &[u8], top: u32, certificate: &Certificate) -> Result<settle::Register, Box<dyn std::error::Error>> {
    let mut register = settle::Register::new(bytes, top)?;
    for (side, draft) in [(settle::Side::Upper, &certificate.upper), (settle::Side::Lower, &certificate.lower)] {
        register.open(side)?;
        for shown in draft {
            register.claim(shown.s, shown.t, shown.claim)?;
        }
        register.close()?;
        for shown in draft {
            register.show(shown.s, shown.t, &shown.words)?;
        }
        register.enter()?;
    }
    Ok(register)
}

fn send_to_model(bytes: &[u8], top: Top, certificate: &Certificate) -> Result<ModelRegister, model::register::Refusal> {
    let mut register = ModelRegister::new(Chart::of_file(bytes).expect("the file holds a chart"), top);
    for (side, draft) in [(Side::Upper, &certificate.upper), (Side::Lower, &certificate.lower)] {
        register.open(side)?;
        for shown in draft {
            register.claim(shown.s as u32, shown.t as u32, shown.claim)?;
        }
        register.close()?;
        for shown in draft {
            register.show(shown.s as u32, shown.t as u32, &shown.words)?;
        }
        register.enter()?;
    }
    Ok(register)
}

/// Makes a register and sends it a full certificate, which settles every judged pair.
fn certificates(name: &str, bytes: &[u8], top: u32) {
    let chart = Chart::of_file(bytes).expect("the file holds a chart");
    let top_of = Top::new(top).expect("the top is in range");
    let certificate = certificate(&chart, top_of).expect("the distances are whole numbers over the top");
    let register = send_to_library(bytes, top, &certificate).expect("the library takes the certificate");
    for shown in &certificate.upper {
        let entries = register.ask(shown.s, shown.t).expect("the chart has both sections");
        assert_eq!((entries.lower, entries.upper, entries.verdict), (shown.claim, shown.claim, settle::Verdict::Settled));
    }
    let times = time_both(
        || {
            black_box(send_to_library(black_box(bytes), top, &certificate).is_ok());
        },
        || {
            black_box(send_to_model(black_box(bytes), top_of, &certificate).is_ok());
        },
    );
    let shows = certificate.upper.len() + certificate.lower.len();
    let words: usize = certificate.upper.iter().chain(&certificate.lower).map(|shown| shown.words.len()).sum();
    println!(
        "| {name}: a full certificate, {shows} shows, {words} words | {:.2} ms | {:.2} ms | {:.2} |",
        times.0 * 1e3,
        times.1 * 1e3,
        times.0 / times.1
    );
}

fn main() {
    println!("| n 32 | library | model | ratio |");
    println!("|---|---|---|---|");
    weighings("weighted chart, 32 successors", &random_weighted(32));
    weighings("weighted chart, 4 successors", &random_weighted(4));
    weighings("choice chart, 32 successors", &random_choice(32));
    weighings("choice chart, 4 successors", &random_choice(4));
    certificates("weighted chart", &graded_weighted(), 576_000_000);
    certificates("choice chart", &graded_choice(), 1 << 29);
}
