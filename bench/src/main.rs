//! Speed of the proved library against the plain model.
//!
//! Without arguments: a table of nanoseconds a step and a command write, the best of several rounds.
//! With `check`: only compares what both sides end in.
//! With LOAD SIDE FORM STEPS (`transfer proved run 1000`): only does the steps, to have its instructions counted; the form `commands`
//! writes the 256 command bytes in turn, each in the state that the load starts from.

mod loads;

use einflyga::plain::Plain;
use einflyga::{ffi, LONGEST_RUN};
use loads::Load;
use std::env::args;
use std::process::exit;
use std::time::Instant;

const ROUNDS: u32 = 9;
const RUN_STEPS: u32 = 16 * LONGEST_RUN;
const SINGLE_STEPS: u32 = 4 * LONGEST_RUN;
const COMMANDS: u32 = 4 * LONGEST_RUN;

#[derive(Clone, Copy)]
enum Side {
    Plain,
    Proved,
}

#[derive(Clone, Copy)]
enum Form {
    Run,
    Single,
    Commands,
}

/// Does so many steps of a load from its start; answers the nanoseconds a step and what it ends in.
fn perform(load: &Load, side: Side, form: Form, steps: u32) -> (f64, Load) {
    let mut load = load.clone();
    let nanoseconds = match side {
        Side::Plain => {
            let mut plain = Plain::from_words(&load.words);
            let elapsed = time(|| match form {
                Form::Run => run_plain(&mut plain, &mut load, steps),
                Form::Single => {
                    for _ in 0..steps {
                        let _ = plain.step(false, &mut load.memory, &mut load.io);
                    }
                }
                Form::Commands => {
                    let start = plain.clone();
                    for command in commands(steps) {
                        plain = start.clone();
                        let _ = plain.write(command);
                    }
                }
            });
            load.words = plain.words();
            elapsed
        }
        Side::Proved => time(|| match form {
            Form::Run => run_proved(&mut load, steps),
            Form::Single => {
                for _ in 0..steps {
                    step_proved(&mut load);
                }
            }
            Form::Commands => {
                let start = load.words;
                for command in commands(steps) {
                    load.words = start;
                    unsafe { ffi::einflyga_write(load.words.as_mut_ptr(), command) };
                }
            }
        }),
    };
    (nanoseconds / f64::from(steps), load)
}

/// The command bytes in turn.
fn commands(writes: u32) -> impl Iterator<Item = u16> {
    (0..writes).map(|at| (at % 256) as u16)
}

fn time(work: impl FnOnce()) -> f64 {
    let start = Instant::now();
    work();
    start.elapsed().as_nanos() as f64
}

/// The budgets of runs that make up so many steps.
fn budgets(steps: u32) -> impl Iterator<Item = u32> {
    (0..steps)
        .step_by(LONGEST_RUN as usize)
        .map(move |done| LONGEST_RUN.min(steps - done))
}

fn run_plain(plain: &mut Plain, load: &mut Load, steps: u32) {
    for budget in budgets(steps) {
        let run = plain.run(budget, &mut load.memory, &mut load.io);
        assert!(
            matches!(run, Ok(run) if run.steps == budget),
            "the load stopped"
        );
    }
}

fn run_proved(load: &mut Load, steps: u32) {
    let Load { words, memory, io } = load;
    for budget in budgets(steps) {
        let run = unsafe {
            ffi::einflyga_run(
                words.as_mut_ptr(),
                budget,
                memory.as_mut_ptr(),
                memory.len(),
                io.as_mut_ptr(),
                io.len(),
            )
        };
        assert_eq!((run >> 32) as u32, budget, "the load stopped");
    }
}

fn step_proved(load: &mut Load) {
    let Load { words, memory, io } = load;
    unsafe {
        ffi::einflyga_step(
            words.as_mut_ptr(),
            false,
            memory.as_mut_ptr(),
            memory.len(),
            io.as_mut_ptr(),
            io.len(),
        );
    }
}

/// The nanoseconds a step of the plain model and of the proved library, which must end alike.
fn measure(name: &str, load: &Load, form: Form, steps: u32) -> [f64; 2] {
    let (plain, plain_end) = perform(load, Side::Plain, form, steps);
    let (proved, proved_end) = perform(load, Side::Proved, form, steps);
    assert!(
        plain_end == proved_end,
        "{name}: the two sides end differently"
    );
    [plain, proved]
}

fn best(name: &str, load: &Load, form: Form, steps: u32) -> [f64; 2] {
    (0..ROUNDS)
        .map(|_| measure(name, load, form, steps))
        .fold([f64::INFINITY; 2], |best, round| {
            [best[0].min(round[0]), best[1].min(round[1])]
        })
}

/// One round of every load, for its comparison alone.
fn check() {
    for name in loads::NAMES {
        let load = loads::named(name).expect("a load of that name");
        measure(name, &load, Form::Run, RUN_STEPS);
        measure(name, &load, Form::Single, SINGLE_STEPS);
    }
}

fn print_table() {
    println!("nanoseconds a step, best of {ROUNDS} rounds");
    println!("                     run                       single");
    println!("load          plain  proved   ratio     plain  proved   ratio");
    for name in loads::NAMES {
        let load = loads::named(name).expect("a load of that name");
        let [plain_run, proved_run] = best(name, &load, Form::Run, RUN_STEPS);
        let [plain_single, proved_single] = best(name, &load, Form::Single, SINGLE_STEPS);
        println!(
            "{:12} {plain_run:6.2}  {proved_run:6.2}  {:6.2}    {plain_single:6.2}  {proved_single:6.2}  {:6.2}",
            name,
            proved_run / plain_run,
            proved_single / plain_single,
        );
    }
    let [plain, proved] = best("commands", &loads::idle(), Form::Commands, COMMANDS);
    println!(
        "a command write: plain {plain:.2}, proved {proved:.2}, ratio {:.2}",
        proved / plain
    );
}

/// Does the steps that the arguments name, if they name any.
fn perform_arguments(arguments: &[String]) -> Option<()> {
    let [load, side, form, steps] = <&[String; 4]>::try_from(arguments).ok()?;
    let load = loads::named(load)?;
    let side = match side.as_str() {
        "plain" => Side::Plain,
        "proved" => Side::Proved,
        _ => return None,
    };
    let form = match form.as_str() {
        "run" => Form::Run,
        "single" => Form::Single,
        "commands" => Form::Commands,
        _ => return None,
    };
    perform(&load, side, form, steps.parse().ok()?);
    Some(())
}

fn main() {
    let arguments: Vec<String> = args().skip(1).collect();
    if arguments.is_empty() {
        print_table();
    } else if arguments == ["check"] {
        check();
    } else if perform_arguments(&arguments).is_none() {
        eprintln!("arguments: none, check, or LOAD plain|proved run|single|commands STEPS");
        exit(2);
    }
}
