//! Compares the library with the model.
//!
//!     compare [CALLS] [SEED]                  random and structured calls; 1,000,000 and seed 1 where not given
//!     compare [CALLS] [SEED] --fault NAME     the same with one fault in the model
//!     compare [CALLS] [SEED] --faults         each fault in turn: after how many calls is it found?
//!     compare --every-read                    every row value read with ECC
//!     compare --every-write                   every value written with ECC over near-blank rows
//!     compare --lock-rows                     every lock row written, by the keys and levels of its word and of pages 62 and 63
//!     compare --callers                       every caller in every domain and at every level, and every byte of a lock row latched
//!     compare --tallies                       tallies of every kind before every call: each row written and counted, jobs cut at every pulse
//!     compare --versions                      jobs of every version over the border rows, and version 2 jobs cut at every pulse
//!     compare --lead                          jobs sent in chunks, cut at every byte, and every kind of note and area
//!     compare --make                          jobs made of pairs of images of every kind, and read at every place
//!     compare --repair                        repair passes over rows with every one or two wrong bits, and lists and reports of every kind
//!     compare --cards                         cards in rows of every sort, and cards written, burnt and read back
//!     compare [CALLS] [SEED] --plug-ins       Non-secure calls on two chips that agree; 200,000 random ones and seed 1 where not given
//!     compare --plug-ins --fault NAME         the same with the model, with one fault, in the library's place: does it leak?
//!
//! The command of the driver, its words parted by spaces, stands in OTP_DRIVER, or as the first argument of all.
//!
//! Exits 0 where nothing differs (with `--faults`: where every fault is found), 1 where something does, 2 where it is
//! asked for something else or has no driver.

use std::process::ExitCode;

use compare::bench::{Bench, Difference};
use compare::call::Chip;
use compare::callers::every_caller;
use compare::counts::to_anyone;
use compare::every::{every_read, every_write};
use compare::every_card::every_card;
use compare::every_card_job::{every_card_job, every_kind_of_card};
use compare::every_cutting::every_cutting;
use compare::every_ground::every_ground;
use compare::every_list::every_list;
use compare::every_lock_cut::every_lock_cut;
use compare::every_note::every_note;
use compare::every_page::every_page;
use compare::every_pair::every_pair;
use compare::every_place::every_place;
use compare::every_tally::every_tally;
use compare::every_version::every_version;
use compare::every_worn_row::every_worn_row;
use compare::face::{self, Library};
use compare::fault::{named, Fault, FAULTS};
use compare::lock_bytes::every_lock_byte;
use compare::lock_rows::every_lock_row;
use compare::model::Model;
use compare::plugins::{self, to_a_plug_in};
use compare::run::run;
use compare::sharpness::table;
use compare::two_chips::TwoChips;
use compare::unlike::Seen;
use compare::written_pair::written_pair;

/// Which calls are made. But for the mix, the faults and the plug-ins' lists, they are always the same.
enum Mode {
    Mix,
    Faults,
    EveryRead,
    EveryWrite,
    LockRows,
    Callers,
    Tallies,
    Versions,
    Lead,
    Make,
    Repair,
    Cards,
    PlugIns,
}

struct Wish {
    driver: Option<String>,
    calls: Option<u64>,
    seed: u64,
    fault: Option<Fault>,
    mode: Mode,
}

/// Reads the command line.
fn wish() -> Result<Wish, String> {
    let mut wish = Wish {
        driver: None,
        calls: None,
        seed: 1,
        fault: None,
        mode: Mode::Mix,
    };
    let mut numbers = Vec::new();
    let mut words = std::env::args().skip(1).peekable();
    wish.driver = words.next_if(|word| !word.starts_with("--") && word.parse::<u64>().is_err());
    while let Some(word) = words.next() {
        match word.as_str() {
            "--fault" => {
                let name = words.next().unwrap_or_default();
                wish.fault = Some(named(&name).ok_or(format!("no fault is named '{name}'"))?);
            }
            "--faults" => wish.mode = Mode::Faults,
            "--every-read" => wish.mode = Mode::EveryRead,
            "--every-write" => wish.mode = Mode::EveryWrite,
            "--lock-rows" => wish.mode = Mode::LockRows,
            "--callers" => wish.mode = Mode::Callers,
            "--tallies" => wish.mode = Mode::Tallies,
            "--versions" => wish.mode = Mode::Versions,
            "--lead" => wish.mode = Mode::Lead,
            "--make" => wish.mode = Mode::Make,
            "--repair" => wish.mode = Mode::Repair,
            "--cards" => wish.mode = Mode::Cards,
            "--plug-ins" => wish.mode = Mode::PlugIns,
            _ => numbers.push(word.parse::<u64>().map_err(|_| format!("not understood: '{word}'"))?),
        }
    }
    if numbers.len() > 2 {
        return Err("at most two numbers: calls and seed".to_string());
    }
    wish.calls = numbers.first().copied();
    wish.seed = numbers.get(1).copied().unwrap_or(wish.seed);
    Ok(wish)
}

/// How many calls the mix has, and the plug-ins' lists, where it is not given.
const MIX: u64 = 1_000_000;
const LISTS: u64 = 200_000;

/// The comparison itself, with the table.
fn compare(wish: &Wish, library: &Library, sound: &Model) -> Result<(), String> {
    let model = wish.fault.map_or(sound.clone(), Model::faulty);
    let mut bench = Bench::new(library, &model);
    let result = run(&mut bench, &sound.codes, sound, wish.calls.unwrap_or(MIX), wish.seed);
    bench.counts.print(to_anyone);
    bench.ends.print();
    bench.words.print();
    bench.pairs.print("pairs of images");
    bench.runs.print("runs of jobs made of them");
    bench.places.print("places in a job's bytes");
    bench.passes.print("repair passes");
    bench.looked.print("rows listed for them");
    bench.again.print("passes made again");
    bench.cards.print("cards read");
    bench.asked.print("cards asked for");
    bench.burnt.print("jobs of cards run");
    result.map_err(|Difference(line)| format!("seed {}: {line}", wish.seed))?;
    if let Some((name, number)) = bench.counts.missing(to_anyone) {
        return Err(format!("{name} never gave {number} in {} calls", bench.counts.calls));
    }
    if let Some(line) = never_tried(&bench) {
        return Err(line);
    }
    println!("{} calls compared, 0 differ", bench.counts.calls);
    Ok(())
}

/// A kind that never came up.
fn never_tried(bench: &Bench) -> Option<String> {
    let kinds = [
        ("job with lock rows was cut", bench.ends.missing()),
        ("job sent in chunks was", bench.words.missing()),
        ("pair of images was", bench.pairs.missing()),
        ("run of a job made of two images was", bench.runs.missing()),
        ("place in a job's bytes was", bench.places.missing()),
        ("repair pass was", bench.passes.missing()),
        ("row listed for a repair pass was", bench.looked.missing()),
        ("repair pass was made again", bench.again.missing()),
        ("card that was read was", bench.cards.missing()),
        ("card that was asked for was", bench.asked.missing()),
        ("job of a card was", bench.burnt.missing()),
    ];
    kinds
        .into_iter()
        .find_map(|(what, kind)| Some(format!("no {what} {}", kind?)))
}

/// Each fault in turn.
fn faults(wish: &Wish, library: &Library, sound: &Model) -> Result<(), String> {
    let mut missed = Vec::new();
    let calls = wish.calls.unwrap_or(MIX);
    for (fault, name, what) in FAULTS {
        let model = Model::faulty(*fault);
        let mut bench = Bench::new(library, &model);
        let found = run(&mut bench, &sound.codes, sound, calls, wish.seed).is_err();
        match found {
            true => println!("{name:<20} found after {:>7} calls   {what}", bench.counts.calls),
            false => {
                println!("{name:<20} not found in {:>5} calls   {what}", bench.counts.calls);
                missed.push(*name);
            }
        }
    }
    if !missed.is_empty() {
        return Err(format!("not found within {calls} calls: {}", missed.join(", ")));
    }
    println!("{} faults, all found", FAULTS.len());
    Ok(())
}

/// Every read, or every write.
fn every(
    each: fn(&dyn Chip, &dyn Chip) -> Result<u64, Difference>,
    wish: &Wish,
    library: &Library,
    sound: &Model,
) -> Result<(), String> {
    let model = wish.fault.map_or(sound.clone(), Model::faulty);
    let calls = each(library, &model).map_err(|Difference(line)| line)?;
    println!("{calls} calls compared, 0 differ");
    Ok(())
}

/// Makes calls on a bench, the same ones each time.
type Calls = fn(&mut Bench) -> Result<(), Difference>;

/// Every lock row, every caller, every tally, every version, every cutting, every pair, every worn row, or every card: one list of calls after
/// another, on one bench.
fn all_of(calls: &[Calls], wish: &Wish, library: &Library, sound: &Model) -> Result<(), String> {
    let model = wish.fault.map_or(sound.clone(), Model::faulty);
    let mut bench = Bench::new(library, &model);
    for each in calls {
        each(&mut bench).map_err(|Difference(line)| line)?;
    }
    println!("{} calls compared, 0 differ", bench.counts.calls);
    Ok(())
}

/// What a plug-in can learn: the written pair, the table of clauses, the random lists.
fn plug_ins(wish: &Wish, library: &Library, sound: &Model) -> Result<(), String> {
    let model = wish.fault.map_or(sound.clone(), Model::faulty);
    let another = face::library(wish.driver.as_deref())?;
    let libraries: [&dyn Chip; 2] = match wish.fault {
        Some(_) => [&model, &model],
        None => [library, &another],
    };
    let line = |Difference(line)| line;
    let mut written = TwoChips::new(libraries, &model);
    written_pair(&mut written).map_err(line)?;
    println!("{} calls on the written pair, the same answers", written.calls());
    for line in table(&mut TwoChips::new(libraries, &model)).map_err(line)? {
        println!("{line}");
    }
    let (mut lists, mut seen) = (TwoChips::new(libraries, &model), Seen::default());
    let calls = wish.calls.unwrap_or(LISTS);
    let result = plugins::run(&mut lists, &mut seen, (&sound.codes, sound), calls, wish.seed);
    seen.print();
    lists.first.counts.print(to_a_plug_in);
    result.map_err(|Difference(line)| format!("seed {}: {line}", wish.seed))?;
    if let Some(kind) = seen.missing() {
        return Err(format!("no pair differed in {kind}"));
    }
    if let Some((name, number)) = lists.first.counts.missing(to_a_plug_in) {
        return Err(format!("{name} never gave {number} in {} calls", lists.calls()));
    }
    println!("{} calls compared, 0 differ", written.calls() + lists.calls());
    Ok(())
}

/// What is asked for, and the library to do it with.
fn begin() -> Result<(Wish, Library), String> {
    let wish = wish()?;
    let library = face::library(wish.driver.as_deref())?;
    Ok((wish, library))
}

/// What stands in the library's place.
fn compared_with(wish: &Wish) -> &'static str {
    match (&wish.mode, wish.fault) {
        (Mode::PlugIns, Some(_)) => "the model with its fault",
        _ => face::NAME,
    }
}

fn main() -> ExitCode {
    let (wish, library) = match begin() {
        Ok(both) => both,
        Err(line) => {
            eprintln!("compare: {line}");
            return ExitCode::from(2);
        }
    };
    println!("compared with {}", compared_with(&wish));
    let sound = Model::sound();
    let done = match wish.mode {
        Mode::Mix => compare(&wish, &library, &sound),
        Mode::Faults => faults(&wish, &library, &sound),
        Mode::EveryRead => every(every_read, &wish, &library, &sound),
        Mode::EveryWrite => every(every_write, &wish, &library, &sound),
        Mode::LockRows => all_of(&[every_lock_row], &wish, &library, &sound),
        Mode::Callers => all_of(&[every_caller, every_lock_byte], &wish, &library, &sound),
        Mode::Tallies => all_of(&[every_tally], &wish, &library, &sound),
        Mode::Versions => all_of(&[every_version, every_lock_cut], &wish, &library, &sound),
        Mode::Lead => all_of(&[every_cutting, every_note], &wish, &library, &sound),
        Mode::Make => all_of(&[every_ground, every_pair, every_place], &wish, &library, &sound),
        Mode::Repair => all_of(&[every_list, every_page, every_worn_row], &wish, &library, &sound),
        Mode::Cards => all_of(
            &[every_card, every_card_job, every_kind_of_card],
            &wish,
            &library,
            &sound,
        ),
        Mode::PlugIns => plug_ins(&wish, &library, &sound),
    };
    match done {
        Ok(()) => ExitCode::SUCCESS,
        Err(line) => {
            println!("compare: {line}");
            ExitCode::from(1)
        }
    }
}
