//! Holds the proved library against tao itself. README.md has the commands.
mod count;
mod damage;
mod dice;
mod exhaustive;
mod fields;
mod generate;
mod layouts;
mod library;
mod limits;
mod run;
mod script;
mod shrink;
mod tables;

use count::grouped;
use generate::Generator;
use run::{Difference, Machine, Stopped};
use script::Step;
use std::{process::ExitCode, time::Instant};

/// Where both sides part: the name of the script, its calls, the difference.
type Parted = (String, Stopped);

/// Scripts that seeds give.
fn seeded(m: &mut Machine, first: u64, last: u64) -> Result<(), Parted> {
  let mut g = Generator::new();
  let start = Instant::now();
  for seed in first..=last {
    g.script(seed, m).map_err(|stopped| (format!("seed {seed}"), stopped))?;
    let done = seed - first + 1;
    if done.is_multiple_of(100_000) {
      eprintln!("{} scripts, {:.0} s", grouped(done), start.elapsed().as_secs_f64());
    }
  }
  println!("seeds {first} to {last}: {} scripts, no difference", grouped(last + 1 - first));
  Ok(())
}

fn exhaustive(m: &mut Machine) -> Result<(), Parted> {
  let (whole, behind) = exhaustive::run(m).map_err(|stopped| ("exhaustive".into(), stopped))?;
  let symbols = exhaustive::alphabet().len();
  println!("all {} lists of up to four calls over {symbols} symbols: no difference", grouped(whole));
  println!("all {} lists of up to three behind five beginnings: no difference", grouped(behind));
  Ok(())
}

fn limits(m: &mut Machine) -> Result<(), Parted> {
  let scripts = limits::run(m)?;
  println!("{scripts} scripts around the limits: no difference");
  Ok(())
}

fn damage(m: &mut Machine) -> Result<(), Parted> {
  let d = damage::run(m).map_err(|stopped| ("damage".into(), stopped))?;
  let parts =
    [("blocks", d.blocks), ("break tables", d.tables), ("session areas", d.sessions), ("answer areas", d.answers)];
  for (what, (all, fine)) in parts {
    println!("{} damaged {what}, of which {} are still in order: no difference", grouped(all), grouped(fine));
  }
  Ok(())
}

/// Runs one part, and prints what it reached.
fn part(run: impl FnOnce(&mut Machine) -> Result<(), Parted>) -> Result<(), Parted> {
  let mut m = Machine::new();
  run(&mut m)?;
  println!("\n{}", m.counts);
  Ok(())
}

/// Prints a difference, and the shortest script that shows one.
fn report((name, (steps, first)): Parted) {
  println!("{name}: call {}: {}", first.at, first.what);
  if steps.is_empty() {
    return;
  }
  if Machine::new().run(&steps).is_ok() {
    println!("run again, its {} calls show no difference between both sides", steps.len());
    show(&steps);
    return;
  }
  let (layouts, tables) = (layouts::Layouts::new().all(), tables::Tables::new().all());
  let long = steps.len();
  let short = shrink::shrink(steps, &layouts, &tables, &mut |s| Machine::new().run(s).is_err());
  println!("{} of its {long} calls are enough:", short.len());
  show(&short);
  if let Err(Difference { at, what }) = Machine::new().run(&short) {
    println!("call {at}: {what}");
  }
}

/// Prints the calls; of very many the first and the last ones.
fn show(steps: &[Step]) {
  for (i, step) in steps.iter().enumerate() {
    match (i, steps.len() - i) {
      (40, 41..) => println!("  .."),
      (41.., 41..) => (),
      _ => println!("  {i}: {step:?}"),
    }
  }
}

fn main() -> ExitCode {
  let args: Vec<String> = std::env::args().skip(1).collect();
  let args: Vec<&str> = args.iter().map(String::as_str).collect();
  let seeds = |first: &str, last: &str| Some((first.parse::<u64>().ok()?, last.parse::<u64>().ok()?));
  let outcome = match args[..] {
    ["seeded", first, last] => seeds(first, last).map(|(first, last)| part(|m| seeded(m, first, last))),
    ["exhaustive"] => Some(part(exhaustive)),
    ["limits"] => Some(part(limits)),
    ["damage"] => Some(part(damage)),
    ["all", first, last] => seeds(first, last).map(|(first, last)| {
      part(limits)?;
      part(damage)?;
      part(exhaustive)?;
      part(|m| seeded(m, first, last))
    }),
    _ => None,
  };
  match outcome {
    Some(Ok(())) => ExitCode::SUCCESS,
    Some(Err(parted)) => {
      report(parted);
      ExitCode::FAILURE
    }
    None => {
      eprintln!("compare seeded FIRST LAST | exhaustive | limits | damage | all FIRST LAST");
      ExitCode::from(2)
    }
  }
}
