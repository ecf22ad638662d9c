//! Writes the data files and the expected outputs of the programs under crates/ and the worked examples of
//! crates/examples, or compares them.
//! tao gives every answer but those on texts, which Rust's standard library gives.
use examples::{boards, tables};
use kbtypes::LayoutSpec;
use std::{env, fs, path::Path, process::ExitCode};

mod examples;
mod keyboard;
mod locations;
mod replay;
mod scancodes;
mod station;
mod texts;

/// Path from the repository's folder, and contents.
type File = (&'static str, Vec<u8>);

fn files() -> Vec<File> {
  let us = keyboard::us();
  let pages = locations::pages();
  let replay = replay::output(&us);
  let (shift, events) = station::input_and_output(&us);
  vec![
    ("crates/scancodes/stdout", scancodes::output().into()),
    ("crates/locations/data/locations.block", keyboard::block(&pages)),
    ("crates/locations/stdout", locations::output(&pages).into()),
    ("crates/layout_keys/data/us.block", keyboard::block(&us)),
    ("crates/layout_keys/stdout", keyboard::output(&us).into()),
    ("crates/texts/stdout", texts::output().into()),
    ("crates/examples/specs/Expected.antt", examples::output().into()),
    ("crates/station/data/us.block", keyboard::block(&us)),
    ("crates/station/data/accent.block", keyboard::block(&station::accent())),
    ("crates/station/data/unicode.breaks", tables::UNICODE.into()),
    ("crates/station/data/names", station::names().into()),
    ("crates/station/stdin", shift.into()),
    ("crates/station/stdout", events.into()),
    ("crates/limits/data/one-key.block", keyboard::block(&limits())),
    ("crates/limits/data/most.breaks", tables::most()),
    ("crates/replay/data/calls", replay.calls),
    ("crates/replay/stdout", replay.stdout.into()),
  ]
}

/// One key: the virtual key 31 with the scan code 02, whose character is 1.
fn limits() -> LayoutSpec {
  let mut maps = LayoutSpec::empty(2);
  boards::key(&mut maps, 0x31, 0x02, None);
  maps.keys[0].insert(boards::code("Digit1"), boards::text("1"));
  maps
}

fn write(root: &Path, (path, bytes): &File) -> bool {
  let path = root.join(path);
  fs::create_dir_all(path.parent().unwrap()).unwrap();
  fs::write(path, bytes).unwrap();
  true
}

fn compare(root: &Path, (path, bytes): &File) -> bool {
  let same = fs::read(root.join(path)).is_ok_and(|b| b == *bytes);
  println!("{path}: {}", if same { "the same" } else { "DIFFERENT" });
  same
}

fn main() -> ExitCode {
  let words: Vec<String> = env::args().skip(1).collect();
  let words: Vec<&str> = words.iter().map(String::as_str).collect();
  let done = match words[..] {
    ["write", root] => files().iter().all(|f| write(Path::new(root), f)),
    // every file is named, not only the first that differs
    ["compare", root] => files().iter().filter(|f| !compare(Path::new(root), f)).count() == 0,
    ["sizes"] => {
      print!("{}", keyboard::sizes(&keyboard::us()));
      true
    }
    _ => {
      eprintln!("expected write ROOT | compare ROOT | sizes");
      false
    }
  };
  if done {
    ExitCode::SUCCESS
  } else {
    ExitCode::FAILURE
  }
}
