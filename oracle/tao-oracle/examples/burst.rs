//! How long tao takes for a message of a scanner burst on the recorded US layout, with Unicode's break table.
use areas::break_table;
use tao_oracle::{bench::scanner_burst, recording::Recording};

fn main() {
  let layouts = Recording::read(include_str!("../../recordings/layout-us.txt")).unwrap();
  let table = break_table::decode(include_bytes!("../../../tables/unicode-15.0.breaks")).unwrap();
  let (ns, events) = scanner_burst(&layouts[0].prepare(1), &table.into(), 100_000);
  println!("{ns:.0} ns a message, {events} events");
}
