//! The bytes of crates/replay/data/calls; oracle/README.md describes them.
use super::{Answer, Script, Step};
use areas::{block, event};
use kbtypes::{Body, LayoutSpec, Peeked, Slot, Snapshot};
use std::sync::Arc;

const END: u8 = 0;
const SCRIPT: u8 = 1;
const INPUTS: u8 = 2;
const OPEN: u8 = 3;
const FINISH: u8 = 4;

/// The bytes of a call's record before it is packed.
pub const RECORD: usize = 48;

/// Packs a field: pairs of a number of zeros, below 255, and the byte behind them; 255 stands for zeros to the end.
pub fn pack(field: &[u8]) -> Vec<u8> {
  let mut out = Vec::new();
  let mut rest = field;
  while !rest.is_empty() {
    let zeros = rest.iter().take_while(|b| **b == 0).count();
    if zeros == rest.len() {
      out.push(255);
      break;
    }
    let zeros = zeros.min(254);
    out.extend([zeros as u8, rest[zeros]]);
    rest = &rest[zeros + 1..];
  }
  out
}

fn message(out: &mut [u8], m: Peeked) {
  out[..4].copy_from_slice(&m.kind.to_le_bytes());
  out[4..12].copy_from_slice(&m.wparam.to_le_bytes());
  out[12..20].copy_from_slice(&m.lparam.to_le_bytes());
}

fn slot(out: &mut [u8], s: Slot) {
  if let Slot::Value(v) = s {
    out[0] = 1;
    out[1..9].copy_from_slice(&v.to_le_bytes());
  }
}

/// `before` is what was to be seen of tao before the call.
fn record(step: &Step, answer: &Answer, before: &Snapshot) -> [u8; RECORD] {
  let mut out = [0; RECORD];
  match step.call.body {
    Body::Open { kind, wparam, lparam } => {
      message(&mut out, Peeked { kind, wparam, lparam });
      if step.handed_on {
        out[20] = 2;
      } else {
        slot(&mut out[20..], step.lent);
      }
    }
    Body::Finish { token, peeked } => {
      if let Some(m) = peeked {
        message(&mut out, m);
        out[24] = 1;
      }
      out[20..24].copy_from_slice(&token.to_le_bytes());
    }
  }
  let (what, number, result, seen) = match answer {
    Answer::Refused(number) => (0, u32::from(*number), step.lent, before),
    Answer::Answered { token: None, result, seen, .. } => (1, 0, *result, seen),
    Answer::Answered { token: Some(token), result, seen, .. } => (2, *token, *result, seen),
  };
  out[29] = what;
  out[30..34].copy_from_slice(&number.to_le_bytes());
  if let Body::Open { .. } = step.call.body {
    slot(&mut out[34..], result);
  }
  out[43..45].copy_from_slice(&u16::try_from(seen.handed).unwrap().to_le_bytes());
  out[45] = seen.held.is_some().into();
  out[46..48].copy_from_slice(&u16::try_from(seen.entries.len()).unwrap().to_le_bytes());
  out
}

/// The tables in the order in which scripts first use them.
fn tables(scripts: &[Script]) -> Vec<Arc<[u8]>> {
  let mut out: Vec<Arc<[u8]>> = vec![];
  for step in scripts.iter().flat_map(|s| &s.steps) {
    if !out.contains(&step.table.bytes) {
      out.push(step.table.bytes.clone());
    }
  }
  out
}

/// How many there are, and each with its length before it.
fn counted(all: &[Vec<u8>]) -> Vec<u8> {
  let mut out = vec![u8::try_from(all.len()).unwrap()];
  for bytes in all {
    out.extend((bytes.len() as u32).to_le_bytes());
    out.extend(bytes);
  }
  out
}

/// The layouts in the order in which scripts first use them.
fn layouts(scripts: &[Script]) -> Vec<Arc<LayoutSpec>> {
  let mut out: Vec<Arc<LayoutSpec>> = vec![];
  for step in scripts.iter().flat_map(|s| &s.steps) {
    match out.iter().find(|l| l.id == step.call.layout.id) {
      Some(known) => assert!(*known == step.call.layout, "two layouts with one id"),
      None => out.push(step.call.layout.clone()),
    }
  }
  out
}

pub fn write(scripts: &[Script], answers: &[Vec<Answer>]) -> Vec<u8> {
  let (layouts, tables) = (layouts(scripts), tables(scripts));
  let blocks: Vec<Vec<u8>> = layouts.iter().map(|l| block::encode(l).unwrap()).collect();
  let mut out = counted(&blocks);
  out.extend(counted(&tables.iter().map(|t| t.to_vec()).collect::<Vec<_>>()));
  for (script, answers) in scripts.iter().zip(answers) {
    out.extend([SCRIPT, u8::try_from(script.name.len()).unwrap()]);
    out.extend(script.name.bytes());
    let mut last = None;
    let fresh = Snapshot { handed: 0, entries: vec![], held: None };
    let mut before = &fresh;
    for (step, answer) in script.steps.iter().zip(answers) {
      let block = layouts.iter().position(|l| l.id == step.call.layout.id).unwrap();
      let table = tables.iter().position(|t| *t == step.table.bytes).unwrap();
      let inputs = (block, table, step.call.state.clone());
      if last.as_ref() != Some(&inputs) {
        out.extend([INPUTS, block as u8, table as u8]);
        out.extend(pack(&inputs.2[..]));
        last = Some(inputs);
      }
      out.push(if let Body::Open { .. } = step.call.body { OPEN } else { FINISH });
      out.extend(pack(&record(step, answer, before)));
      if let Answer::Answered { events, seen, .. } = answer {
        out.extend(pack(&event::answers(events)));
        before = seen;
      }
    }
  }
  out.push(END);
  out
}

#[cfg(test)]
mod tests {
  use super::*;

  #[test]
  fn packed() {
    assert_eq!(pack(&[]), []);
    assert_eq!(pack(&[5, 0, 7, 0, 0]), [0, 5, 1, 7, 255]);
    assert_eq!(pack(&[0; 300]), [255]);
    let mut field = [0; 300];
    field[299] = 9;
    assert_eq!(pack(&field), [254, 0, 44, 9]);
  }
}
