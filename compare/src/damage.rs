//! Each byte of blocks, of break tables, of session areas and of an answer area damaged in turn. What the library answers is held against
//! the independent reading of docs/AREAS.md; where the damaged bytes are a block, a table or a session, what calls then do is
//! held against tao and against what the reading says is waiting.
use crate::{
  layouts::Layout,
  run::{Machine, Stopped},
  script::{message, Body, State, Step, Token},
};
use std::sync::Arc;

mod answers;
mod blocks;
mod sessions;
mod tables;

/// The values that a byte takes in turn.
fn damaged(byte: u8) -> impl Iterator<Item = u8> {
  let by = [0x01, 0x02, 0x10, 0x80, 0xFF].map(|x| byte ^ x);
  let mut all = by.into_iter().chain([byte.wrapping_add(1), byte.wrapping_sub(1), 0]).collect::<Vec<u8>>();
  all.sort();
  all.dedup();
  all.into_iter().filter(move |b| *b != byte)
}

/// How many were tried, and how many of them were still in order.
pub type Tried = (u64, u64);

pub struct Damaged {
  pub blocks: Tried,
  pub tables: Tried,
  pub sessions: Tried,
  pub answers: Tried,
}

fn call(l: &Arc<Layout>, keys: &State, kind: u32, wparam: u64, lparam: u64) -> Step {
  Step::new(l, keys, Body::Open(message(kind, wparam, lparam)))
}

fn alone(l: &Arc<Layout>, keys: &State) -> Step {
  Step::new(l, keys, Body::Finish { token: Token::Latest, peeked: None })
}

pub fn run(m: &mut Machine) -> Result<Damaged, Stopped> {
  let (blocks, tables) = (blocks::run(m)?, tables::run(m)?);
  Ok(Damaged { blocks, tables, sessions: sessions::run(m)?, answers: answers::run()? })
}
