//! A dropped area leaves nothing behind: whoever gets the memory next finds zeros. An allocator looks at what is given back.
mod common;
use common::*;
use mahjonglarch::*;
use std::{
  alloc::{GlobalAlloc, Layout, System},
  sync::atomic::{AtomicUsize, Ordering::SeqCst},
};

static CLEAN: AtomicUsize = AtomicUsize::new(0);
static DIRTY: AtomicUsize = AtomicUsize::new(0);

struct Watching;

// SAFETY: the system's allocator; memory is read before it is given back. All memory of this size is initialised: areas and copies of them.
unsafe impl GlobalAlloc for Watching {
  unsafe fn alloc(&self, layout: Layout) -> *mut u8 {
    // zeroed, so that no byte of it is uninitialised when it is looked at
    unsafe { System.alloc_zeroed(layout) }
  }

  unsafe fn dealloc(&self, memory: *mut u8, layout: Layout) {
    if layout.size() == AREA_SIZE {
      let bytes = unsafe { std::slice::from_raw_parts(memory, AREA_SIZE) };
      let counter = if bytes.iter().all(|byte| *byte == 0) { &CLEAN } else { &DIRTY };
      counter.fetch_add(1, SeqCst);
    }
    unsafe { System.dealloc(memory, layout) }
  }
}

#[global_allocator]
static ALLOCATOR: Watching = Watching;

fn seen() -> (usize, usize) {
  (CLEAN.swap(0, SeqCst), DIRTY.swap(0, SeqCst))
}

/// One test, so that nothing else gives memory back meanwhile.
#[test]
fn dropped_areas_are_zeros() {
  let mut host = Host::new();
  host.hold('9');
  assert!(!host.session.is_fresh());

  // what a session with a held press has in it is seen where it is not cleared
  let copy = host.session.as_bytes().to_vec();
  seen();
  drop(copy);
  assert_eq!(seen(), (0, 1));

  drop(host);
  assert_eq!(seen(), (2, 0), "the session area and the answer area");

  // the answer area with an event in it
  let mut host = Host::new();
  host.press_digit('7');
  assert_eq!(host.answers.events().len(), 1);
  drop(host);
  assert_eq!(seen(), (2, 0));

  // and cleared before
  let mut host = Host::new();
  host.press_digit('7');
  host.answers.clear();
  assert_eq!(host.answers.events().len(), 0);
  assert!(host.answers.as_bytes().iter().all(|byte| *byte == 0));
}
