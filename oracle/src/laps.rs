//! The library's build parted into its stages, which have no calls of their own.
//! The buffers are closed to writing, the first write to a stage's section faults,
//! and the fault notes the time and opens the section. Every stage writes to its
//! section from its first row on, so it runs from its fault to the next one's. What
//! the faults themselves take is left out.
use super::library::{mmap, mprotect, signal, Library, PAGE};
use super::questions::Circuit;
use std::{
    ffi::c_void,
    ptr, slice,
    sync::{
        atomic::{AtomicUsize, Ordering::Relaxed},
        OnceLock,
    },
    time::{Duration, Instant},
};

/// Where a section begins and ends, and when its fault came and was done, in ns.
#[derive(Default)]
struct Section {
    start: AtomicUsize,
    end: AtomicUsize,
    came: AtomicUsize,
    done: AtomicUsize,
}

const STAGES: [&str; 7] = ["instance", "permutation", "compressed", "m", "h", "z", "compose"];
static SECTIONS: OnceLock<([Section; 7], Instant)> = OnceLock::new();

fn now() -> usize {
    SECTIONS.get().unwrap().1.elapsed().as_nanos() as usize
}

/// `struct sigaction` as glibc has it.
#[repr(C)]
struct Action {
    handler: extern "C" fn(i32, *const usize, *mut c_void),
    mask: [u64; 16],
    flags: i32,
    restorer: usize,
}

extern "C" {
    fn sigaction(number: i32, action: *const Action, before: *mut c_void) -> i32;
}

extern "C" fn on_write(_: i32, info: *const usize, _: *mut c_void) {
    let came = now();
    let at = unsafe { *info.add(2) };
    for s in &SECTIONS.get().unwrap().0 {
        let (start, end) = (s.start.load(Relaxed), s.end.load(Relaxed));
        if start <= at && at < end {
            s.came.store(came, Relaxed);
            unsafe { mprotect(start as _, end - start, 3) };
            return s.done.store(now(), Relaxed);
        }
    }
    // Any other fault comes again, and ends the run.
    unsafe { signal(11, 0) };
}

/// Buffers of a circuit's columns and nodes, in pages of their own.
pub struct Laps {
    columns: &'static mut [u64],
    nodes: &'static mut [u64],
    /// Words, by stage.
    sizes: [usize; 7],
}

/// Pages that are never given back; shared, so that to open them costs no more faults.
fn pages(words: usize) -> &'static mut [u64] {
    unsafe {
        let base = mmap(ptr::null_mut(), (8 * words).next_multiple_of(PAGE), 3, 0x21, -1, 0);
        assert!(base as isize != -1, "mmap");
        slice::from_raw_parts_mut(base as *mut u64, words)
    }
}

impl Laps {
    /// None: a column does not fill its pages.
    pub fn of(c: &Circuit, nodes: usize) -> Option<Laps> {
        let rows = 1 << c.k;
        if 8 * rows % PAGE != 0 {
            return None;
        }
        SECTIONS.get_or_init(|| (Default::default(), Instant::now()));
        let action = Action { handler: on_write, mask: [0; 16], flags: 4, restorer: 0 };
        assert_eq!(unsafe { sigaction(11, &action, ptr::null_mut()) }, 0);
        let (l, g) = (c.lookups.len(), c.group_sizes().len());
        let counts = [c.instances.len(), c.copied().len(), 2 * l, g, g, c.parts() as usize].map(|n| n * rows);
        let [a, b, d, e, f, g] = counts;
        Some(Laps { columns: pages(c.column_words()), nodes: pages(nodes), sizes: [a, b, d, e, f, g, nodes] })
    }

    /// Builds with no fence; tells what that took.
    pub fn whole(&mut self, library: Library, lent: &[Vec<u64>]) -> Duration {
        let (start, end) = self.call(library, lent);
        Duration::from_nanos((end - start) as u64)
    }

    /// Builds; when it began and ended.
    fn call(&mut self, library: Library, lent: &[Vec<u64>]) -> (usize, usize) {
        let mut answer = [0u64; 3];
        let mut args: Vec<usize> = lent[..4].iter().flat_map(|s| [s.as_ptr() as usize, s.len()]).collect();
        for buffer in [&mut *self.columns, &mut *self.nodes, &mut answer] {
            args.extend([buffer.as_mut_ptr() as usize, buffer.len()]);
        }
        let start = now();
        let number = library.call("build", &args);
        let end = now();
        assert_eq!(number, 0);
        (start, end)
    }

    /// Builds; tells what each stage took, and the questions before them.
    pub fn stages(&mut self, library: Library, lent: &[Vec<u64>]) -> Vec<(&'static str, Duration)> {
        let sections = &SECTIONS.get().unwrap().0;
        let mut at = self.columns.as_ptr() as usize;
        for (stage, (s, words)) in sections.iter().zip(self.sizes).enumerate() {
            if STAGES[stage] == "compose" {
                at = self.nodes.as_ptr() as usize;
            }
            s.start.store(at, Relaxed);
            at += 8 * words;
            s.end.store(at, Relaxed);
        }
        for buffer in [&*self.columns, &*self.nodes] {
            assert_eq!(unsafe { mprotect(buffer.as_ptr() as _, 8 * buffer.len(), 1) }, 0);
        }
        let (start, end) = self.call(library, lent);
        let mut laps = vec![("questions 1 to 14", start, start)];
        for (i, s) in sections.iter().enumerate().filter(|(i, _)| self.sizes[*i] > 0) {
            let (came, done) = (s.came.load(Relaxed), s.done.load(Relaxed));
            assert!(came >= start, "{} writes nothing", STAGES[i]);
            laps.push((STAGES[i], came, done));
        }
        laps.sort_by_key(|lap| lap.1);
        let ends = laps.iter().map(|lap| lap.1).skip(1).chain([end]).collect::<Vec<_>>();
        laps.iter().zip(ends).map(|(lap, end)| (lap.0, Duration::from_nanos((end - lap.2) as u64))).collect()
    }

    pub fn columns(&self) -> &[u64] {
        self.columns
    }
}
