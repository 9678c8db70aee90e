//! Where a call's stack begins, and how deep it gets.

use std::hint::black_box;
use std::ptr::with_exposed_provenance_mut;
use std::thread;

/// The thread's stack; a call may write down to `PAINTED` below its caller.
const WHOLE: usize = 16 << 20;
const PAINTED: usize = 8 << 20;
/// Next to the painter's own frame nothing is painted: it may stand there.
const MARGIN: usize = 512;
const COLOUR: u64 = 0xa5c3_96d2_e1b4_7887;

/// Makes the call from a frame that is moved by so many quarters of a cache line. Where copies on the stack begin within a line can
/// change a time by half, and differs from one start of a program to the next.
pub fn moved<T>(quarters: usize, call: impl FnOnce() -> T) -> T {
    match quarters % 4 {
        0 => padded::<16, T>(call),
        1 => padded::<32, T>(call),
        2 => padded::<48, T>(call),
        _ => padded::<64, T>(call),
    }
}

#[inline(never)]
fn padded<const BYTES: usize, T>(call: impl FnOnce() -> T) -> T {
    let pad = [0u8; BYTES];
    black_box(&pad);
    let answer = called(call);
    black_box(&pad);
    answer
}

/// In a frame of its own.
#[inline(never)]
fn called<T>(call: impl FnOnce() -> T) -> T {
    call()
}

/// Bytes from the caller's frame to the deepest that the call writes, on a thread of its own; at least the margin. The stack is
/// painted first, and where the paint is gone is looked up after.
pub fn depth(call: impl FnOnce() + Send) -> usize {
    thread::scope(|scope| {
        let painter = thread::Builder::new().stack_size(WHOLE);
        let painted = painter.spawn_scoped(scope, || painted(call));
        painted.expect("a thread").join().expect("no panic")
    })
}

#[inline(never)]
fn painted(call: impl FnOnce()) -> usize {
    let mark = 0u64;
    let top = (&raw const mark).expose_provenance() & !7;
    let mut words = (top - PAINTED..top - MARGIN).step_by(8);
    for word in words.clone() {
        // SAFETY: below this frame, in the thread's own stack, nothing lives while no call is under way.
        unsafe { with_exposed_provenance_mut::<u64>(word).write_volatile(COLOUR) };
    }
    called(call);
    // SAFETY: as above; every word there has been written.
    let bare = |word| unsafe { with_exposed_provenance_mut::<u64>(word).read_volatile() == COLOUR };
    let deepest = words.find(|&word| !bare(word));
    top - deepest.unwrap_or(top - MARGIN)
}

#[cfg(test)]
mod tests {
    use super::*;

    #[test]
    fn four_places_within_a_line() {
        let mut places = [0, 1, 2, 3].map(|quarters| {
            moved(quarters, || {
                let here = 0u64;
                (&raw const here).addr() % 64 / 16
            })
        });
        places.sort();
        assert_eq!(places, [0, 1, 2, 3]);
    }

    #[test]
    fn a_large_frame_is_seen() {
        let depth = depth(|| {
            black_box(&mut [0u8; 100_000]);
        });
        assert!((100_000..110_000).contains(&depth), "{depth}");
    }
}
