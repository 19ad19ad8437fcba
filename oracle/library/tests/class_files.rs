//! The largest class files end soon: as many constants as a pool can have, the looked-up ones last, and as many members
//! as a file can have.

use std::time::Duration;

use harness::side::{FileAnswer, Linker};
use library::Library;

/// A file whose pool is full: Integers, and at its end a class, its name, a member's name and two descriptors. So many
/// fields, so many methods.
fn full(fields: u16, methods: u16) -> Vec<u8> {
    let strings: [&[u8]; 4] = [b"A", b"m", b"I", b"()V"];
    let first = u16::MAX - 5;
    let mut bytes = b"\xCA\xFE\xBA\xBE\0\0\0\x30\xFF\xFF".to_vec();
    (1..first).for_each(|_| bytes.extend(b"\x03\0\0\0\0"));
    bytes.push(7);
    bytes.extend((first + 1).to_be_bytes());
    for string in strings {
        bytes.push(1);
        bytes.extend((string.len() as u16).to_be_bytes());
        bytes.extend(string);
    }
    bytes.extend([[0, 0x21], first.to_be_bytes(), [0, 0], [0, 0]].as_flattened());
    for (count, descriptor) in [(fields, first + 3), (methods, first + 4)] {
        bytes.extend(count.to_be_bytes());
        let member = [[0, 1], (first + 2).to_be_bytes(), descriptor.to_be_bytes(), [0, 0]];
        (0..count).for_each(|_| bytes.extend(member.as_flattened()));
    }
    bytes.extend([0, 0]);
    bytes
}

#[repr(C)]
struct Timespec {
    seconds: i64,
    nanoseconds: i64,
}

unsafe extern "C" {
    fn clock_gettime(clock: i32, time: *mut Timespec) -> i32;
}

/// The processor time of this thread, which other programs do not lengthen as they do the time by the clock.
fn spent() -> Duration {
    const CLOCK_THREAD_CPUTIME_ID: i32 = 3;
    let mut time = Timespec { seconds: 0, nanoseconds: 0 };
    // SAFETY: `time` is laid out as the C library's timespec of x86-64 Linux, and is this function's own.
    assert_eq!(unsafe { clock_gettime(CLOCK_THREAD_CPUTIME_ID, &mut time) }, 0);
    Duration::new(time.seconds as u64, time.nanoseconds as u32)
}

/// The answer, and the shortest of three runs.
fn timed(bytes: &[u8], targets: usize, members: usize) -> (FileAnswer, Duration) {
    let targets = vec![4096; targets];
    let (mut fields, mut methods, mut text) = (vec![7; 6 * members], vec![7; 6 * members], vec![7; 2048]);
    let mut library = Library::default();
    let runs = [0; 3].map(|_| {
        let start = spent();
        let answer = library.read_class_file(bytes, &targets, &mut fields, &mut methods, &mut text);
        (answer, spent() - start)
    });
    runs.into_iter().min_by_key(|(_, time)| *time).expect("three runs")
}

#[test]
fn every_member_of_the_largest_file() {
    let bytes = full(u16::MAX, u16::MAX);
    let (answer, time) = timed(&bytes, 65_535, 65_535);
    assert_eq!(answer, FileAnswer::refused(14));
    assert!(time < Duration::from_secs(1), "{time:?}");
    // The last reference of all leads nowhere: nothing stops before it.
    let mut spoiled = bytes.clone();
    let last = spoiled.len() - 6;
    spoiled[last..last + 2].copy_from_slice(&[0, 0]);
    let (answer, time) = timed(&spoiled, 65_535, 65_535);
    assert_eq!(answer, FileAnswer::refused(22));
    assert!(time < Duration::from_secs(1), "{time:?}");
}

#[test]
fn a_full_sheet_from_a_full_pool() {
    let bytes = full(512, 512);
    let (answer, time) = timed(&bytes, 512, 512);
    assert_eq!(answer, FileAnswer::accepted([1, 0, 0x21, 512, 512, 1 + 512 * 2 + 512 * 4]));
    assert!(time < Duration::from_secs(1), "{time:?}");
}
