//! A plain program that does to tables of the standard library what a mirror's round does to its
//! own. It prints as `rig_mounts rounds` does. See README.md.

use std::collections::{BTreeMap, HashMap};
use std::hint::black_box;

const TRIES: usize = 5;

#[repr(C)]
struct Time {
    seconds: i64,
    nanoseconds: i64,
}

unsafe extern "C" {
    fn clock_gettime(clock: i32, time: *mut Time) -> i32;
}

/// The processor time of this thread, in nanoseconds.
fn processor_time() -> u64 {
    let mut time = Time { seconds: 0, nanoseconds: 0 };
    assert_eq!(unsafe { clock_gettime(3, &mut time) }, 0);
    time.seconds as u64 * 1_000_000_000 + time.nanoseconds as u64
}

/// Takes a list of paths, and then is given a content for each path in turn; gives how many are not answered at the end.
fn round(paths: &[Vec<u8>], contents: Vec<(Vec<u8>, Vec<u8>)>) -> usize {
    let mut awaited: HashMap<Vec<u8>, bool> = HashMap::new();
    for path in paths {
        awaited.insert(path.clone(), false);
    }
    let mut left = awaited.len();
    let mut files = BTreeMap::new();
    for (path, content) in contents {
        if let Some(answered) = awaited.get_mut(&path) {
            files.insert(path, content);
            *answered = true;
            left -= 1;
        }
    }
    black_box(files);
    left
}

fn main() {
    for count in [1_000, 10_000, 100_000] {
        let paths: Vec<Vec<u8>> = (0..count).map(|n| format!("directory/file{n:06}").into_bytes()).collect();
        for (name, place) in [
            ("in order", (|turn, _| turn) as fn(usize, usize) -> usize),
            ("in reverse", |turn, count| count - 1 - turn),
            ("in no order", |turn, count| turn * 61_803 % count),
        ] {
            let least = (0..TRIES)
                .map(|_| {
                    let contents = (0..count).map(|turn| (paths[place(turn, count)].clone(), b"text".to_vec())).collect();
                    let start = processor_time();
                    assert_eq!(round(&paths, contents), 0);
                    processor_time() - start
                })
                .min()
                .unwrap();
            println!("{count} paths {name}: {} ns a path", least / count as u64);
        }
    }
}
