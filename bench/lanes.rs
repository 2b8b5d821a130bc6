// Measures eden_lanes beside plain loops, its former kernel and memcmp. How to run it: README.md.
use std::arch::x86_64::*;
use std::hint::black_box;

extern "C" {
    fn eden_lanes_differ_rows(a: *const u8, a_len: usize, b: *const u8, b_len: usize, rounds: usize) -> usize;
    fn eden_lanes_count_differing(a: *const u8, a_len: usize, b: *const u8, b_len: usize, rounds: usize) -> usize;
    fn eden_lanes_find_row(
        a: *const u8, a_len: usize, b: *const u8, b_len: usize, id: *const u8, id_len: usize, rounds: usize,
    ) -> usize;
    fn clock_gettime(clock: i32, time: *mut [i64; 2]) -> i32;
}

type Id = [u8; 20];

/// Five columns of words, as eden_lanes has them.
struct Words([Vec<u32>; 5]);

impl Words {
    fn new(ids: &[Id]) -> Words {
        let word = |id: &Id, at: usize| u32::from_be_bytes([id[at], id[at + 1], id[at + 2], id[at + 3]]);
        Words([0, 4, 8, 12, 16].map(|at| ids.iter().map(|id| word(id, at)).collect()))
    }

    /// The columns, cut to one length, so that the loops below need no test of their bounds.
    fn columns(&self, rows: usize) -> [&[u32]; 5] {
        [&self.0[0][..rows], &self.0[1][..rows], &self.0[2][..rows], &self.0[3][..rows], &self.0[4][..rows]]
    }

    fn len(&self) -> usize {
        self.0[0].len()
    }
}

/// What is measured beside eden_lanes, over the same ids.
struct Side<'a> {
    ids: &'a [Id],
    words: Words,
}

mod bytes {
    use super::*;

    pub fn rows(a: &[Id], b: &[Id]) -> Vec<usize> {
        let mut rows = Vec::new();
        for row in 0..a.len().min(b.len()) {
            if a[row] != b[row] {
                rows.push(row);
            }
        }
        rows
    }

    pub fn count(a: &[Id], b: &[Id]) -> usize {
        a.iter().zip(b).filter(|(x, y)| x != y).count()
    }

    pub fn find(a: &[Id], id: &Id) -> Option<usize> {
        a.iter().position(|x| x == id)
    }
}

/// Plain loops over columns of words, which stop at the first word of a row that differs, or look at all five.
mod words {
    use super::*;

    fn stops(a: &[&[u32]; 5], b: &[&[u32]; 5], row: usize) -> bool {
        a[0][row] != b[0][row] || a[1][row] != b[1][row] || a[2][row] != b[2][row] || a[3][row] != b[3][row] || a[4][row] != b[4][row]
    }

    fn looks_at_all(a: &[&[u32]; 5], b: &[&[u32]; 5], row: usize) -> bool {
        (a[0][row] ^ b[0][row] | a[1][row] ^ b[1][row] | a[2][row] ^ b[2][row] | a[3][row] ^ b[3][row] | a[4][row] ^ b[4][row]) != 0
    }

    fn rows_by(a: &Words, b: &Words, differs: impl Fn(&[&[u32]; 5], &[&[u32]; 5], usize) -> bool) -> Vec<usize> {
        let rows = a.len();
        let (a, b) = (a.columns(rows), b.columns(rows));
        let mut found = Vec::new();
        for row in 0..rows {
            if differs(&a, &b, row) {
                found.push(row);
            }
        }
        found
    }

    pub fn rows(a: &Words, b: &Words) -> Vec<usize> {
        rows_by(a, b, stops)
    }

    pub fn rows_of_all(a: &Words, b: &Words) -> Vec<usize> {
        rows_by(a, b, looks_at_all)
    }

    pub fn count(a: &Words, b: &Words) -> usize {
        let rows = a.len();
        let (a, b) = (a.columns(rows), b.columns(rows));
        (0..rows).filter(|&row| stops(&a, &b, row)).count()
    }

    pub fn count_all(a: &Words, b: &Words) -> usize {
        let rows = a.len();
        let (a, b) = (a.columns(rows), b.columns(rows));
        (0..rows).filter(|&row| looks_at_all(&a, &b, row)).count()
    }

    pub fn find(a: &Words, id: &Id) -> Option<usize> {
        let wanted = Words::new(&[*id]);
        let rows = a.len();
        let (a, id) = (a.columns(rows), wanted.columns(1));
        (0..rows).position(|row| (0..5).all(|place| a[place][row] == id[place][0]))
    }

    pub fn find_by_all(a: &Words, id: &Id) -> Option<usize> {
        let wanted = Words::new(&[*id]);
        let rows = a.len();
        let (a, id) = (a.columns(rows), wanted.columns(1));
        (0..rows).position(|row| (0..5).map(|place| a[place][row] ^ id[place][0]).fold(0, |all, part| all | part) == 0)
    }
}

/// The former kernel of eden_lanes: ids in one run of bytes, four of which are five vectors of sixteen bytes.
mod former {
    use super::*;

    fn same_four(a: &[Id], b: &[Id], row: usize) -> bool {
        let (a, b) = (a[row..row + 4].as_flattened(), b[row..row + 4].as_flattened());
        let mut same = unsafe { _mm_set1_epi8(-1) };
        for at in [0, 16, 32, 48, 64] {
            unsafe {
                let (x, y) = (_mm_loadu_si128(a[at..].as_ptr().cast()), _mm_loadu_si128(b[at..].as_ptr().cast()));
                same = _mm_and_si128(same, _mm_cmpeq_epi8(x, y));
            }
        }
        unsafe { _mm_movemask_epi8(same) == 0xffff }
    }

    pub fn rows(a: &[Id], b: &[Id]) -> Vec<usize> {
        let (fours, mut rows) = (a.len() / 4, Vec::new());
        for four in 0..fours {
            if !same_four(a, b, 4 * four) {
                rows.extend((4 * four..4 * four + 4).filter(|&row| a[row] != b[row]));
            }
        }
        rows.extend((4 * fours..a.len()).filter(|&row| a[row] != b[row]));
        rows
    }

    pub fn count(a: &[Id], b: &[Id]) -> usize {
        let (fours, mut count) = (a.len() / 4, 0);
        for four in 0..fours {
            if !same_four(a, b, 4 * four) {
                count += (4 * four..4 * four + 4).filter(|&row| a[row] != b[row]).count();
            }
        }
        count + (4 * fours..a.len()).filter(|&row| a[row] != b[row]).count()
    }

    /// A part of each of four ids is in the second or the fourth vector of the five: the others are seldom looked at.
    pub fn find(a: &[Id], id: &Id) -> Option<usize> {
        let four_times = [*id; 4];
        let pattern = four_times.as_flattened();
        let apart = |bytes: &[u8], at: usize| unsafe {
            let (x, y) = (_mm_loadu_si128(bytes[at..].as_ptr().cast()), _mm_loadu_si128(pattern[at..].as_ptr().cast()));
            !_mm_movemask_epi8(_mm_cmpeq_epi8(x, y)) & 0xffff
        };
        let fours = a.len() / 4;
        for four in 0..fours {
            let rows = &a[4 * four..4 * four + 4];
            let (second, fourth) = (apart(rows.as_flattened(), 16), apart(rows.as_flattened(), 48));
            if second % 16 == 0 || second / 16 == 0 || fourth % 4096 == 0 || fourth / 4096 == 0 {
                if let Some(row) = rows.iter().position(|x| x == id) {
                    return Some(4 * four + row);
                }
            }
        }
        (4 * fours..a.len()).find(|&row| a[row] == *id)
    }
}

/// The processor time of this thread, in seconds.
fn now() -> f64 {
    let mut time = [0; 2];
    assert_eq!(unsafe { clock_gettime(3, &mut time) }, 0);
    time[0] as f64 + time[1] as f64 / 1e9
}

/// The seconds of a round of each call, which takes the number of its rounds and may prepare its columns first: the least of five
/// tries with rounds, less the least with none. The calls take turns, so that what else runs on the machine meets them alike.
fn seconds(rounds: usize, calls: &mut [&mut dyn FnMut(usize) -> usize]) -> Vec<f64> {
    let mut least = vec![[f64::MAX; 2]; calls.len()];
    for _ in 0..5 {
        for (call, least) in calls.iter_mut().zip(&mut least) {
            for (rounds, least) in [0, rounds].into_iter().zip(least) {
                let begun = now();
                black_box(call(rounds));
                *least = least.min(now() - begun);
            }
        }
    }
    least.iter().map(|[empty, full]| (full - empty) / rounds as f64).collect()
}

/// So many rounds of a call.
fn repeated(rounds: usize, mut round: impl FnMut() -> usize) -> usize {
    (0..rounds).map(|_| black_box(round())).last().unwrap_or(0)
}

fn ids_of(seed: u64, count: usize) -> Vec<Id> {
    let mut state = seed;
    let mut next = || {
        state ^= state << 13;
        state ^= state >> 7;
        state ^= state << 17;
        state
    };
    (0..count)
        .map(|_| {
            let mut id = [0; 20];
            for part in id.chunks_mut(8) {
                part.copy_from_slice(&next().to_le_bytes()[..part.len()]);
            }
            id
        })
        .collect()
}

/// A line of the table: bytes a second of each call, and how many times as fast as the others the first one is.
fn print(name: &str, bytes: usize, seconds: &[f64]) {
    let rates: Vec<String> = seconds.iter().map(|time| format!("{:.1}", bytes as f64 / time / 1e9)).collect();
    let ratios: Vec<String> = seconds[1..].iter().map(|time| format!("{:.2}", time / seconds[0])).collect();
    println!("| {name} | {} | {} |", rates.join(" | "), ratios.join(", "));
}

fn measure_rows(name: &str, rounds: usize, a: &Side, b: &Side) {
    let (x, y) = (a.ids.as_flattened(), b.ids.as_flattened());
    let equal = a.ids.to_vec();
    let mut lanes = |rounds| unsafe { eden_lanes_differ_rows(x.as_ptr(), x.len(), y.as_ptr(), y.len(), rounds) };
    assert_eq!(lanes(1), bytes::rows(a.ids, b.ids).len());
    let mut stops = |rounds| repeated(rounds, || black_box(words::rows(black_box(&a.words), black_box(&b.words))).len());
    let mut all = |rounds| repeated(rounds, || black_box(words::rows_of_all(black_box(&a.words), black_box(&b.words))).len());
    let mut plain = |rounds| repeated(rounds, || black_box(bytes::rows(black_box(a.ids), black_box(b.ids))).len());
    let mut former = |rounds| repeated(rounds, || black_box(former::rows(black_box(a.ids), black_box(b.ids))).len());
    let mut memcmp = |rounds| repeated(rounds, || (black_box(x) == black_box(equal.as_flattened())) as usize);
    let times = seconds(rounds, &mut [&mut lanes, &mut stops, &mut all, &mut plain, &mut former, &mut memcmp]);
    print(&format!("`differ_rows`, {name}"), 2 * x.len(), &times);
}

fn measure_count(name: &str, rounds: usize, a: &Side, b: &Side) {
    let (x, y) = (a.ids.as_flattened(), b.ids.as_flattened());
    let equal = a.ids.to_vec();
    let mut lanes = |rounds| unsafe { eden_lanes_count_differing(x.as_ptr(), x.len(), y.as_ptr(), y.len(), rounds) };
    assert_eq!(lanes(1), bytes::count(a.ids, b.ids));
    let mut stops = |rounds| repeated(rounds, || words::count(black_box(&a.words), black_box(&b.words)));
    let mut all = |rounds| repeated(rounds, || words::count_all(black_box(&a.words), black_box(&b.words)));
    let mut plain = |rounds| repeated(rounds, || bytes::count(black_box(a.ids), black_box(b.ids)));
    let mut former = |rounds| repeated(rounds, || former::count(black_box(a.ids), black_box(b.ids)));
    let mut memcmp = |rounds| repeated(rounds, || (black_box(x) == black_box(equal.as_flattened())) as usize);
    let times = seconds(rounds, &mut [&mut lanes, &mut stops, &mut all, &mut plain, &mut former, &mut memcmp]);
    print(&format!("`count_differing`, {name}"), 2 * x.len(), &times);
}

fn measure_find(rounds: usize, a: &Side, b: &Side) {
    let (x, y) = (a.ids.as_flattened(), b.ids.as_flattened());
    let id = [7; 20];
    let mut lanes = |rounds| unsafe {
        eden_lanes_find_row(x.as_ptr(), x.len(), y.as_ptr(), y.len(), id.as_ptr(), id.len(), rounds)
    };
    assert_eq!(lanes(1), usize::MAX);
    let mut stops = |rounds| repeated(rounds, || words::find(black_box(&a.words), black_box(&id)).unwrap_or(0));
    let mut all = |rounds| repeated(rounds, || words::find_by_all(black_box(&a.words), black_box(&id)).unwrap_or(0));
    let mut plain = |rounds| repeated(rounds, || bytes::find(black_box(a.ids), black_box(&id)).unwrap_or(0));
    let mut former = |rounds| repeated(rounds, || former::find(black_box(a.ids), black_box(&id)).unwrap_or(0));
    let equal = a.ids.to_vec();
    let mut memcmp = |rounds| repeated(rounds, || (black_box(x) == black_box(equal.as_flattened())) as usize);
    let mut times = seconds(rounds, &mut [&mut lanes, &mut stops, &mut all, &mut plain, &mut former, &mut memcmp]);
    // It reads two columns, and the search one.
    times[5] /= 2.0;
    print("`find_row`, no row holds the id", x.len(), &times);
}

fn measure(count: usize, rounds: usize) {
    let ids = ids_of(1, count);
    let first = Side { ids: &ids, words: Words::new(&ids) };
    println!("\n{count} ids, {} bytes a column\n", 20 * count);
    println!("| call | `eden_lanes` | words, to the first that differs | words, all five | ids | former | `memcmp` | `eden_lanes` is as fast as each, times |");
    for (name, every) in [("equal columns", usize::MAX), ("one row of 1,000 differs", 1000), ("one row of 10 differs", 10), ("all rows differ", 1)] {
        let mut others = ids.clone();
        if every != usize::MAX {
            others.iter_mut().step_by(every).for_each(|id| id[19] ^= 1);
        }
        let second = Side { ids: &others, words: Words::new(&others) };
        measure_rows(name, rounds, &first, &second);
        measure_count(name, rounds, &first, &second);
    }
    measure_find(rounds, &first, &first);
}

fn main() {
    measure(4_000_000, 24);
    measure(2_000, 4_000);
}
