// Times the proved judge of one bay beside one written by hand, on the same tables of serials.
mod hand;

use std::time::Duration;
use std::time::Instant;

const BAY: u32 = 3;
const LIMIT: u32 = 1_000_000;

#[repr(C)]
#[derive(Clone, Copy, Debug, PartialEq)]
pub struct Report {
    pub age: usize,
    pub trials: u32,
}

unsafe extern "C" {
    fn judge_table(
        table: *const u8,
        length: usize,
        bay: u32,
        limit: u32,
        sheet: *mut usize,
        entries: usize,
    ) -> Report;
}

// A judge of one bay of a table, which notes the value order on the sheet.
type Judge = fn(&[u8], u32, u32, &mut [usize]) -> Report;

fn proved(table: &[u8], bay: u32, limit: u32, sheet: &mut [usize]) -> Report {
    // The slices are alive and whole for the length of the call, which keeps neither.
    unsafe {
        judge_table(
            table.as_ptr(),
            table.len(),
            bay,
            limit,
            sheet.as_mut_ptr(),
            sheet.len(),
        )
    }
}

fn record(kind: u32, value: u32, start: u32, finish: u32) -> [u32; 3] {
    [kind << 30 | BAY << 24 | value, start, 3 << 30 | finish]
}

fn bytes(records: impl Iterator<Item = [u32; 3]>) -> Vec<u8> {
    records.flatten().flat_map(u32::to_be_bytes).collect()
}

// Concurrent writes, each with a later read: every order of them is tried for every k.
fn concurrent(count: u32) -> Vec<u8> {
    let writes = (0..count).map(|value| record(2, value, 1, 2));
    let reads = (0..count).map(|value| record(1, value, 3, 4));
    bytes(writes.chain(reads))
}

// Writes one after the other, of which there is one order.
fn successive(count: u32) -> Vec<u8> {
    bytes((0..count).map(|value| record(2, value, 2 * value + 1, 2 * value + 2)))
}

// How long so many calls take.
fn time(judge: Judge, table: &[u8], calls: u32, sheet: &mut [usize]) -> (Report, Duration) {
    let start = Instant::now();
    let mut report = judge(table, BAY, LIMIT, sheet);
    for _ in 1..calls {
        report = judge(std::hint::black_box(table), BAY, LIMIT, sheet);
    }
    (report, start.elapsed() / calls)
}

// Takes turns, since the machine may be busy with something else for a while, and keeps the shortest time of each.
fn compare(name: &str, table: &[u8], calls: u32) {
    let (mut proved_least, mut hand_least) = (Duration::MAX, Duration::MAX);
    for _ in 0..30 {
        let (mut proved_sheet, mut hand_sheet) = ([0; 64], [0; 64]);
        let (proved_report, proved_time) = time(proved, table, calls, &mut proved_sheet);
        let (hand_report, hand_time) = time(hand::judge, table, calls, &mut hand_sheet);
        assert_eq!(proved_report, hand_report, "{name}");
        assert_eq!(proved_sheet, hand_sheet, "{name}");
        proved_least = proved_least.min(proved_time);
        hand_least = hand_least.min(hand_time);
    }
    let Report { age, trials } = proved(table, BAY, LIMIT, &mut [0; 64]);
    let ratio = proved_least.as_secs_f64() / hand_least.as_secs_f64();
    println!("{name}: age {age}, trials {trials}");
    println!("  proved {proved_least:?}, by hand {hand_least:?}, ratio {ratio:.2}");
}

fn main() {
    compare("9 concurrent writes, each read later", &concurrent(9), 3);
    compare("64 writes one after the other", &successive(64), 2_000);
}
