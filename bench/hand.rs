// The judge of one bay as one writes it by hand: the same definition, with nothing proved.
use crate::Report;

#[derive(Clone, Copy)]
struct Row {
    is_write: bool,
    bay: u32,
    value: u32,
    start: u32,
    finish: u32,
}

const NOTHING: Report = Report { age: 0, trials: 0 };

// The rows of a table, or nothing where a word or the order of ticks is wrong.
fn rows(table: &[u8]) -> Option<Vec<Row>> {
    if table.len() > 6_144 || table.len() % 12 != 0 {
        return None;
    }
    table.chunks_exact(12).map(row).collect()
}

fn row(record: &[u8]) -> Option<Row> {
    let word = |i: usize| u32::from_be_bytes(record[4 * i..4 * i + 4].try_into().unwrap());
    let (head, start, finish) = (word(0), word(1), word(2));
    let is_write = match head >> 30 {
        1 => false,
        2 => true,
        _ => return None,
    };
    let row = Row {
        is_write,
        bay: head >> 24 & 63,
        value: head & 0x3_ffff,
        start,
        finish: finish & 0x3fff_ffff,
    };
    (start >> 30 == 0 && finish >> 30 == 3 && row.start <= row.finish).then_some(row)
}

// A write of the bay: its place, its start, its shortened finish and the latest start of its reads.
#[derive(Clone, Copy)]
struct Write {
    place: usize,
    value: u32,
    start: u32,
    finish: u32,
    last_read: u32,
}

// The writes of the bay, or nothing where there are too many, one value is written twice, or a read has no write or is before it.
fn writes(rows: &[Row], bay: u32) -> Option<Vec<Write>> {
    let mut writes: Vec<Write> = Vec::with_capacity(64);
    for (place, row) in rows
        .iter()
        .enumerate()
        .filter(|(_, row)| row.bay == bay && row.is_write)
    {
        if writes.len() == 64 || writes.iter().any(|write| write.value == row.value) {
            return None;
        }
        writes.push(Write {
            place,
            value: row.value,
            start: row.start,
            finish: row.finish,
            last_read: 0,
        });
    }
    for read in rows.iter().filter(|row| row.bay == bay && !row.is_write) {
        let write = writes.iter_mut().find(|write| write.value == read.value)?;
        if read.finish < write.start {
            return None;
        }
        write.finish = write.finish.min(read.finish);
        write.last_read = write.last_read.max(read.start);
    }
    Some(writes)
}

// The writes that the test holds of, as a mask.
fn mask(writes: &[Write], test: impl Fn(&Write) -> bool) -> u64 {
    let mut mask = 0;
    for (rank, write) in writes.iter().enumerate() {
        if test(write) {
            mask |= 1 << rank;
        }
    }
    mask
}

// For each write the writes with a write edge into it, and those that it has a read edge to.
struct Edges {
    before: Vec<u64>,
    behind: Vec<u64>,
}

impl Edges {
    fn of(writes: &[Write]) -> Edges {
        let before = writes
            .iter()
            .map(|v| mask(writes, |u| u.finish < v.start))
            .collect();
        let behind = writes
            .iter()
            .map(|u| mask(writes, |v| u.place != v.place && u.finish < v.last_read))
            .collect();
        Edges { before, behind }
    }

    // The least k with a value order, and the trials of all k up to it; the order stands on the stack.
    fn search(&self, limit: u32, stack: &mut [u8; 64]) -> Option<Report> {
        let mut trials = 0;
        for age in 1.. {
            if self.search_for(age, limit, &mut trials, stack)? {
                return Some(Report { age, trials });
            }
        }
        None
    }

    // Whether there is a value order for k, or nothing where the trials pass the limit. `absent` are the writes that do not stand
    // on the stack, and `far` those of it that are not among the last k - 1.
    fn search_for(
        &self,
        k: usize,
        limit: u32,
        trials: &mut u32,
        stack: &mut [u8; 64],
    ) -> Option<bool> {
        let count = self.before.len();
        let (before, behind) = (&self.before[..count], &self.behind[..count]);
        let mut absent = u64::MAX >> (64 - count);
        let mut far = 0u64;
        let mut depth = 0;
        let mut next = 0;
        loop {
            let found = (next..count).find(|&write| {
                absent >> write & 1 == 1 && before[write] & absent == 0 && behind[write] & far == 0
            });
            if let Some(write) = found {
                if *trials == limit {
                    return None;
                }
                *trials += 1;
                stack[depth] = write as u8;
                depth += 1;
                absent ^= 1 << write;
                if depth >= k {
                    far ^= 1 << stack[depth - k];
                }
                if depth == count {
                    return Some(true);
                }
                next = 0;
            } else {
                if depth == 0 {
                    return Some(false);
                }
                if depth >= k {
                    far ^= 1 << stack[depth - k];
                }
                depth -= 1;
                let write = usize::from(stack[depth]);
                absent ^= 1 << write;
                next = write + 1;
            }
        }
    }
}

// Judges the bay and notes its value order on the sheet; reports nothing where the table or the bay is refused.
pub fn judge(table: &[u8], bay: u32, limit: u32, sheet: &mut [usize]) -> Report {
    let Some(rows) = rows(table) else {
        return NOTHING;
    };
    let Some(writes) = writes(&rows, bay) else {
        return NOTHING;
    };
    if writes.is_empty() || sheet.len() < 64 {
        return NOTHING;
    }
    let mut stack = [0; 64];
    let Some(found) = Edges::of(&writes).search(limit, &mut stack) else {
        return NOTHING;
    };
    for (entry, rank) in sheet.iter_mut().zip(&stack[..writes.len()]) {
        *entry = writes[usize::from(*rank)].place;
    }
    let is_read = rows.iter().any(|row| row.bay == bay && !row.is_write);
    Report {
        age: if is_read { found.age } else { 0 },
        ..found
    }
}
