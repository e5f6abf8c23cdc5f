//! The checker of rows: each number is tested over all rows before the next.

use crate::blocks::{Blocks, Partition};
use crate::job::Job;
use crate::machine::Machine;
use crate::place::{length, Row};
use crate::refusal::{Refusal, CHECKER};

pub fn check(job: &Job, machine: &Machine, partition: &Partition, rows: &[Row]) -> Result<u64, Refusal> {
    let blocks = Blocks::new(job, machine, partition);
    let times = blocks.times();
    let refused = |number, place: usize| Err(Refusal::new(CHECKER, number, place as u64));
    if rows.len() != blocks.count() {
        return refused(12, rows.len());
    }
    let place = |row: &Row| blocks.numbers.iter().position(|&b| b as u64 == row.block);
    let mut row_of = vec![None; blocks.count()];
    for (k, row) in rows.iter().enumerate() {
        match place(row) {
            Some(i) if row_of[i].is_none() => row_of[i] = Some(row),
            _ => return refused(13, k + 1),
        }
    }
    if let Some(k) = rows.iter().position(|r| r.processor >= machine.processors()) {
        return refused(14, k + 1);
    }
    let lasts = |r: &Row| u128::from(r.start) + u128::from(times[place(r).unwrap()]) == u128::from(r.finish);
    if let Some(k) = rows.iter().position(|r| !lasts(r)) {
        return refused(15, k + 1);
    }
    let overlap = |a: &Row, b: &Row| a.processor == b.processor && a.start < b.finish && b.start < a.finish;
    for k in 0..rows.len() {
        if rows[..k].iter().any(|above| overlap(above, &rows[k])) {
            return refused(16, k + 1);
        }
    }
    for (k, row) in rows.iter().enumerate() {
        let to = place(row).unwrap();
        for m in blocks.all_messages().iter().filter(|m| m.to == to) {
            let sender = row_of[m.from].unwrap();
            let delay = machine.delay(sender.processor, row.processor, m.size);
            if u128::from(sender.finish) + u128::from(delay) > u128::from(row.start) {
                return refused(17, k + 1);
            }
        }
    }
    Ok(length(rows))
}

#[cfg(test)]
mod tests {
    use super::*;
    use crate::blocks::singles;
    use crate::job::shipped;
    use crate::machine::Kind;

    fn checked(rows: &[[u64; 4]]) -> Result<u64, (u64, u64)> {
        let machine = Machine::new(Kind::Bus, 2, [1, 1, 0, 0, 0, 0, 0]).unwrap();
        let row = |r: &[u64; 4]| Row { block: r[0], processor: r[1], start: r[2], finish: r[3] };
        let rows: Vec<Row> = rows.iter().map(row).collect();
        check(&shipped(), &machine, &singles(&shipped()), &rows).map_err(|r| (r.number(), r.place()))
    }

    #[test]
    fn worked_rows() {
        assert_eq!(checked(&[[1, 0, 0, 4], [3, 0, 4, 9], [2, 1, 6, 9], [4, 0, 11, 13]]), Ok(13));
        assert_eq!(checked(&[[4, 0, 11, 13], [2, 1, 6, 9], [3, 0, 4, 9], [1, 0, 0, 4]]), Ok(13));
        assert_eq!(checked(&[[1, 0, 0, 4], [3, 0, 4, 9], [2, 1, 5, 8], [4, 0, 11, 13]]), Err((17, 3)));
    }

    #[test]
    fn refusals() {
        assert_eq!(checked(&[[1, 0, 0, 4]]), Err((12, 1)));
        assert_eq!(checked(&[[1, 0, 0, 4], [5, 0, 4, 9], [1, 1, 6, 9], [4, 0, 11, 13]]), Err((13, 2)));
        assert_eq!(checked(&[[1, 0, 0, 4], [3, 0, 4, 9], [1, 1, 6, 9], [4, 0, 11, 13]]), Err((13, 3)));
        assert_eq!(checked(&[[1, 0, 0, 5], [3, 0, 4, 9], [2, 2, 6, 9], [4, 0, 11, 13]]), Err((14, 3)));
        assert_eq!(checked(&[[1, 0, 0, 4], [3, 0, 0, 5], [2, 1, 6, 9], [4, 0, 11, 14]]), Err((15, 4)));
        assert_eq!(checked(&[[1, 0, 0, 4], [3, 0, 3, 8], [2, 1, 0, 3], [4, 0, 11, 13]]), Err((16, 2)));
        let far = u64::MAX;
        assert_eq!(checked(&[[1, 0, far - 1, 2], [3, 0, 4, 9], [2, 1, 6, 9], [4, 0, 11, 13]]), Err((15, 1)));
        assert_eq!(checked(&[[1, 0, far - 4, far], [3, 1, 4, 9], [2, 1, 10, 13], [4, 0, 11, 13]]), Err((17, 2)));
    }
}
