//! Logs as the service writes them, and with all that stands behind their header
//! moved to other offsets.

use super::{alone, Input};
use log_writer::evt::*;
use log_writer::Random;

/// A log with few bytes behind its header.
pub fn small(random: &mut Random) -> Service {
    let behind = random.pick(&[40, 64, 120, 200, 300, 500, 900]);
    random_log(random, behind)
}

/// A small log that has a record.
pub fn with_records(random: &mut Random) -> Service {
    let mut log = random_log(random, 700);
    log.write(random_event(random, 5));
    log
}

/// Closed or as a power cut leaves it.
pub fn file_of(random: &mut Random, log: &Service) -> Vec<u8> {
    if random.once_in(2) {
        log.closed()
    } else {
        log.dirty()
    }
}

/// The offset of a record of the log, and its length.
pub fn any_record(random: &mut Random, log: &Service) -> (usize, usize) {
    let records: Vec<_> =
        log.kept().map(|kept| (kept.offset, kept.event.record(0).len())).collect();
    random.pick(&records)
}

pub fn written(random: &mut Random, round: usize) -> Input {
    let log = small(random);
    alone(if round % 2 == 0 { log.closed() } else { log.dirty() })
}

pub fn moved_by_chance(random: &mut Random, _: usize) -> Input {
    let log = small(random);
    let file = file_of(random, &log);
    alone(moved(&file, random.below(file.len())))
}

pub fn trailer_at_the_end(random: &mut Random, round: usize) -> Input {
    let log = small(random);
    let file = log.dirty();
    let marks = after(file.len(), log.end(), 4);
    alone(moved_to_the_end(&file, marks, round % 40))
}

pub fn record_at_the_end(random: &mut Random, round: usize) -> Input {
    let log = with_records(random);
    let file = file_of(random, &log);
    let (offset, _) = any_record(random, &log);
    alone(moved_to_the_end(&file, offset, round))
}

pub fn long(random: &mut Random, _: usize) -> Input {
    let log = random_log(random, 65_536 - HEADER);
    alone(file_of(random, &log))
}
