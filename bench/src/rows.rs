//! The lines of the table, topic by topic.

use crate::job::Row;
use crate::{
    rows_classic, rows_control, rows_firmware, rows_low_energy, rows_outbox, rows_replies,
};

pub fn rows() -> Vec<Row> {
    let topics = [
        rows_classic::rows(),
        rows_low_energy::rows(),
        rows_control::rows(),
        rows_replies::rows(),
        rows_firmware::rows(),
        rows_outbox::rows(),
    ];
    topics.into_iter().flatten().collect()
}
