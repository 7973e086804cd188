//! What reading alone costs on a machine, as a measure for what omega costs there.
//!
//!     reading FOLDER
//!
//! Reads the tables of a folder whole, cuts them at line feeds and commas, makes numbers of the fields
//! that are numbers in a row of tasks, and sorts the rows by time. Prints how many rows there were.

use std::{env, fs, path::Path};

/// Time, job, index, CPU and memory of a row.
type Row = (u64, u64, u64, u64, u64);

/// The digits of a field as a whole number; what isn't a digit is passed over.
fn whole(field: &[u8]) -> u64 {
    field
        .iter()
        .filter(|byte| byte.is_ascii_digit())
        .fold(0, |value, byte| value.wrapping_mul(10).wrapping_add(u64::from(byte - b'0')))
}

/// A number with a point as units of 10^-9.
fn units(field: &[u8]) -> u64 {
    let point = field.iter().position(|byte| *byte == b'.');
    let behind = point.map_or(0, |at| field.len() - at - 1);
    let missing = 9_u32.saturating_sub(u32::try_from(behind).unwrap_or(9));
    whole(field).wrapping_mul(10_u64.pow(missing))
}

fn row_of(line: &[u8]) -> Row {
    let mut fields = [&line[..0]; 13];
    for (place, field) in fields.iter_mut().zip(line.split(|byte| *byte == b',')) {
        *place = field;
    }
    (whole(fields[0]), whole(fields[2]), whole(fields[3]), units(fields[9]), units(fields[10]))
}

fn main() {
    let folder = env::args().nth(1).expect("a folder");
    let mut rows: Vec<Row> = Vec::new();
    for table in ["machine_events", "machine_attributes", "task_events", "task_constraints", "mapreduce_jobs", "machine_disk"] {
        let path = Path::new(&folder).join(table).with_extension("csv");
        let bytes = fs::read(path).unwrap_or_default();
        rows.extend(bytes.split(|byte| *byte == b'\n').filter(|line| !line.is_empty()).map(row_of));
    }
    rows.sort_by_key(|row| row.0);
    println!("{}", std::hint::black_box(&rows).len());
}
