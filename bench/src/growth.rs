//! How the time to link all classes grows with one number while the others stay.

use crate::sets::{self, ClassSet, Size};
use crate::sides::{self, Job, Original, Ours};
use crate::times::{self, Repetitions};

/// What stays while another number grows: built classes in chains of 8.
const FIXED: Size = Size {
    classes: 32,
    chain: 8,
    interfaces: 0,
    arrays: 0,
    methods: 256,
    fields: 256,
    abi_slots: 256,
    table_size: 0,
    is_mixed: false,
    package: "app/",
};

/// One measurement: the name of the number that grows, and its value.
pub struct Point {
    pub series: &'static str,
    pub value: u32,
    size: Size,
}

impl Point {
    pub fn set(&self) -> ClassSet {
        sets::made(&format!("{} {}", self.series, self.value), self.size)
    }
}

/// Series by series.
pub fn points() -> Vec<Point> {
    let eighths = |most: u32| (1..=8).map(move |part| part * most / 8);
    let methods = eighths(512).map(|methods| Point { series: "methods", value: methods, size: Size { methods, ..FIXED } });
    let abi_slots = eighths(512).map(|abi_slots| Point { series: "ABI slots", value: abi_slots, size: Size { abi_slots, ..FIXED } });
    let classes = eighths(64).map(|classes| Point { series: "classes", value: classes, size: Size { classes, ..FIXED } });
    let tables = eighths(1000).map(|table_size| Point { series: "table slots", value: table_size, size: Size { table_size, ..FIXED } });
    methods.chain(abi_slots).chain(classes).chain(tables).collect()
}

/// Prints each point with the middle nanoseconds of both sides.
pub fn print(repetitions: Repetitions) -> Result<(), String> {
    println!("series,value,classes,methods,ABI slots,largest table,ours,original");
    for point in points() {
        let set = point.set();
        let slots = sides::check(&set)?;
        let pairs = times::pairs(&mut Ours::new(&set), &mut Original::new(&set), Job::Link, repetitions);
        let [_, ours, _] = times::spread(pairs.iter().map(|pair| 1e9 * pair.0));
        let [_, original, _] = times::spread(pairs.iter().map(|pair| 1e9 * pair.1));
        let Size { classes, methods, abi_slots, .. } = point.size;
        println!("{},{},{classes},{methods},{abi_slots},{slots},{ours:.0},{original:.0}", point.series, point.value);
    }
    Ok(())
}
