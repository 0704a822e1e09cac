//! The table of objects at many fills: the library's audit against the separate reader's.

use compare::agree::Pair;
use compare::generate::block_orders::{falling, random, rising, Order};
use compare::generate::many_objects::{many, STRIDES};
use compare::reader::MOST_OBJECTS;

/// As many objects as there may be pass, one more gives 12: so many besides the root.
const MOST: usize = MOST_OBJECTS - 1;

const ORDERS: [(&str, Order); 3] = [("rising", rising), ("falling", falling), ("random", random)];

/// Every fill up to 300, some above, and all near the limit.
fn fills() -> impl Iterator<Item = usize> {
    let some = (300..MOST - 20).step_by(37);
    (0..300).chain(some).chain(MOST - 20..=MOST + 2)
}

#[test]
fn the_library_agrees_at_many_fills() {
    let mut pair = Pair::default();
    let mut turn = 0;
    for wanted in fills() {
        for (order_name, order) in ORDERS {
            let stride = STRIDES[turn % STRIDES.len()];
            turn += 1;
            let (sheet, objects) = many(wanted, order, stride);
            let name = format!("{objects} objects, {order_name}, {stride} bytes apart");
            let reply = pair.audit(&name, &sheet.bytes);
            if objects <= MOST {
                assert_eq!(
                    (reply.number, reply.objects.len()),
                    (0, objects + 1),
                    "{name}"
                );
            } else {
                assert_eq!(reply.number, 12, "{name}");
            }
        }
    }
}

/// Every distance at the limit and one above it.
#[test]
fn the_library_agrees_at_the_limit() {
    let mut pair = Pair::default();
    for stride in STRIDES {
        for (order_name, order) in ORDERS {
            for wanted in [MOST, MOST + 1] {
                let (sheet, objects) = many(wanted, order, stride);
                let name = format!("{objects} objects, {order_name}, {stride} bytes apart");
                let number = pair.audit(&name, &sheet.bytes).number;
                assert_eq!(number, if objects <= MOST { 0 } else { 12 }, "{name}");
            }
        }
    }
}
