//! Calls every door of the table, both forms, on zeros; both must leave the same in every buffer.
mod doors {
    include!(env!("DOORS"));
}

use doors::{Argument, Door, Element, Many, Way, DOORS};

/// The status of a call, and what is then in each parameter's buffer.
fn ask(door: &Door, call: unsafe fn(&[Argument]) -> u32) -> (u32, Vec<Vec<u64>>) {
    let mut rooms = vec![vec![0u64; 1024]; door.parameters.len()];
    let mut list = Vec::new();
    for (i, p) in door.parameters.iter().enumerate() {
        let lent = p.way != Way::Value || matches!(p.element, Element::Struct(_));
        let enough = match door.parameters[..i].last().map(|q| q.many) {
            Some(Many::Slice(n)) if p.many == Many::Length => n,
            _ => 0,
        };
        list.push(if lent { Argument { place: rooms[i].as_mut_ptr() as *mut u8 } } else { Argument { size: enough } });
    }
    let status = unsafe { call(&list) };
    (status, rooms)
}

fn main() {
    for door in &DOORS {
        let mut shape = String::new();
        for p in door.parameters {
            shape += &format!(" {} {:?} {:?} {:?} {:?};", p.name, p.way, p.element, p.many, p.role);
        }
        let ((safe, left), (bare, other)) = (ask(door, door.safe), ask(door, door.bare));
        assert!(left == other, "{}: its forms differ", door.name);
        println!("{}:{shape} {:?}: {safe} {bare}", door.name, door.refusals);
    }
    println!("{} {}", doors::G7231_VERSION, doors::G7231_ROWS);
}
