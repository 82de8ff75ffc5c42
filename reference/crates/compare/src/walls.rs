//! From an image's number to its walls (document 02, note 2): the port's divisions against a walk over all sequences in document 01's order.

/// Images, at most.
const MOST: usize = 250_000;

/// Order and planes, at most.
const ORDERS: u32 = 8;
const PLANES: u32 = 256;

/// What is refused is refused with this.
const REFUSAL: Result<Vec<u8>, u32> = Err(13);

/// The sequences that go on from `s`, each before its extensions, until there are `MOST`.
fn walk(on: &[u8], order: u32, s: &mut Vec<u8>, all: &mut Vec<Vec<u8>>) {
    if s.len() == order as usize {
        return;
    }
    for p in 0..on.len() {
        if all.len() == MOST {
            return;
        }
        let may = match s.last() {
            None => on[p] == 0,
            Some(&last) => last as usize != p,
        };
        if may {
            s.push(p as u8);
            all.push(s.clone());
            walk(on, order, s, all);
            s.pop();
        }
    }
}

/// Each number of a room, the ones beside them, and numbers far beyond. How many have walls.
fn room(on: &[u8], order: u32) -> usize {
    let planes = on.len() as u32;
    let mut all = Vec::new();
    walk(on, order, &mut Vec::new(), &mut all);
    let what = |n: u32| format!("{planes} planes {on:?}, order {order}, number {n}");
    for (k, s) in all.iter().enumerate() {
        let n = k as u32 + 1;
        assert_eq!(port::walls(planes, order, on, n).as_ref(), Ok(s), "{}", what(n));
    }
    for n in [0, all.len() as u32 + 1, MOST as u32 + 1, u32::MAX] {
        assert_eq!(port::walls(planes, order, on, n), REFUSAL, "{}", what(n));
    }
    all.len()
}

/// What is outside the limits, though there would be an image.
fn limits() {
    let off = [0u8; PLANES as usize + 1];
    for order in [0, ORDERS + 1, u32::MAX] {
        assert_eq!(port::walls(6, order, &off[..6], 1), REFUSAL, "order {order}");
    }
    for (planes, bytes) in [(0, 0), (PLANES + 1, PLANES as usize + 1), (6, 5), (6, 7), (u32::MAX, 6), (0, 6)] {
        assert_eq!(port::walls(planes, 3, &off[..bytes], 1), REFUSAL, "{planes} planes, {bytes} bytes");
    }
    for byte in 2..=u8::MAX {
        for at in 0..6 {
            let mut on = [0u8; 6];
            on[at] = byte;
            assert_eq!(port::walls(6, 3, &on, 1), REFUSAL, "byte {byte} of plane {at}");
        }
    }
}

pub fn run() {
    let mut numbers = 0;
    for planes in 1..=5 {
        for mask in 0..1u32 << planes {
            let on: Vec<u8> = (0..planes).map(|p| (mask >> p & 1) as u8).collect();
            numbers += (1..=4).map(|order| room(&on, order)).sum::<usize>();
        }
    }
    println!("up to 5 planes and order 4, all masks: the walls of {numbers} numbers are those of the walk");
    for (planes, order) in [(1, 8), (2, 8), (6, 8), (16, 8), (32, 4), (255, 3), (256, 1), (256, 2), (256, 8)] {
        for last in [0, 1] {
            let mut on = vec![0u8; planes];
            // the source on every third plane, and on the last
            if last == 1 {
                on.iter_mut().step_by(3).for_each(|b| *b = 1);
                on[planes - 1] = 1;
            }
            numbers = room(&on, order);
            let many = on.iter().filter(|&&b| b == 1).count();
            println!("{planes} planes, the source on {many} of them, order {order}: the walls of {numbers} numbers are those of the walk");
        }
    }
    limits();
    println!("outside the limits all is refused with 13");
}
