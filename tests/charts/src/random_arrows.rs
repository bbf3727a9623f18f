//! Arrows by which an entry reaches most nodes.

use crate::random::Random;

/// The arrows of a chart.
pub struct Arrows {
    /// The nodes, the entry first, and each that is reached after one that leads to it.
    pub order: Vec<u64>,
    /// The targets of each node, by its number.
    pub targets: Vec<Vec<u64>>,
}

/// First an arrow to each node from one before it, mostly the last, and then more arrows: loops, joins and steps back.
pub fn arrows(random: &mut Random, nodes: u64) -> Arrows {
    let order = order(random, nodes);
    // in some charts the last of the order are left out, and lead into the others all the same
    let left_out = if random.once_in(2) {
        random.below(nodes / 4 + 1)
    } else {
        0
    };
    let mut targets = vec![Vec::new(); nodes as usize];
    for place in 1..(nodes - left_out) as usize {
        let before = before(random, &order, &targets, place);
        targets[before].push(order[place]);
    }
    // ends are few; how many nodes fork differs from chart to chart
    let forks = [1, 2, 6, 30][random.below(4) as usize];
    for (place, &node) in order.iter().enumerate() {
        let targets = &mut targets[node as usize];
        if targets.is_empty() && !random.once_in(6) {
            targets.push(elsewhere(random, &order, place));
        }
        if targets.len() == 1 && random.once_in(forks) {
            let other = elsewhere(random, &order, place);
            // two arrows to one node are a damage
            if other != targets[0] {
                targets.push(other);
            }
        }
        if random.once_in(2) {
            targets.reverse();
        }
    }
    Arrows { order, targets }
}

/// Which numbers the nodes have: passes go by numbers, so that ascending ones settle at once and descending ones late.
fn order(random: &mut Random, nodes: u64) -> Vec<u64> {
    let mut order: Vec<u64> = (0..nodes).collect();
    match random.below(5) {
        0 => {}
        1 => order.reverse(),
        2 => order.rotate_left(random.below(nodes) as usize),
        3 => {
            for _ in 0..random.within(1, 4) {
                let (one, other) = (random.below(nodes), random.below(nodes));
                order.swap(one as usize, other as usize);
            }
        }
        _ => random.mix(&mut order),
    }
    order
}

/// A node that comes earlier and has room for an arrow. The last before has none yet.
fn before(random: &mut Random, order: &[u64], targets: &[Vec<u64>], place: usize) -> usize {
    let any = order[random.below(place as u64) as usize] as usize;
    if random.once_in(4) && targets[any].len() < 2 {
        any
    } else {
        order[place - 1] as usize
    }
}

/// Where one more arrow leads: to the node itself, a node near it in the order, the entry, the last, any.
fn elsewhere(random: &mut Random, order: &[u64], place: usize) -> u64 {
    let last = order.len() - 1;
    let place = match random.below(8) {
        0 | 1 => place,
        2 | 3 => place.saturating_sub(random.within(1, 5) as usize),
        4 | 5 => (place + random.within(1, 3) as usize).min(last),
        6 if random.once_in(2) => 0,
        6 => last,
        _ => random.below(order.len() as u64) as usize,
    };
    order[place]
}
