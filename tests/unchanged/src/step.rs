use second::chart::Node;
use second::limits::TOUCHES;

/// A node in few bytes: the sets are worked out of it once for each block.
pub struct Step {
    /// The bit of the block of each touch, the first touch first; no bit behind the last.
    pub touches: [u64; TOUCHES],
    targets: [u16; 2],
    used: u8,
}

impl Step {
    pub fn of(node: &Node) -> Step {
        let leading = node.arrows.targets();
        let mut targets = [0; 2];
        for (held, &target) in targets.iter_mut().zip(leading) {
            *held = u16::try_from(target).expect("a node's number has 12 bits");
        }
        Step {
            touches: node.touches.map(|block| block.map_or(0, |block| 1 << block)),
            targets,
            used: leading.len() as u8,
        }
    }

    /// The targets of its arrows.
    pub fn targets(&self) -> impl Iterator<Item = usize> + '_ {
        self.targets[..usize::from(self.used)]
            .iter()
            .map(|&target| usize::from(target))
    }
}
