//! The sets of blocks that stay (section 16 of the rules), worked out one block after another.

use crate::due::Due;
use crate::step::Step;
use crate::touches::Touches;
use second::chart::Chart;
use second::limits::TOUCHES;

/// Of each touch of a marked node whether, just before it, the set of its block has fewer members than there are ways.
pub fn kept(chart: &Chart, marks: &[u8]) -> Vec<[bool; TOUCHES]> {
    let steps: Vec<Step> = chart.nodes.iter().map(Step::of).collect();
    let touches = Touches::of(chart, marks);
    let mut few = vec![[false; TOUCHES]; steps.len()];
    let mut words = vec![0; steps.len()];
    let mut due = Due::none(steps.len());
    for block in 0..chart.blocks.len() {
        let (touches, block) = (touches.of_block(block), OneBlock::of(chart, block));
        words.fill(0);
        touches.iter().for_each(|touch| due.add(touch.node));
        while block.pass(&steps, &mut words, &mut due) {}
        for touch in touches {
            let before = &steps[touch.node].touches[..touch.place];
            let word = block.after(before, words[touch.node]);
            few[touch.node][touch.place] = block.members(word) < u32::from(chart.ways());
        }
    }
    few
}

/// What is held of one block at a node is one word: its own bit says that it was touched, the others which blocks of its set were touched
/// since. Where nothing was touched the word is 0, and so it is where no walk comes.
struct OneBlock {
    own: u64,
    /// The other blocks of its set.
    others: u64,
}

impl OneBlock {
    fn of(chart: &Chart, block: usize) -> OneBlock {
        let own = 1 << block;
        let same = |&place: &usize| chart.sets[place] == chart.sets[block];
        let set = (0..chart.sets.len())
            .filter(same)
            .fold(0, |set, place| set | 1 << place);
        OneBlock {
            own,
            others: set & !own,
        }
    }

    /// One pass over the nodes that are due: at first those that touch the block, since no other makes anything of words that are 0. Whether
    /// there were any.
    fn pass(&self, steps: &[Step], words: &mut [u64], due: &mut Due) -> bool {
        let mut from = 0;
        while let Some(node) = due.take(from) {
            from = node + 1;
            let after = self.after(&steps[node].touches, words[node]);
            for target in steps[node].targets() {
                if after & !words[target] != 0 {
                    words[target] |= after;
                    due.add(target);
                }
            }
        }
        from > 0
    }

    /// What touches make of a word, each named by the bit of its block.
    fn after(&self, touches: &[u64], word: u64) -> u64 {
        touches.iter().fold(word, |word, &bit| {
            if bit == self.own {
                self.own
            } else if word & self.own != 0 {
                word | bit & self.others
            } else {
                word
            }
        })
    }

    fn members(&self, word: u64) -> u32 {
        (word & self.others).count_ones()
    }
}
