//! The two ages of a block. An age is the block's place in its set, 0 the youngest; the number of ways is: not there.

use veilbuzz::Analysis;

#[derive(Clone, Copy, Debug, PartialEq, Eq)]
pub struct Ages {
    /// The block is no older than this.
    pub must: u8,
    /// The block is no younger than this.
    pub may: u8,
}

impl Ages {
    /// The ages of a block on arrival at a node, both of the chart that was analysed.
    pub fn of(analysis: &Analysis, node: usize, block: u32) -> Ages {
        let column = analysis.blocks.iter().position(|each| *each == block);
        let age = |row: Option<&[u8]>| row.zip(column).and_then(|(row, column)| row.get(column).copied());
        let ages = age(analysis.must(node)).zip(age(analysis.may(node)));
        let (must, may) = ages.expect("an analysis has ages for each of its nodes and blocks");
        Ages { must, may }
    }

    /// Where the block is, in a set of so many ways.
    pub fn whereabouts(&self, ways: usize) -> String {
        let [must, may] = [self.must, self.may].map(usize::from);
        if may >= ways {
            "not there".into()
        } else if must >= ways {
            "there or not".into()
        } else if must == may {
            format!("there, in place {must}")
        } else {
            format!("there, in place {may} to {must}")
        }
    }
}
