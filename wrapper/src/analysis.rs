use crate::{analyse, read, Buffers, Class, Header, Refusal, Table, PASSES, TOUCHES};

/// A settled analysis in buffers of its own, just as long as used.
#[derive(Clone, Debug, PartialEq, Eq)]
pub struct Analysis {
    pub header: Header,
    /// The passes made, the last one that changed nothing included.
    pub passes: usize,
    /// The block numbers, ascending.
    pub blocks: Vec<u32>,
    /// What is known of each node's first touch, and of its second.
    pub classes: Vec<[Class; TOUCHES]>,
    must: Vec<u8>,
    may: Vec<u8>,
    marks: Vec<u8>,
}

impl Analysis {
    /// The analysis of a chart, or one of refusals 1 to 10: the buffers are long enough, and so many passes are.
    pub fn of(chart: &[u8]) -> Result<Analysis, Refusal> {
        let header = read(chart)?;
        let Header { nodes, blocks, .. } = header;
        let mut list = vec![0; blocks];
        let mut must = vec![0; nodes * blocks];
        let mut may = vec![0; nodes * blocks];
        let mut marks = vec![0; nodes];
        let mut classes = vec![0; TOUCHES * nodes];
        let lent = Buffers {
            blocks: &mut list,
            must: &mut must,
            may: &mut may,
            marks: &mut marks,
            classes: &mut classes,
        };
        let settled = analyse(chart, PASSES, lent)?;
        let class = |number| Class::of(number).expect("the analysis writes classes 0 to 5");
        let both = |node| [0, 1].map(|touch| class(classes[TOUCHES * node + touch]));
        Ok(Analysis {
            header,
            passes: settled.passes,
            blocks: list,
            classes: (0..nodes).map(both).collect(),
            must,
            may,
            marks,
        })
    }

    /// The table, to be lent to [`check`](crate::check), [`total`](crate::total) or [`deadline`](crate::deadline).
    pub fn table(&self) -> Table<'_> {
        Table {
            must: &self.must,
            may: &self.may,
            marks: &self.marks,
        }
    }

    /// The must ages on arrival at a node, one for each block; `None` where there is no such node.
    pub fn must(&self, node: usize) -> Option<&[u8]> {
        self.row(&self.must, node)
    }

    /// The may ages on arrival at a node, one for each block; `None` where there is no such node.
    pub fn may(&self, node: usize) -> Option<&[u8]> {
        self.row(&self.may, node)
    }

    // by the marks, one for each node: unlike header and blocks they cannot be changed from outside
    fn row<'a>(&self, ages: &'a [u8], node: usize) -> Option<&'a [u8]> {
        let nodes = self.marks.len();
        let blocks = ages.len() / nodes;
        (node < nodes).then(|| &ages[node * blocks..][..blocks])
    }
}
