//! A second baseline for the measurement: the second program's analysis with one idea more. A node is passed over as long as what it has on
//! arrival has not changed since it was last visited: it has sent all it has, its targets cover that, and to meet it again changes nothing. So
//! the answers, the passes and all that is left in the buffers are the second program's, and a test holds it to that.
//!
//! Reading, rows of ages and what touches and meetings do to them are the second program's own. The passes, the sets of blocks that stay and the
//! classes are written anew, so that nothing but this idea is slower or faster than it need be in ordinary Rust.

pub mod analysis;
pub mod classes;
pub mod due;
pub mod kept;
pub mod passes;
pub mod step;
pub mod touches;
