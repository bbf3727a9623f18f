//! The proved analysis and two ordinary ones in one process: the same charts, the same kind of buffers, the same optimisation.

pub mod before;
pub mod boundary;
pub mod chains;
pub mod draw;
pub mod growth;
pub mod kinds;
pub mod measures;
pub mod plot;
pub mod plot_chains;
pub mod plot_growth;
pub mod runs;
pub mod table;
pub mod targets;
pub mod timing;
pub mod written;
