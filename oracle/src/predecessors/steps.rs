//! The steps of the concurrent search, which no answer of the graph shows.

use super::{ConcurrentSearch, Predecessors};
use crate::{
    digest::Digest,
    error::CgkaError,
    operation::{CgkaOperation, CgkaOperationGraph},
};

impl Predecessors {
    /// What the search gives, one step after the other, until it gives `None`.
    pub(crate) fn concurrent_steps(
        &self,
        min_depth: u64,
        graph: &CgkaOperationGraph,
    ) -> Result<Vec<(Digest<CgkaOperation>, bool)>, CgkaError> {
        let mut search = ConcurrentSearch::new(graph, self.missing_heads(graph))?;
        let mut steps = Vec::new();
        while let Some(step) = search.next(graph, self, min_depth)? {
            steps.push(step);
        }
        Ok(steps)
    }
}
