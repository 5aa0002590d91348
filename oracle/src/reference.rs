//! The given graph behind plain bytes.

use crate::{
    collections::Set,
    digest::Digest,
    id::{MemberId, TreeId},
    operation::{CgkaChange, CgkaOperation, CgkaOperationGraph},
    payload::{PathChange, ShareKey},
    predecessors::Predecessors,
    transact::{Fork, Merge},
    verified::Verified,
    NonEmpty,
};

pub use crate::error::CgkaError;

/// A digest or a member.
pub type Bytes = [u8; 32];

pub const ADD: u8 = 0;
pub const REMOVE: u8 = 1;
pub const UPDATE: u8 = 2;

/// The given graph. `==` is the graph's own.
#[derive(Clone, Debug, Default, PartialEq)]
pub struct Reference(CgkaOperationGraph);

impl Reference {
    pub fn new() -> Self {
        Self(CgkaOperationGraph::new())
    }

    /// Adds an operation; answers the updates that it made chainable.
    pub fn add_op(
        &mut self,
        digest: Bytes,
        kind: u8,
        member: Bytes,
        predecessors: &[Bytes],
    ) -> Result<Vec<Bytes>, CgkaError> {
        let operation = CgkaOperation {
            doc_id: TreeId,
            predecessors: collect(predecessors),
            change: change(kind, member),
        };
        self.0
            .add_op(&Verified::new(digest.into(), operation))
            .map(bytes)
    }

    pub fn merge(&mut self, other: &Self) {
        self.0.merge(other.0.fork());
    }

    /// Whether the maps of operations are equal; they compare digests alone.
    pub fn same_operations(&self, other: &Self) -> bool {
        self.0.cgka_ops == other.0.cgka_ops
    }

    pub fn heads(&self) -> Vec<Bytes> {
        bytes(self.0.cgka_op_heads.iter().copied())
    }

    /// The held updates that are not chainable.
    pub fn latest(&self) -> Vec<Bytes> {
        let updates = self
            .0
            .cgka_ops
            .iter()
            .filter(|(_, op)| op.payload().is_update());
        bytes(
            updates
                .map(|(digest, _)| *digest)
                .filter(|digest| !self.0.is_chainable(digest)),
        )
    }

    pub fn batches(&self) -> Result<Vec<Vec<Bytes>>, CgkaError> {
        self.0.batches().map(batch_bytes)
    }

    pub fn batches_for_heads(&self, heads: &[Bytes]) -> Result<Vec<Vec<Bytes>>, CgkaError> {
        self.0.batches_for_heads(&collect(heads)).map(batch_bytes)
    }

    /// The batch question with a list of digests.
    pub fn batch_has_listed(
        &self,
        predecessors: &[Bytes],
        listed: &[Bytes],
    ) -> Result<bool, CgkaError> {
        let listed: Set<Digest<CgkaOperation>> = collect(listed);
        self.0
            .batch_has(&collect(predecessors), |digest, _| listed.contains(digest))
    }

    /// The batch question with a kind.
    pub fn batch_has_kind(&self, predecessors: &[Bytes], kind: u8) -> Result<bool, CgkaError> {
        self.0
            .batch_has(&collect(predecessors), |_, op| kind_of(op) == kind)
    }

    pub fn filter_in_causal_past(
        &self,
        predecessors: &[Bytes],
        targets: &[Bytes],
    ) -> Result<Vec<Bytes>, CgkaError> {
        let predecessors: Predecessors = collect(predecessors);
        predecessors
            .filter_in_causal_past(collect(targets), &self.0)
            .map(bytes)
    }

    /// The steps of the filter's second search, each with 'is in the past'.
    pub fn concurrent_steps(
        &self,
        predecessors: &[Bytes],
        min_depth: u64,
    ) -> Result<Vec<(Bytes, bool)>, CgkaError> {
        let predecessors: Predecessors = collect(predecessors);
        let steps = predecessors.concurrent_steps(min_depth, &self.0)?;
        Ok(steps
            .into_iter()
            .map(|(digest, in_past)| (digest.into(), in_past))
            .collect())
    }

    pub fn nearest_update_ancestors(&self, list: &[Bytes]) -> Vec<Bytes> {
        let list: Set<Digest<CgkaOperation>> = collect(list);
        bytes(self.0.nearest_update_ancestors(&list))
    }

    pub fn depth(&self, digest: Bytes) -> Result<u64, CgkaError> {
        self.0.depth(&digest.into())
    }

    pub fn predecessors_for(&self, digest: Bytes) -> Option<Vec<Bytes>> {
        let predecessors = self.0.predecessors_for(&digest.into())?;
        Some(bytes(predecessors.iter().copied()))
    }

    pub fn children_of(&self, digest: Bytes) -> Vec<Bytes> {
        bytes(self.0.children_of(&digest.into()).copied())
    }

    pub fn contains_op_hash(&self, digest: Bytes) -> bool {
        self.0.contains_op_hash(&digest.into())
    }

    pub fn contains_all(&self, list: &[Bytes]) -> bool {
        let list: Set<Digest<CgkaOperation>> = collect(list);
        self.0.contains_all(&list)
    }

    pub fn is_chainable(&self, digest: Bytes) -> bool {
        self.0.is_chainable(&digest.into())
    }

    pub fn has_single_head(&self) -> bool {
        self.0.has_single_head()
    }

    pub fn has_add_before(&self, member: Bytes, digest: Bytes) -> bool {
        self.0.has_add_before(MemberId(member), digest.into())
    }
}

/// A change of this kind, empty but for an add's member.
fn change(kind: u8, member: Bytes) -> CgkaChange {
    match kind {
        ADD => CgkaChange::Add {
            added_id: MemberId(member),
            pk: ShareKey,
            invitation: None,
            key_proof: None,
            citations: Default::default(),
        },
        REMOVE => CgkaChange::Remove {
            citations: Default::default(),
            removed: Default::default(),
        },
        UPDATE => CgkaChange::Update {
            new_path: Box::new(PathChange),
            predecessor_secrets: Vec::new(),
        },
        _ => panic!("no kind {kind}"),
    }
}

fn kind_of(op: &CgkaOperation) -> u8 {
    match op.change {
        CgkaChange::Add { .. } => ADD,
        CgkaChange::Remove { .. } => REMOVE,
        CgkaChange::Update { .. } => UPDATE,
    }
}

/// A set of digests from a list in any order, with repeats.
fn collect<S: FromIterator<Digest<CgkaOperation>>>(list: &[Bytes]) -> S {
    list.iter().map(|digest| Digest::from(*digest)).collect()
}

/// The digests, ascending.
fn bytes(digests: impl IntoIterator<Item = Digest<CgkaOperation>>) -> Vec<Bytes> {
    let mut list: Vec<Bytes> = digests.into_iter().map(Bytes::from).collect();
    list.sort_unstable();
    list
}

/// The digests of each batch, in the batch's own order.
fn batch_bytes(batches: NonEmpty<crate::operation::CgkaBatch>) -> Vec<Vec<Bytes>> {
    batches
        .into_iter()
        .map(|batch| batch.iter().map(|op| op.digest().into()).collect())
        .collect()
}
