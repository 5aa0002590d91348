//! The given Rust graph over plain stand-ins, with a plain face. build.rs cuts
//! it out of the given files; nothing of it stands in this repository.

extern crate alloc;
// The given code names these two crates; this one stands in for them.
extern crate self as keyhive_crypto;
extern crate self as nonempty;

pub mod reference;
mod stand_ins;

pub use stand_ins::{collections, digest, error, id, payload, signable, verified, NonEmpty};

pub mod transact {
    include!(concat!(env!("OUT_DIR"), "/transact.rs"));
}

pub mod content_addressed_map {
    include!(concat!(env!("OUT_DIR"), "/content_addressed_map.rs"));
}

pub mod predecessors {
    include!(concat!(env!("OUT_DIR"), "/predecessors.rs"));

    mod steps;
}

pub mod operation {
    use crate::{
        collections::{Map, Set},
        content_addressed_map::CaMap,
        digest::Digest,
        error::CgkaError,
        id::{MemberId, TreeId},
        payload::{CitationId, Invitation, PathChange, PredecessorSecret, RemovedMember, ShareKey},
        predecessors::Predecessors,
        signable::{Kind, Kinded},
        transact::{Fork, Merge},
        verified::Verified,
        NonEmpty,
    };
    use std::{
        collections::{BTreeSet, BinaryHeap},
        hash::{Hash, Hasher},
        mem,
        ops::Deref,
        sync::Arc,
    };

    include!(concat!(env!("OUT_DIR"), "/operation.rs"));
}
