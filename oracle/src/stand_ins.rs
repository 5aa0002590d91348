//! Plain stand-ins for what the graph names and is either not given or not
//! needed in full.

/// Ordered collections: every run goes the same way.
pub mod collections {
    pub use std::collections::{BTreeMap as Map, BTreeSet as Set};
}

pub mod digest {
    use std::{
        cmp::Ordering,
        fmt,
        hash::{Hash, Hasher},
        marker::PhantomData,
    };

    /// 32 bytes, ordered byte by byte from the first.
    pub struct Digest<T>([u8; 32], PhantomData<T>);

    impl<T> From<[u8; 32]> for Digest<T> {
        fn from(bytes: [u8; 32]) -> Self {
            Self(bytes, PhantomData)
        }
    }

    impl<T> From<Digest<T>> for [u8; 32] {
        fn from(digest: Digest<T>) -> Self {
            digest.0
        }
    }

    // Written out, since a derive would ask the same of T.
    impl<T> Copy for Digest<T> {}

    impl<T> Clone for Digest<T> {
        fn clone(&self) -> Self {
            *self
        }
    }

    impl<T> PartialEq for Digest<T> {
        fn eq(&self, other: &Self) -> bool {
            self.0 == other.0
        }
    }

    impl<T> Eq for Digest<T> {}

    impl<T> PartialOrd for Digest<T> {
        fn partial_cmp(&self, other: &Self) -> Option<Ordering> {
            Some(self.cmp(other))
        }
    }

    impl<T> Ord for Digest<T> {
        fn cmp(&self, other: &Self) -> Ordering {
            self.0.cmp(&other.0)
        }
    }

    impl<T> Hash for Digest<T> {
        fn hash<H: Hasher>(&self, state: &mut H) {
            self.0.hash(state)
        }
    }

    impl<T> fmt::Debug for Digest<T> {
        fn fmt(&self, f: &mut fmt::Formatter<'_>) -> fmt::Result {
            write!(f, "{:?}", self.0)
        }
    }
}

pub mod error {
    /// The errors that the graph gives.
    #[derive(Debug, Clone, Copy, PartialEq, Eq)]
    pub enum CgkaError {
        DepthNotFound,
        InvalidOperation,
        NotInitialized,
        OperationNotFound,
        OutOfOrderOperation,
    }
}

pub mod id {
    #[derive(Debug, Clone, Copy, Hash, PartialEq, Eq)]
    pub struct MemberId(pub [u8; 32]);

    #[derive(Debug, Clone, Hash, PartialEq, Eq)]
    pub struct TreeId;
}

/// What an operation carries and the graph never looks into.
pub mod payload {
    #[derive(Debug, Clone, Copy, Hash, PartialEq, Eq, PartialOrd, Ord)]
    pub struct CitationId(pub [u8; 32]);

    #[derive(Debug, Clone, Hash, PartialEq, Eq)]
    pub struct Invitation;

    #[derive(Debug, Clone, Hash, PartialEq, Eq)]
    pub struct PathChange;

    #[derive(Debug, Clone, Hash, PartialEq, Eq)]
    pub struct PredecessorSecret;

    #[derive(Debug, Clone, Hash, PartialEq, Eq, PartialOrd, Ord)]
    pub struct RemovedMember;

    #[derive(Debug, Clone, Copy, Hash, PartialEq, Eq)]
    pub struct ShareKey;
}

pub mod signable {
    pub struct Kind;

    impl Kind {
        pub const CGKA_OPERATION: Self = Self;
    }

    pub trait Kinded {
        const KIND: Kind;
        const VERSION: u8;
    }
}

pub mod verified {
    use crate::digest::Digest;

    /// A payload under a digest of the caller's choice; nothing is signed.
    #[derive(Debug, Clone, PartialEq, Eq)]
    pub struct Verified<T> {
        digest: Digest<T>,
        payload: T,
    }

    impl<T> Verified<T> {
        pub fn new(digest: Digest<T>, payload: T) -> Self {
            Self { digest, payload }
        }

        pub fn digest(&self) -> Digest<T> {
            self.digest
        }

        pub fn payload(&self) -> &T {
            &self.payload
        }
    }
}

/// A vector that holds something.
#[derive(Debug, Clone, PartialEq, Eq)]
pub struct NonEmpty<T>(Vec<T>);

impl<T> NonEmpty<T> {
    pub fn from_vec(items: Vec<T>) -> Option<Self> {
        (!items.is_empty()).then_some(Self(items))
    }

    pub fn iter(&self) -> std::slice::Iter<'_, T> {
        self.0.iter()
    }
}

impl<T> IntoIterator for NonEmpty<T> {
    type Item = T;
    type IntoIter = std::vec::IntoIter<T>;

    fn into_iter(self) -> Self::IntoIter {
        self.0.into_iter()
    }
}
