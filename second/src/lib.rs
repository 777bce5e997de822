//! The second program: the list of its parts.
//!
//! Everything is written from four documents only: document 01 (the law of
//! codec, device and scanner), document 02 (what its requests change) as far
//! as they have landed, REQUESTS.md (how 02 is read) and the bench script
//! (commands in, answers out). Quotation marks in the comments hold sentences
//! of those four.

pub mod bench;
pub mod check;
pub mod device;
pub mod frame;
pub mod generator;
pub mod identity;
pub mod lines;
pub mod message;
pub mod negotiation;
pub mod receiver;
pub mod record;
pub mod refusal;
pub mod salvage;
pub mod scan;
pub mod script;
pub mod words;
pub mod xid;
