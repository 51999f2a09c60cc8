//! A packet scheduler by FQ-CoDel (RFC 8290), whose steps are proved in Rattle. This crate is its type for Rust, over
//! the archive `libmaltcove.a`.
//!
//! A scheduler holds no packet: the caller has the buffers, and gives each packet a tag, as the number of its buffer.
//! Each tag that is accepted comes back once: as [`Sent`], [`Dropped`] or [`Flushed`]. The tag of a packet that is
//! refused stays the caller's. Moments are whole microseconds below 2^60, of a clock that doesn't step back.
//!
//! ```
//! use maltcove::{Ecn, Packet, Scheduler};
//!
//! let mut scheduler = Scheduler::open("limit 1000 target 5ms", [7; 16])?;
//! let packet = Packet {
//!     tag: 42,
//!     len: 1000,
//!     src: [10, 0, 0, 1].into(),
//!     dst: [10, 0, 0, 2].into(),
//!     sport: 5000,
//!     dport: 53,
//!     proto: 17,
//!     ecn: Ecn::Ect0,
//! };
//! let admitted = scheduler.enqueue(0, &packet)?;
//! for dropped in scheduler.drops() {
//!     println!("the buffer {} is free", dropped.tag);
//! }
//! let sent = scheduler.dequeue(1500)?.expect("one packet waits");
//! assert_eq!((sent.tag, sent.id), (42, admitted.id));
//! # Ok::<(), maltcove::Error>(())
//! ```
//!
//! Where packets are bytes, [`find`] and [`parse`] make a [`Packet`] of them, and [`mark`] writes the mark.

#![warn(missing_docs)]

mod error;
mod headers;
mod packet;
mod scheduler;
mod sys;
mod views;

pub use error::{Error, WordFault};
pub use headers::{find, mark, parse, Found, Fragment, InPlaceOfPorts, Parsed, Ports, Verdict};
pub use packet::{
    flow_of_hash, queue_of_hash, Admitted, Cause, Dropped, Ecn, Flushed, Mark, Packet, Sent,
};
pub use scheduler::{version, Drops, Flush, Scheduler};
pub use views::{Classify, Flow, Params, Totals};
