//! MPI's nonblocking and persistent collectives (MPI 4.1, 6.12 and 6.13) among the threads of one process.
//!
//! The engine beneath is proved. The combiner, by which threads share it, and this crate are not: the combiner is that of the C
//! library, which a model checks.
//!
//! ```
//! use worzsunab::{bytes_of, Call, Engine, Op, Type};
//!
//! let engine = Engine::of_ranks(4)?;
//! std::thread::scope(|threads| {
//!     for rank in 0..4u8 {
//!         let port = engine.port(rank).unwrap();
//!         threads.spawn(move || {
//!             let sum_of_all = Call::allreduce(Op::Sum, Type::I32, 1);
//!             let mut request = port.post(0, sum_of_all, &bytes_of(&[i32::from(rank)])).unwrap();
//!             // The call is under way: here the rank computes something else.
//!             assert_eq!(port.wait_values(&mut request), Ok(vec![6_i32]));
//!         });
//!     }
//! });
//! # Ok::<(), worzsunab::Refusal>(())
//! ```
//!
//! | | |
//! |---|---|
//! | [`Engine`] | what the threads share |
//! | [`Port`] | a rank's calls: it posts, starts and completes requests; dropped, the rank has left |
//! | [`Call`] | a collective: one function for each of MPI's |
//! | [`Request`], [`List`] | one request, and several that are tested or started together |
//! | [`bytes_of`], [`values_of`] | numbers as bytes, and back |
//! | [`Refusal`] | why a call was refused, with what is known of it: it prints as a sentence |
#![deny(missing_docs, unsafe_op_in_unsafe_fn)]

mod call;
mod element;
mod engine;
mod list;
mod listing;
mod port;
mod raw;
mod refusal;
mod request;
mod sanitizer;

pub use call::{Call, Kind, Op, Type};
pub use element::{bytes_of, values_of, Element};
pub use engine::Engine;
pub use list::List;
pub use listing::{ListRefusal, Stopped};
pub use port::Port;
pub use refusal::{Field, Mismatch, Refusal, Rule};
pub use request::{About, Limits, Phase, Posted, Request};

/// The earlier name of [`Port`].
#[deprecated(note = "it is called Port")]
pub type Seat<'a> = Port<'a>;
