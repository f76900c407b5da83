//! The proved PSK modem for Rust hosts.
//!
//! [`raw`] has the open calls as they are: any bandwidth, length, table or state may be given, and a wrong one
//! is answered with the number that document 01 gives to the first fault met. Above it stand types that keep
//! lengths and states right: [`Layout`], [`Tables`], [`Sending`], [`Receiver`], [`Located`], [`Reading`], [`Hold`],
//! [`Residual`].
//!
//! What document 01 leaves to the host is made in [`rows`]: the turn book, phasors, wave rows and drift rows.
//!
//! The calls need some stack of the thread that makes them: a feed 256,000 bytes, a reading 80,000, locating 43,000
//! (measured on x86-64 Linux; include/dimpstea.h has every call).
//!
//! ```
//! use dimpstea::{rows, Complex, Layout, Receiver, Tables};
//!
//! let layout = Layout::choose(500, 4)?;
//! let values: Vec<u16> = (0..layout.carriers * layout.markers).map(|i| 5 + 20 * (i % layout.markers) as u16).collect();
//! let tables = Tables::new(&layout, &values, vec![Complex::ONE; layout.phasor_count()]);
//! let book = rows::turn_book();
//! let mut receiver = Receiver::open(&layout, &tables, 0, &book)?;
//! if let Some(detection) = receiver.feed(&tables, &book, &[Complex::ZERO; 3000])? {
//!     let located = receiver.locate(&tables, detection.position)?;
//!     let reading = receiver.read(&tables, detection.position, &located.drift_rows(&layout))?;
//!     println!("from {} to {}: {:?}", located.t, located.t_end(&layout), reading.payload(&layout)?);
//! }
//! # Ok::<(), dimpstea::Refusal>(())
//! ```

mod alphabet;
mod complex;
mod decibels;
mod ffi;
mod hold;
mod layout;
mod located;
mod payload;
pub mod raw;
mod reading;
mod receiver;
mod refusal;
mod residual;
pub mod rows;
mod sending;
mod soft_order;
mod steps;
mod tables;

pub use alphabet::{erased, nearest_point, soft_step, Nearest};
pub use complex::{flat, flat_mut, Complex};
pub use decibels::decibels;
pub use hold::Hold;
pub use layout::Layout;
pub use located::Located;
pub use payload::{meter, payload_bits};
pub use reading::{ReadRefusal, Reading};
pub use receiver::{Detection, Receiver, State};
pub use refusal::Refusal;
pub use residual::Residual;
pub use sending::{Audio, Sending};
pub use soft_order::{by_carrier, by_time};
pub use steps::Steps;
pub use tables::Tables;
