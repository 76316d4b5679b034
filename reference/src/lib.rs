//! An outside implementation of the sliding-block code workshop.
//!
//! It is written from the scope document ("the document" in all comments), from the list of later change requests
//! (so far "request (a)" to "request (h)", of which (g) changes no answer) and from the table of readings of their
//! unclear places ("the readings").
//! Verifying is beyond them, and is written from what its calls are to answer and a table of inputs.
//! It shares no code with the proved crates. `calls` holds every call as a function from bytes to an answer; the other
//! modules follow the sections of the document and the requests.

#![forbid(unsafe_code)]

pub mod accept;
pub mod answer;
pub mod bits;
pub mod calls;
pub mod checksum;
pub mod compile;
pub mod component;
pub mod constraint;
pub mod data;
pub mod decode;
pub mod edges;
pub mod encode;
pub mod job;
pub mod joined;
pub mod listing;
pub mod published;
pub mod record;
pub mod sets;
pub mod split;
pub mod streams;
pub mod table;
pub mod vectors;
pub mod verify;
pub mod weaving;
pub mod weights;
pub mod window;
