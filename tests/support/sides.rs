//! The proved box and the twin, with their journals, each call with one signature
//! for both.

use twin::flat_record;

use crate::library;
use crate::numbers::{Numbers, Orders, Sizes, Terms};

type Timeout = fn(&mut Numbers, &mut Terms, &mut Orders, &mut [u8], &mut [u8], &mut Sizes) -> u8;
/// Leaves the log alone.
type Prompt = fn(&mut Numbers, &Terms, &Orders, &mut [u8], &mut [u8], &mut Sizes) -> u8;
type Order = fn(u64, &mut Numbers, &mut Terms, &mut Orders, &mut [u8], &mut [u8], &mut Sizes) -> u8;
type Receive =
    fn(&[u8], &mut Numbers, &mut Terms, &mut Orders, &mut [u8], &mut [u8], &mut Sizes) -> u8;

type Open = fn(u8, &[u8], &mut Numbers, &mut Terms, &mut Orders, &mut Sizes) -> u8;
type Replay = fn(&[u8], &mut Numbers, &mut Terms, &mut Orders) -> u8;

#[derive(Clone, Copy)]
pub struct Side {
    pub start: fn(u8, u8, &mut Numbers, &mut [u8]) -> u64,
    pub timeout: Timeout,
    pub prompt: Prompt,
    pub order: Order,
    pub receive: Receive,
    pub handed_out: fn(&Numbers, &Terms, &Orders, &mut u64) -> u8,
    pub open: Open,
    pub replay: Replay,
}

pub const OURS: Side = Side {
    start: library::start,
    timeout: library::timeout,
    prompt: library::prompt,
    order: library::order,
    receive: library::receive,
    handed_out: library::handed_out,
    open: library::open,
    replay: library::replay,
};

pub const TWIN: Side = Side {
    start: flat_record::start,
    timeout: flat_record::timeout,
    prompt: flat_record::prompt,
    order: flat_record::order,
    receive: flat_record::receive,
    handed_out: flat_record::handed_out,
    open: flat_record::open,
    replay: flat_record::replay,
};
