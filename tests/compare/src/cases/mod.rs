//! The named cases, each one group of comparisons.

mod areas;
mod calls;
mod finding;
mod headers;
mod large;
mod names;
mod repeats;
mod samples;
mod second;
mod values;

use crate::context::{Context, Outcome};
use crate::request::Request;
use crate::twin::Twin;

/// A named group of comparisons.
pub struct Case {
    pub name: &'static str,
    pub run: fn(&mut Context) -> Outcome,
}

const fn case(name: &'static str, run: fn(&mut Context) -> Outcome) -> Case {
    Case { name, run }
}

/// All cases, in the order they run.
pub const CASES: &[Case] = &[
    case("examples", headers::examples),
    case("image-lengths", headers::image_lengths),
    case("header-faults", headers::header_faults),
    case("checksums", headers::checksums),
    case("plain-sums", headers::plain_sums),
    case("finding", finding::finding),
    case("partition-names", finding::partition_names),
    case("leftovers", finding::leftovers),
    case("second-common", second::second_common),
    case("one-common", second::one_common),
    case("random-common", second::random_common),
    case("distant-common", second::distant_common),
    case("listings", headers::listings),
    case("small-areas-at-start", areas::small_at_start),
    case("small-areas-at-end", areas::small_at_end),
    case("stored-names", areas::stored_names),
    case("random-areas", areas::random_areas),
    case("fault-order", areas::fault_order),
    case("damage", areas::damage),
    case("names", names::names),
    case("name-indices", names::name_indices),
    case("stored-indices", names::stored_indices),
    case("value-mixtures", values::mixtures),
    case("value-runs", values::runs),
    case("value-bytes", values::two_bytes),
    case("split-runs", values::split_runs),
    case("call-lists", calls::call_lists),
    case("soak", calls::soak),
    case("large-partitions", large::partitions),
    case("full-partition", large::full),
    case("repeats", repeats::repeats),
    case("samples", samples::samples),
];

/// Makes one call of every kind, the edits last.
pub fn every_call(ctx: &mut Context, twin: &mut Twin, name: &[u8], value: &[u8]) -> Outcome {
    questions(ctx, twin, name)?;
    twin.call(ctx, &Request::Set(name.to_vec(), value.to_vec()))?;
    twin.call(ctx, &Request::Remove(name.to_vec()))?;
    twin.call(ctx, &Request::Normalize)?;
    Ok(())
}

/// Makes one call of every kind that does not edit.
pub fn questions(ctx: &mut Context, twin: &mut Twin, name: &[u8]) -> Outcome {
    twin.call(ctx, &Request::Check)?;
    twin.call(ctx, &Request::Partition(0))?;
    twin.call(ctx, &Request::Partition(1))?;
    twin.call(ctx, &Request::Find(0x70, b"common".to_vec()))?;
    twin.call(ctx, &Request::Count)?;
    twin.call(ctx, &Request::Read(name.to_vec(), vec![0xB1; 2]))?;
    twin.call(ctx, &Request::Read(name.to_vec(), vec![0xB2; 600]))?;
    twin.call(ctx, &Request::Listing(vec![0xB3; 40]))?;
    twin.call(ctx, &Request::Listing(vec![0xB4; 600]))?;
    Ok(())
}

/// Reads a variable with a buffer one byte short, one that fits, and a longer one.
pub fn read_three_ways(ctx: &mut Context, twin: &mut Twin, name: &[u8], length: usize) -> Outcome {
    if length > 0 {
        twin.call(ctx, &Request::Read(name.to_vec(), vec![0xB5; length - 1]))?;
    }
    twin.call(ctx, &Request::Read(name.to_vec(), vec![0xB6; length]))?;
    twin.call(ctx, &Request::Read(name.to_vec(), vec![0xB7; length + 5]))?;
    Ok(())
}
