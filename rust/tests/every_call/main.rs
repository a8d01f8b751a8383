//! Every public function of the crate beside the call of C that it hands on to: the same answer bit for bit, the same refusal, the same memory
//! after it, in lent tables of many lengths with more memory behind them. What has no such call is held to its exact value.

#[macro_use]
mod memory;
mod built;
mod mappings;
mod numbers;
#[cfg(feature = "alloc")]
mod owned;
#[path = "../../src/raw.rs"]
mod raw;
mod refusals;
mod scales;
mod tally;
mod tunings;
