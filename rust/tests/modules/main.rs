//! Tests of `outline`, `shorten_module` and `remap_module`: bytes that were worked out from the standard by hand.
mod errors;
mod every;
mod numbers;
mod outlines;
mod refusals;
mod remapped;
mod samples;
mod sections;
mod shortened;
