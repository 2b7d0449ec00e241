//! Tests of rows of values that threads share or lend, of shelves on which they leave one another a value, of object caches without a lock, and of
//! workers over all of these, which run a host's programs, as a user of the six crates calls them.
//!
//! A contract says what a call does, and each is proved where it is. Tried here is what no contract says: that the calls succeed if there is
//! memory, which value is in which place, and that a value which is put is the one that is taken next. Also that threads really take, put and
//! exchange side by side, and that each value is with one of them at a time. `surface` makes each public call of the first three crates once, so
//! it is the module to read first.

#[cfg(test)]
mod cache_memory;
#[cfg(test)]
mod caches;
#[cfg(test)]
mod crowds;
#[cfg(test)]
mod facts;
#[cfg(test)]
mod hosts;
#[cfg(test)]
mod lending;
#[cfg(test)]
mod memory;
#[cfg(test)]
mod passing;
#[cfg(test)]
mod rows;
#[cfg(test)]
mod shelves;
#[cfg(test)]
mod surface;
#[cfg(test)]
mod workers;
#[cfg(test)]
mod workers_memory;
