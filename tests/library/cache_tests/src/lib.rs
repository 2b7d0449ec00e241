//! Tests of the arena, the slabs, the magazines, the caches and the tables of owners, as a user of the five crates calls them.
//!
//! A contract says what a call does, and each is proved where it is. Tried here is what no contract says: that the
//! calls succeed if there is memory, and that the definitions mean the numbers that a person expects. Also what a pass of the
//! reaper does, and that threads really take, give, exchange, claim, release and draw side by side. The crates themselves have no
//! tests, so that they are proved once. `surface` makes each public call once, so it is the module to read first.

#[cfg(test)]
mod arena;
#[cfg(test)]
mod caches;
#[cfg(test)]
mod facts;
#[cfg(test)]
mod magazines;
#[cfg(test)]
mod memory;
#[cfg(test)]
mod owners;
#[cfg(test)]
mod shelves;
#[cfg(test)]
mod slabs;
#[cfg(test)]
mod surface;
