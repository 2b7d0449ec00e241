//! Tests of the pool of workers, as its user calls it.
//!
//! What `run_jobs` promises is proved where it is. Tried here is what no contract says. Jobs are done if there is memory, by workers
//! that really run side by side. What a job leaves on a shelf is taken by another once, and whole. The promises mean the numbers that a
//! person expects. One fault of several is reported, and every want of memory is answered. If there are many cases they are rows of one
//! text. What a job reports is compared with its program run alone, over a store of the tests' own.
//!
//! `surface` makes each public call once, so it is the module to read first.
//!
//! The store is no test, since the definitions that speak of it are read without the tests too.

#[cfg(test)]
mod alone;
#[cfg(test)]
mod done;
#[cfg(test)]
mod facts;
#[cfg(test)]
mod gates;
#[cfg(test)]
mod jobs;
#[cfg(test)]
mod marks;
#[cfg(test)]
mod memory;
#[cfg(test)]
mod packed;
#[cfg(test)]
mod programs;
#[cfg(test)]
mod rows;
#[cfg(test)]
mod shelves;
mod store;
#[cfg(test)]
mod strays;
#[cfg(test)]
mod surface;
#[cfg(test)]
mod table;
#[cfg(test)]
mod turns;
