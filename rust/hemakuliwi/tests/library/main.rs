//! The types of the library, held to its lent calls, to the rules, to the stored runs of the proved program, and to readers and writers
//! that stop, stammer and fail.

mod ends;
mod faults;
mod made;
mod random;
mod runs;
mod states;
mod streams;
mod values;
