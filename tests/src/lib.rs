//! The independent program against which the library is tested: a reading of
//! the scope of its own, made files, and the comparison with the library.

pub mod calls;
pub mod driver;
pub mod generate;
pub mod read_off;
pub mod reference;
