//! Random input for the tests by running: generators of good, extreme and damaged rooms, of rooms to
//! join and to part and of figures of the DC cap loop, the C calls between guard pages, and a shrinker
//! of cases that show a difference.

pub mod arguments;
pub mod buffers;
pub mod calls;
pub mod cases;
pub mod damage;
pub mod dice;
pub mod figures;
pub mod guard;
pub mod joins;
pub mod rooms;
pub mod shrink;
pub mod steps;
