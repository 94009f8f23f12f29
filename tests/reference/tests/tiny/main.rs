//! Tiny rooms, so small that everything document 01 says of them can be counted out: demand 3 over
//! every way of dealing, over changed demands and over the lows, and each split by its definition, that
//! of the headroom (request A.1) too; the breakers that hold cords down (request A.5); huts joined and
//! parted (requests A.8 and A.10); and what is wrong with a given list of grants (request A.9).

mod demands;
mod family;
mod headroom;
mod held;
mod joins;
mod judged;
mod lows;
mod room;
mod splits;
mod ways;
