//! Every operation through `replay` against the second program: the answer and every lent
//! byte of every call.

mod chosen;
mod codes;
mod readings;
mod refusals;
mod seeded;
mod settled;
mod sides;
mod sieves;
mod stream;
