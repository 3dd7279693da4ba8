//! What a trial of one implementation beside another needs, apart from any of them: answers, the state of a
//! board, the domain in which the two must agree, random calls, and the search for a short tape that shows a
//! difference.

pub mod answer;
pub mod domain;
pub mod generate;
pub mod minimise;
pub mod state;
