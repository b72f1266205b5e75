//! A second implementation of the boot assist, written from the papers (documents 01 and
//! 02, of the latter E1, the truck's side, and E2, the faulty byte that ends a load; source
//! documents 000, 002 and 003). It is kept apart from the proved code and shares no code
//! with it; it exists so that the two can be handed the same inputs and their answers
//! compared. docs/DECISIONS.md, 23, 56, 67 and 70, says what it was given beside the
//! papers.

#![forbid(unsafe_code)]

pub mod boot;
pub mod capture;
pub mod merging;
pub mod mmu;
pub mod replay;
pub mod sender;
pub mod session;
