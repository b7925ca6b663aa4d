//! The volume's calls, with the arguments and answers of the C interface.

pub mod answer;
pub mod chain;
pub mod check;
pub mod directory;
pub mod kind;
pub mod names;
pub mod open_table;
pub mod patterns;
pub mod stamps;
pub mod table;

mod close;
mod create;
mod delete;
mod entry;
mod find;
mod format;
mod free_space;
mod mode;
mod name_set;
mod open;
mod read;
mod rename;
mod rescue;
mod seek;
mod view;
mod walks;
mod write;

pub use check::{check, check_system};
pub use close::close;
pub use create::create;
pub use delete::delete;
pub use entry::entry;
pub use find::find;
pub use format::format;
pub use free_space::free_space;
pub use mode::mode;
pub use open::open;
pub use read::read;
pub use rename::rename;
pub use rescue::rescue;
pub use seek::seek;
pub use view::{view, view_number};
pub use write::write;

/// The calls that can refuse once more, each with the line that it refuses by.
pub mod outcomes {
    pub use super::close::closed as close;
    pub use super::create::created as create;
    pub use super::delete::deleted as delete;
    pub use super::entry::stored_entry as entry;
    pub use super::find::found as find;
    pub use super::format::formatted as format;
    pub use super::free_space::counted as free_space;
    pub use super::mode::answered_or_set as mode;
    pub use super::open::opened as open;
    pub use super::read::moved as read;
    pub use super::rename::renamed as rename;
    pub use super::rescue::rescued as rescue;
    pub use super::seek::sought as seek;
    pub use super::view::viewed as view;
    pub use super::write::stored as write;
}
