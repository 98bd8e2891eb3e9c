//! The second model: written from the scope document and the change requests, apart from the Rattle code and its definitions.

pub mod checks;
pub mod code;
pub mod contexts;
pub mod core;
pub mod depth;
pub mod event;
pub mod execute;
pub mod fields;
pub mod image;
pub mod integer;
pub mod machine;
pub mod memory;
pub mod observer;
pub mod operations;
pub mod pool;
pub mod protection;
pub mod system;
pub mod windows;
