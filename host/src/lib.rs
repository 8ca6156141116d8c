//! The host side of the STLED325 panel library: an independent model of its rules,
//! the declarations of the proved archive's ten calls, and the driver that compares the two.

#[cfg(archive)]
pub mod calls;
pub mod driver;
pub mod model;
pub mod panel;
