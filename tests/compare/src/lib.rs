//! What the proved library is compared with: a separate reader, written from documents 01 and 02 and the HDF5 File Format
//! Specification alone, a generator of files to read, and the declarations of the library itself. A plain walk that checks
//! nothing says which blocks both have to enter, for which object, and which meet. What holds of every damage report is asked
//! of its bytes.

#[cfg(feature = "proved")]
pub mod agree;
pub mod generate;
#[cfg(feature = "proved")]
pub mod library;
pub mod owners;
pub mod plain;
pub mod reader;
pub mod reports;
