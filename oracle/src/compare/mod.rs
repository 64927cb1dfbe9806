//! The crate's text held against the port, with a model of the listed differences between them.
pub mod corpus;
pub mod frames;
pub mod given;
pub mod hold;
pub mod model;
pub mod model_write;
pub mod pieces;
pub mod port;
pub mod shape;
pub mod text;
pub mod tidy;
