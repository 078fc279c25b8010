//! The Rust passes in two module trees, made by build.rs: unchanged, and with ordered sets.

#[allow(dead_code, unused_imports, clippy::all)]
pub mod unchanged {
    include!(concat!(env!("OUT_DIR"), "/unchanged/tree.rs"));
    pub mod glue {
        include!("glue.rs");
    }
}

#[allow(dead_code, unused_imports, clippy::all)]
pub mod ordered {
    include!(concat!(env!("OUT_DIR"), "/ordered/tree.rs"));
    pub mod glue {
        include!("glue.rs");
    }
}
