//! Stands for serde: the crate's `ast/mod.rs` derives `serde::Serialize` and `serde::Deserialize` for two types.
//! Printing does not use them, so both derives emit nothing.

use proc_macro::TokenStream;

#[proc_macro_derive(Serialize)]
pub fn serialize(_: TokenStream) -> TokenStream {
    TokenStream::new()
}

#[proc_macro_derive(Deserialize)]
pub fn deserialize(_: TokenStream) -> TokenStream {
    TokenStream::new()
}
