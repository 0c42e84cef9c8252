//! Stand-ins for the derive macros of `serde` and `variant_count`, which file_format.rs names. The two passes use
//! nothing of what the real ones derive, so these derive nothing.
use proc_macro::TokenStream;

#[proc_macro_derive(Serialize)]
pub fn serialize(_: TokenStream) -> TokenStream {
    TokenStream::new()
}

#[proc_macro_derive(Deserialize)]
pub fn deserialize(_: TokenStream) -> TokenStream {
    TokenStream::new()
}

#[proc_macro_derive(VariantCount)]
pub fn variant_count(_: TokenStream) -> TokenStream {
    TokenStream::new()
}
