//! Stand-in for schemars: luad's files name its derive, and the comparison needs none of what it makes.
use proc_macro::TokenStream;

#[proc_macro_derive(JsonSchema, attributes(schemars))]
pub fn json_schema(_: TokenStream) -> TokenStream {
    TokenStream::new()
}
