//! Stand-in for `serde`: the derive that emits nothing.

use proc_macro::TokenStream;

#[proc_macro_derive(Deserialize, attributes(serde))]
pub fn deserialize(_: TokenStream) -> TokenStream {
    TokenStream::new()
}
