//! Shim: the derive turns an anyhow error into the enum's case `Unexpected`.
use proc_macro::TokenStream;
use quote::quote;
use syn::{parse_macro_input, DeriveInput};

#[proc_macro_derive(CZSCErrorDerive)]
pub fn derive(input: TokenStream) -> TokenStream {
    let name = parse_macro_input!(input as DeriveInput).ident;
    quote! {
        impl From<anyhow::Error> for #name {
            fn from(error: anyhow::Error) -> Self {
                #name::Unexpected(error)
            }
        }
    }
    .into()
}
