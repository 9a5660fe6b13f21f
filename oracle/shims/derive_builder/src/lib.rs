//! Shim: `#[derive(Builder)]` writes NAMEBuilder with one setter a field and `build`, which fails where a
//! field without a default was not set. Setters take `Into` and the builder by value, whatever the
//! attributes say: the ported files build in one chain of calls, where both forms mean the same.
use proc_macro::TokenStream;
use proc_macro2::TokenStream as Tokens;
use quote::{format_ident, quote};
use syn::{parse_macro_input, Attribute, Data, DeriveInput, Expr, Field, Lit, Meta, NestedMeta};

/// The expression of `#[builder(default = "..")]`, if the field has one.
fn default_of(attrs: &[Attribute]) -> Option<Expr> {
    let builder = attrs.iter().filter(|a| a.path.is_ident("builder"));
    for attr in builder {
        let Ok(Meta::List(list)) = attr.parse_meta() else {
            continue;
        };
        for item in list.nested {
            if let NestedMeta::Meta(Meta::NameValue(pair)) = item {
                if let (true, Lit::Str(text)) = (pair.path.is_ident("default"), pair.lit) {
                    return Some(text.parse().expect("an expression in #[builder(default)]"));
                }
            }
        }
    }
    None
}

fn setter(field: &Field) -> Tokens {
    let (name, ty) = (&field.ident, &field.ty);
    quote! {
        pub fn #name(mut self, value: impl Into<#ty>) -> Self {
            self.#name = Some(value.into());
            self
        }
    }
}

fn taken(field: &Field, error: &syn::Ident) -> Tokens {
    let name = &field.ident;
    match default_of(&field.attrs) {
        Some(default) => quote! { #name: self.#name.unwrap_or_else(|| #default) },
        None => quote! { #name: self.#name.ok_or(#error(stringify!(#name)))? },
    }
}

#[proc_macro_derive(Builder, attributes(builder))]
pub fn derive(input: TokenStream) -> TokenStream {
    let input = parse_macro_input!(input as DeriveInput);
    let Data::Struct(data) = &input.data else {
        panic!("Builder wants a struct");
    };
    let (name, builder) = (&input.ident, format_ident!("{}Builder", input.ident));
    let error = format_ident!("{}BuilderError", input.ident);
    let fields: Vec<&Field> = data.fields.iter().collect();
    let names = fields.iter().map(|f| &f.ident);
    let types = fields.iter().map(|f| &f.ty);
    let setters = fields.iter().map(|f| setter(f));
    let values = fields.iter().map(|f| taken(f, &error));
    quote! {
        #[derive(Default)]
        pub struct #builder { #( #names: Option<#types>, )* }

        #[derive(Debug)]
        pub struct #error(&'static str);

        impl std::fmt::Display for #error {
            fn fmt(&self, f: &mut std::fmt::Formatter<'_>) -> std::fmt::Result {
                write!(f, "field {} is not set", self.0)
            }
        }

        impl std::error::Error for #error {}

        impl #builder {
            #( #setters )*

            pub fn build(self) -> Result<#name, #error> {
                Ok(#name { #( #values, )* })
            }
        }
    }
    .into()
}
