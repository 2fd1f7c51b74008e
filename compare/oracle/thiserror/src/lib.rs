//! In the place of thiserror: derives `Error`, with a `Display` that gives the Debug text.
//!
//! The texts in `#[error("..")]` are not used: the driver compares the values that an error carries, which Debug shows.
use proc_macro::{TokenStream, TokenTree};

/// The name behind the word `struct` or `enum`.
fn name_of(item: TokenStream) -> String {
    let mut words = item.into_iter().filter_map(|token| match token {
        TokenTree::Ident(word) => Some(word.to_string()),
        _ => None,
    });
    words
        .find(|word| word == "struct" || word == "enum")
        .expect("a struct or an enum");
    words.next().expect("a name")
}

#[proc_macro_derive(Error, attributes(error))]
pub fn derive_error(item: TokenStream) -> TokenStream {
    let name = name_of(item);
    format!(
        "impl ::core::fmt::Display for {name} {{
            fn fmt(&self, f: &mut ::core::fmt::Formatter<'_>) -> ::core::fmt::Result {{
                ::core::write!(f, \"{{self:?}}\")
            }}
        }}
        impl ::core::error::Error for {name} {{}}"
    )
    .parse()
    .expect("this text is Rust")
}
