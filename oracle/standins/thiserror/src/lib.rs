//! Stands in for `thiserror`: an error's text is its `Debug`, since document 01 leaves error texts out.

use proc_macro::{TokenStream, TokenTree};

#[proc_macro_derive(Error, attributes(error))]
pub fn error(input: TokenStream) -> TokenStream {
    let mut tokens = input.into_iter();
    let name = loop {
        match tokens.next() {
            Some(TokenTree::Ident(word)) if matches!(word.to_string().as_str(), "enum" | "struct") => {
                break tokens.next().expect("a name").to_string();
            }
            Some(_) => {}
            None => panic!("no enum or struct"),
        }
    };
    format!(
        "impl core::fmt::Display for {name} {{
            fn fmt(&self, f: &mut core::fmt::Formatter<'_>) -> core::fmt::Result {{
                core::fmt::Debug::fmt(self, f)
            }}
        }}
        impl core::error::Error for {name} {{}}"
    )
    .parse()
    .unwrap()
}
