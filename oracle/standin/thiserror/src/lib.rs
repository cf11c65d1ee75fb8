//! Stand-in for `thiserror`: derives `Display` (the debug text), `Error`,
//! and `From` for a variant whose one field is marked `#[from]`.
//!
//! The error texts of the attributes are not made: no answer shows one.

use proc_macro::{Delimiter, TokenStream, TokenTree};

#[proc_macro_derive(Error, attributes(error, from, source))]
pub fn derive_error(input: TokenStream) -> TokenStream {
    let (name, body) = name_and_body(input);
    let mut out = format!(
        "impl ::core::fmt::Display for {name} {{
            fn fmt(&self, f: &mut ::core::fmt::Formatter<'_>) -> ::core::fmt::Result {{
                ::core::write!(f, \"{{self:?}}\")
            }}
        }}
        impl ::core::error::Error for {name} {{}}"
    );
    for (variant, source) in wrapping_variants(body) {
        out.push_str(&format!(
            "impl ::core::convert::From<{source}> for {name} {{
                fn from(source: {source}) -> Self {{ Self::{variant}(source) }}
            }}"
        ));
    }
    out.parse().expect("the derived text is Rust")
}

/// The name after `enum` and the text between its braces.
fn name_and_body(input: TokenStream) -> (String, TokenStream) {
    let mut tokens = input.into_iter();
    let mut name = None;
    while let Some(token) = tokens.next() {
        match token {
            TokenTree::Ident(word) if word.to_string() == "enum" => {
                name = tokens.next().map(|token| token.to_string());
            }
            TokenTree::Group(group) if group.delimiter() == Delimiter::Brace && name.is_some() => {
                return (name.expect("checked"), group.stream());
            }
            _ => {}
        }
    }
    panic!("only enums are derived here");
}

/// Variants of the form `Name(#[from] Type)`.
fn wrapping_variants(body: TokenStream) -> Vec<(String, String)> {
    let mut found = Vec::new();
    let mut variant = String::new();
    for token in body {
        match token {
            TokenTree::Ident(word) => variant = word.to_string(),
            TokenTree::Group(group) if group.delimiter() == Delimiter::Parenthesis => {
                let field: Vec<TokenTree> = group.stream().into_iter().collect();
                if field.len() > 2 && field[1].to_string().replace(' ', "") == "[from]" {
                    let source: TokenStream = field[2..].iter().cloned().collect();
                    found.push((variant.clone(), source.to_string()));
                }
            }
            _ => {}
        }
    }
    found
}
