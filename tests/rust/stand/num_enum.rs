//! Stand-in for the crate num_enum: TryFrom<u8> for enums whose variants are `Name = number`.

extern crate proc_macro;
use proc_macro::{Delimiter, TokenStream, TokenTree};

#[proc_macro_derive(TryFromPrimitive)]
pub fn try_from_primitive(input: TokenStream) -> TokenStream {
    let (name, inside) = enum_parts(input);
    let arms: String = variants(inside)
        .iter()
        .map(|(variant, number)| format!("{number} => Ok({name}::{variant}),\n"))
        .collect();
    format!(
        "impl core::convert::TryFrom<u8> for {name} {{
            type Error = u8;
            fn try_from(v: u8) -> core::result::Result<Self, u8> {{
                match v {{ {arms} other => Err(other), }}
            }}
        }}"
    )
    .parse()
    .expect("the derive writes Rust")
}

/// The enum's name and the tokens between its braces.
fn enum_parts(input: TokenStream) -> (String, TokenStream) {
    let mut name = String::new();
    let mut after_enum = false;
    for token in input {
        match token {
            TokenTree::Ident(word) if word.to_string() == "enum" => after_enum = true,
            TokenTree::Ident(word) if after_enum && name.is_empty() => name = word.to_string(),
            TokenTree::Group(g) if after_enum && g.delimiter() == Delimiter::Brace => {
                return (name, g.stream());
            }
            _ => {}
        }
    }
    panic!("not an enum");
}

/// Pairs of variant and number; attributes and commas are passed over.
fn variants(inside: TokenStream) -> Vec<(String, String)> {
    let mut found = Vec::new();
    let mut last = String::new();
    for token in inside {
        match token {
            TokenTree::Ident(word) => last = word.to_string(),
            TokenTree::Literal(number) => found.push((last.clone(), number.to_string())),
            _ => {}
        }
    }
    found
}
