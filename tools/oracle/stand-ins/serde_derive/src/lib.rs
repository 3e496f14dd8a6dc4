//! The two derives of the stand-in for serde. They need the type's name alone: no type of the originals is generic.

use proc_macro::{TokenStream, TokenTree};

/// The name behind `struct` or `enum`.
fn name_of(item: TokenStream) -> String {
    let mut named = false;
    for token in item {
        if let TokenTree::Ident(word) = token {
            let word = word.to_string();
            if named {
                return word;
            }
            named = word == "struct" || word == "enum";
        }
    }
    panic!("a derive stands over a struct or an enum")
}

#[proc_macro_derive(Serialize, attributes(serde))]
pub fn serialize(item: TokenStream) -> TokenStream {
    format!("impl serde::Serialize for {} {{}}", name_of(item)).parse().expect("an impl")
}

#[proc_macro_derive(Deserialize, attributes(serde))]
pub fn deserialize(item: TokenStream) -> TokenStream {
    format!(
        "impl<'de> serde::Deserialize<'de> for {} {{
            fn deserialize<D: serde::Deserializer<'de>>(_: D) -> Result<Self, D::Error> {{
                unimplemented!(\"nothing is deserialized here\")
            }}
        }}",
        name_of(item)
    )
    .parse()
    .expect("an impl")
}
