//! Stand-in for the crate `thiserror`: `derive(Error)` gives `Display` and
//! `std::error::Error`. `Display` prints what `Debug` prints; the texts of
//! `#[error(..)]` would be seen in the messages of panics and nowhere else.

use proc_macro::{TokenStream, TokenTree};

#[proc_macro_derive(Error, attributes(error, source, from, backtrace))]
pub fn derive_error(input: TokenStream) -> TokenStream {
    let tokens: Vec<TokenTree> = input.into_iter().collect();
    let key = tokens
        .iter()
        .position(|t| ["enum", "struct"].contains(&t.to_string().as_str()))
        .expect("enum or struct");
    let name = tokens[key + 1].to_string();
    let (declared, names) = parameters(&tokens[key + 2..]);
    format!(
        "impl<{declared}> ::std::fmt::Display for {name}<{names}> {{
             fn fmt(&self, f: &mut ::std::fmt::Formatter<'_>) -> ::std::fmt::Result {{
                 ::std::fmt::Debug::fmt(self, f)
             }}
         }}
         impl<{declared}> ::std::error::Error for {name}<{names}> {{}}"
    )
    .parse()
    .unwrap()
}

/// Of `<N: Bound = Default, ..>`: the parameters without their defaults, and
/// their names alone. Both are empty where there is no `<`.
fn parameters(tokens: &[TokenTree]) -> (String, String) {
    let (mut declared, mut names) = (vec![], vec![]);
    let (mut one, mut in_default) = (vec![], false);
    let mut depth = 0;
    for token in tokens.iter().map(|t| t.to_string()) {
        depth += (token == "<") as i32 - (token == ">") as i32;
        if depth == 1 && token == "<" {
            continue;
        }
        if depth == 0 || depth == 1 && token == "," {
            if let Some(first) = one.first() {
                names.push(String::clone(first));
                declared.push(one.join(" "));
            }
            (one, in_default) = (vec![], false);
        } else {
            in_default |= depth == 1 && token == "=";
            if !in_default {
                one.push(token);
            }
        }
        if depth == 0 {
            break;
        }
    }
    (declared.join(", "), names.join(", "))
}
