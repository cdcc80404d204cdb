//! Stands in for the crate `const_fn` (here `dep_const_fn`): makes the function below it `const`.
//!
//! The condition is not read: all that x86_64 asks is that memory_encryption is off, and it is.

use proc_macro::{Ident, Span, TokenStream, TokenTree};

#[proc_macro_attribute]
pub fn const_fn(_condition: TokenStream, function: TokenStream) -> TokenStream {
    with_const(function)
}

/// Writes `const` before `unsafe fn` or `fn`, unless it is there.
fn with_const(function: TokenStream) -> TokenStream {
    let mut written = false;
    let mut output = TokenStream::new();
    for token in function {
        let word = token.to_string();
        if !written && matches!(word.as_str(), "const" | "unsafe" | "fn") {
            if word != "const" {
                let word = Ident::new("const", Span::call_site());
                output.extend([TokenTree::Ident(word)]);
            }
            written = true;
        }
        output.extend([token]);
    }
    output
}
