//! Stands in for the crate `rustversion`: `attr(since(1.61), X)` gives the function below it X.
//!
//! The condition is not read: this rustc is newer than 1.61. X is `const` or another attribute.

use proc_macro::{Delimiter, Group, Ident, Punct, Spacing, Span, TokenStream, TokenTree};

#[proc_macro_attribute]
pub fn attr(arguments: TokenStream, function: TokenStream) -> TokenStream {
    let given = after_comma(arguments);
    if given.to_string() == "const" {
        with_const(function)
    } else {
        with_attribute(given, function)
    }
}

/// What stands after the first comma, that is, after the condition.
fn after_comma(arguments: TokenStream) -> TokenStream {
    arguments
        .into_iter()
        .skip_while(|token| token.to_string() != ",")
        .skip(1)
        .collect()
}

/// Writes `#[attribute]` before the function.
fn with_attribute(attribute: TokenStream, function: TokenStream) -> TokenStream {
    let mut output = TokenStream::from_iter([
        TokenTree::Punct(Punct::new('#', Spacing::Alone)),
        TokenTree::Group(Group::new(Delimiter::Bracket, attribute)),
    ]);
    output.extend(function);
    output
}

/// Writes `const` before `unsafe fn` or `fn`.
fn with_const(function: TokenStream) -> TokenStream {
    let mut written = false;
    let mut output = TokenStream::new();
    for token in function {
        if !written && matches!(token.to_string().as_str(), "unsafe" | "fn") {
            let word = Ident::new("const", Span::call_site());
            output.extend([TokenTree::Ident(word)]);
            written = true;
        }
        output.extend([token]);
    }
    output
}
