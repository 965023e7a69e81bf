//! Stands in for the crate `debug_stub_derive`, which Debian 12 lacks: `#[derive(DebugStub)]` gives a `Debug` that
//! prints the type's name. The original also prints the fields; nothing that is drawn depends on it.

use proc_macro::{TokenStream, TokenTree};

#[proc_macro_derive(DebugStub)]
pub fn debug_stub(item: TokenStream) -> TokenStream {
    let mut tokens = item.into_iter();
    while let Some(token) = tokens.next() {
        if let TokenTree::Ident(word) = &token
            && word.to_string() == "struct"
        {
            let name = tokens.next().expect("a struct has a name").to_string();
            return format!(
                "impl ::std::fmt::Debug for {name} {{
                    fn fmt(&self, f: &mut ::std::fmt::Formatter<'_>) -> ::std::fmt::Result {{
                        f.write_str({name:?})
                    }}
                }}"
            )
            .parse()
            .expect("the text above is Rust");
        }
    }
    panic!("DebugStub is for structs");
}
