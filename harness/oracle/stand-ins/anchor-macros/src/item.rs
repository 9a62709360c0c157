//! What the macros need to know of an item.
use proc_macro::{Delimiter, TokenStream, TokenTree};

/// The identifier after one of the words.
pub fn name_after(item: &TokenStream, words: &[&str]) -> String {
    let mut tokens = item.clone().into_iter();
    while let Some(t) = tokens.next() {
        if matches!(&t, TokenTree::Ident(i) if words.contains(&i.to_string().as_str())) {
            return tokens.next().expect("a name").to_string();
        }
    }
    panic!("none of {words:?} here");
}

/// The name of a struct or enum.
pub fn name(item: &TokenStream) -> String {
    name_after(item, &["struct", "enum"])
}

/// Whether the item is declared with `<..>` after its name.
pub fn is_generic(item: &TokenStream) -> bool {
    let name = name(item);
    let mut tokens = item.clone().into_iter();
    tokens.any(|t| matches!(&t, TokenTree::Ident(i) if i.to_string() == name))
        && matches!(tokens.next(), Some(TokenTree::Punct(p)) if p.as_char() == '<')
}

/// The field names of a braced struct: attributes and `pub` are passed over, a type ends at a comma outside `<..>`.
pub fn field_names(item: &TokenStream) -> Vec<String> {
    let mut names = Vec::new();
    let mut last = String::new();
    let mut in_type = false;
    let mut angle = 0i32;
    for t in body(item) {
        match t {
            TokenTree::Ident(i) if !in_type => last = i.to_string(),
            TokenTree::Punct(p) => match p.as_char() {
                ':' if !in_type => {
                    names.push(last.clone());
                    in_type = true;
                }
                '<' if in_type => angle += 1,
                '>' if in_type => angle -= 1,
                ',' if in_type && angle == 0 => in_type = false,
                _ => {}
            },
            _ => {}
        }
    }
    names
}

fn body(item: &TokenStream) -> TokenStream {
    let braced = |t| match t {
        TokenTree::Group(g) if g.delimiter() == Delimiter::Brace => Some(g.stream()),
        _ => None,
    };
    item.clone().into_iter().find_map(braced).expect("a braced struct")
}
