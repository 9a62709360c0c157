//! The least of Anchor's macros that lets the published source compile. None of them checks accounts or (de)serializes.
extern crate proc_macro;
mod item;

use proc_macro::TokenStream;

fn rust(s: String) -> TokenStream {
    s.parse().expect("generated Rust")
}

fn before(text: &str, item: TokenStream) -> TokenStream {
    let mut out = rust(text.to_string());
    out.extend(item);
    out
}

/// `#[program]`: the module unchanged, and a module `program` with the type that `Program<'info, ..>` names. The file that the build
/// names in REACH is included here: in the published file's own module, where its private functions can be seen.
#[proc_macro_attribute]
pub fn program(_args: TokenStream, module: TokenStream) -> TokenStream {
    let name = item::name_after(&module, &["mod"]);
    let camel: String = name.split('_').map(|w| w[..1].to_uppercase() + &w[1..]).collect();
    let mut out = module;
    out.extend(rust(format!("pub mod program {{ #[derive(Clone)] pub struct {camel}; }}")));
    if let Ok(reach) = std::env::var("REACH") {
        out.extend(rust(format!("include!({reach:?});")));
    }
    out
}

/// `#[account]` on a state struct: `Clone`, as Anchor derives it.
#[proc_macro_attribute]
pub fn account(_args: TokenStream, item: TokenStream) -> TokenStream {
    before("#[derive(Clone)]", item)
}

/// `#[event]`: `emit!` needs nothing of it.
#[proc_macro_attribute]
pub fn event(_args: TokenStream, item: TokenStream) -> TokenStream {
    before("#[derive(Debug, Clone)]", item)
}

/// Takes the `#[msg(..)]` that is left to it as a derive helper.
#[proc_macro_derive(ErrorMessages, attributes(msg))]
pub fn error_messages(_item: TokenStream) -> TokenStream {
    TokenStream::new()
}

/// `#[error_code]`: 6000 plus the place of the variant, as Anchor numbers it.
#[proc_macro_attribute]
pub fn error_code(_args: TokenStream, item: TokenStream) -> TokenStream {
    let name = item::name(&item);
    let derived = "#[derive(Debug, Clone, Copy, PartialEq, Eq, anchor_lang::ErrorMessages)] #[repr(u32)]";
    let mut out = before(derived, item);
    out.extend(rust(format!(
        "impl From<{name}> for anchor_lang::error::Error {{
            fn from(e: {name}) -> Self {{ anchor_lang::error::Error {{ code: 6000 + e as u32 }} }}
        }}"
    )));
    out
}

/// `#[derive(Accounts)]`: only the bumps, one byte for each field.
#[proc_macro_derive(Accounts, attributes(account, instruction))]
pub fn accounts(item: TokenStream) -> TokenStream {
    let name = item::name(&item);
    let life = if item::is_generic(&item) { "<'info>" } else { "" };
    let fields: String = item::field_names(&item).iter().map(|f| format!("pub {f}: u8, ")).collect();
    rust(format!(
        "#[derive(Clone, Copy, Default)] pub struct {name}Bumps {{ {fields} }}
         impl{life} anchor_lang::Bumps for {name}{life} {{ type Bumps = {name}Bumps; }}"
    ))
}

/// `#[derive(InitSpace)]`: a size that nobody asks here.
#[proc_macro_derive(InitSpace, attributes(max_len))]
pub fn init_space(item: TokenStream) -> TokenStream {
    let name = item::name(&item);
    rust(format!("impl anchor_lang::Space for {name} {{ const INIT_SPACE: usize = 0; }}"))
}

#[proc_macro_derive(AnchorSerialize)]
pub fn anchor_serialize(_item: TokenStream) -> TokenStream {
    TokenStream::new()
}

#[proc_macro_derive(AnchorDeserialize)]
pub fn anchor_deserialize(_item: TokenStream) -> TokenStream {
    TokenStream::new()
}
