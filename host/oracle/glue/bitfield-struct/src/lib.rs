//! Glue: `#[bitfield(u8, order = Lsb)]` on a struct whose fields are `#[bits(N)] name: u8`. The struct becomes one byte, with
//! the first field in its lowest bits.
use proc_macro::{Delimiter, TokenStream, TokenTree};

/// A field: how many bits it has, and its name.
struct Field {
    bits: u32,
    name: String,
}

/// The fields in their order, from the tokens between the struct's braces.
fn fields(body: TokenStream) -> Vec<Field> {
    let mut found = Vec::new();
    let mut bits = None;
    let mut word = String::new();
    for token in body {
        match token {
            // An attribute's content: only `bits(N)` says something here.
            TokenTree::Group(group) if group.delimiter() == Delimiter::Bracket => {
                let text: String = group.stream().to_string().split_whitespace().collect();
                if let Some(number) = text.strip_prefix("bits(").and_then(|t| t.strip_suffix(')')) {
                    bits = Some(number.parse().expect("bits(N) has a number"));
                }
            }
            // The word before a colon is a field's name.
            TokenTree::Punct(mark) if mark.as_char() == ':' => found.push(Field {
                bits: bits.take().expect("each field says bits(N)"),
                name: word.clone(),
            }),
            TokenTree::Ident(ident) => word = ident.to_string(),
            _ => {}
        }
    }
    found
}

/// The struct as one byte with a reader and a builder for each field.
#[proc_macro_attribute]
pub fn bitfield(how: TokenStream, item: TokenStream) -> TokenStream {
    let how: String = how.to_string().split_whitespace().collect();
    assert_eq!(how, "u8,order=Lsb", "only this form is known here");

    let tokens: Vec<TokenTree> = item.into_iter().collect();
    let place = tokens
        .iter()
        .position(|t| t.to_string() == "struct")
        .expect("a struct");
    let before: TokenStream = tokens[..place].iter().cloned().collect();
    let name = tokens[place + 1].to_string();
    let TokenTree::Group(body) = &tokens[place + 2] else {
        panic!("a struct with named fields");
    };

    let mut methods = String::new();
    let mut from = 0;
    for Field { bits, name } in fields(body.stream()) {
        let most = (1u32 << bits) - 1;
        methods += &format!(
            "const fn {name}(&self) -> u8 {{ self.0 >> {from} & {most} }}
             const fn with_{name}(self, value: u8) -> Self {{
                 assert!(value <= {most});
                 Self(self.0 & !({most}u8 << {from}) | value << {from})
             }}\n"
        );
        from += bits;
    }
    assert_eq!(from, 8, "the fields fill the byte");

    format!(
        "{before} #[derive(Debug, Clone, Copy)] struct {name}(u8);
         #[allow(dead_code)]
         impl {name} {{
             const fn new() -> Self {{ Self(0) }}
             const fn into_bits(self) -> u8 {{ self.0 }}
             {methods}
         }}
         impl From<u8> for {name} {{ fn from(byte: u8) -> Self {{ Self(byte) }} }}"
    )
    .parse()
    .expect("the text above is Rust")
}
