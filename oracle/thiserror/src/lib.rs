//! Stand-in for the crate `thiserror`: the derive macro `Error`, as far as the
//! original `error.rs` needs it.
//!
//! It takes an enum without type parameters whose variants carry nothing or a
//! tuple. Each variant has `#[error("...")]`, where `{0}` is the first carried
//! value; `#[from]` on a single carried value also makes `From` and `source`.
//! Anything else stops the build.

use proc_macro::{Delimiter, Group, TokenStream, TokenTree};

/// One variant, as far as the generated code needs it.
struct Variant {
    name: String,
    /// The format string, quoted as it stands in the source.
    format: String,
    /// The types of the carried values, as source text.
    types: Vec<String>,
    /// Whether the carried value is marked `#[from]`.
    from: bool,
}

#[proc_macro_derive(Error, attributes(error, from))]
pub fn derive_error(input: TokenStream) -> TokenStream {
    let (name, body) = enum_of(input);
    let variants = variants_of(body);

    let mut display = String::new();
    let mut source = String::new();
    let mut from = String::new();
    for variant in &variants {
        let path = format!("{name}::{}", variant.name);
        let fields: Vec<String> = (0..variant.types.len()).map(|i| format!("_{i}")).collect();
        let (pattern, arguments) = if fields.is_empty() {
            (path.clone(), String::new())
        } else {
            let list = fields.join(", ");
            (format!("{path}({list})"), format!(", {list}"))
        };
        display += &format!(
            "{pattern} => ::core::write!(f, {}{arguments}),\n",
            variant.format
        );
        if variant.from {
            source += &format!("{path}(inner) => ::core::option::Option::Some(inner),\n");
            let carried = &variant.types[0];
            from += &format!(
                "impl ::core::convert::From<{carried}> for {name} {{
                    fn from(inner: {carried}) -> Self {{ {path}(inner) }}
                }}\n"
            );
        }
    }

    format!(
        "impl ::core::fmt::Display for {name} {{
            fn fmt(&self, f: &mut ::core::fmt::Formatter<'_>) -> ::core::fmt::Result {{
                match self {{ {display} }}
            }}
        }}
        impl ::std::error::Error for {name} {{
            #[allow(unreachable_patterns)]
            fn source(&self) -> ::core::option::Option<&(dyn ::std::error::Error + 'static)> {{
                match self {{ {source} _ => ::core::option::Option::None }}
            }}
        }}
        {from}"
    )
    .parse()
    .expect("the generated code is Rust")
}

/// The enum's name and the tokens between its braces.
fn enum_of(input: TokenStream) -> (String, TokenStream) {
    let mut tokens = input.into_iter();
    while let Some(token) = tokens.next() {
        let TokenTree::Ident(word) = token else {
            continue;
        };
        if word.to_string() != "enum" {
            continue;
        }
        if let (Some(TokenTree::Ident(name)), Some(TokenTree::Group(body))) =
            (tokens.next(), tokens.next())
        {
            if body.delimiter() == Delimiter::Brace {
                return (name.to_string(), body.stream());
            }
        }
    }
    panic!("this stand-in derives Error for enums without type parameters only");
}

fn variants_of(body: TokenStream) -> Vec<Variant> {
    let mut variants = Vec::new();
    for piece in cut_at_commas(body) {
        let mut name = None;
        let mut format = None;
        let mut types = Vec::new();
        let mut from = false;
        let mut tokens = piece.into_iter();
        while let Some(token) = tokens.next() {
            match token {
                TokenTree::Punct(p) if p.as_char() == '#' => {
                    if let Some((word, inside)) = attribute(tokens.next()) {
                        if word == "error" {
                            format = Some(inside);
                        }
                    }
                }
                TokenTree::Ident(word) => name = Some(word.to_string()),
                TokenTree::Group(group) if group.delimiter() == Delimiter::Parenthesis => {
                    (types, from) = fields_of(group);
                }
                other => panic!("this stand-in does not know {other} in a variant"),
            }
        }
        let name = name.expect("a variant has a name");
        let format = format.unwrap_or_else(|| panic!("variant {name} has no #[error(..)]"));
        assert!(!from || types.len() == 1, "#[from] wants one carried value");
        variants.push(Variant {
            name,
            format,
            types,
            from,
        });
    }
    variants
}

/// The types of a tuple variant and whether one is marked `#[from]`.
fn fields_of(group: Group) -> (Vec<String>, bool) {
    let mut types = Vec::new();
    let mut from = false;
    for piece in cut_at_commas(group.stream()) {
        let mut kept = Vec::new();
        let mut tokens = piece.into_iter();
        while let Some(token) = tokens.next() {
            match token {
                TokenTree::Punct(p) if p.as_char() == '#' => {
                    if let Some((word, _)) = attribute(tokens.next()) {
                        from |= word == "from";
                    }
                }
                other => kept.push(other),
            }
        }
        types.push(kept.into_iter().collect::<TokenStream>().to_string());
    }
    (types, from)
}

/// The word of an attribute `[word(inside)]` and what it holds.
fn attribute(token: Option<TokenTree>) -> Option<(String, String)> {
    let Some(TokenTree::Group(group)) = token else {
        return None;
    };
    let mut tokens = group.stream().into_iter();
    let Some(TokenTree::Ident(word)) = tokens.next() else {
        return None;
    };
    let inside = match tokens.next() {
        Some(TokenTree::Group(inner)) => inner.stream().to_string(),
        _ => String::new(),
    };
    Some((word.to_string(), inside))
}

/// The token lists between the commas, without an empty last one.
fn cut_at_commas(stream: TokenStream) -> Vec<Vec<TokenTree>> {
    let mut pieces = vec![Vec::new()];
    for token in stream {
        match token {
            TokenTree::Punct(ref p) if p.as_char() == ',' => pieces.push(Vec::new()),
            other => pieces.last_mut().expect("never empty").push(other),
        }
    }
    pieces.retain(|piece| !piece.is_empty());
    pieces
}
