//! Stub of thiserror's derive: Display from #[error("..")] with {0}, {1}, {name}; empty std Error impl.
use proc_macro::{Delimiter, TokenStream, TokenTree};

#[proc_macro_derive(Error, attributes(error))]
pub fn derive(input: TokenStream) -> TokenStream {
    let mut it = input.into_iter();
    let mut name = String::new();
    let mut body = None;
    while let Some(t) = it.next() {
        match t {
            TokenTree::Ident(i) if i.to_string() == "enum" => name = it.next().unwrap().to_string(),
            TokenTree::Group(g) if g.delimiter() == Delimiter::Brace => body = Some(g.stream()),
            _ => {}
        }
    }
    let toks: Vec<TokenTree> = body.expect("an enum").into_iter().collect();
    let mut arms = String::new();
    let mut i = 0;
    let mut msg = String::from("\"\"");
    while i < toks.len() {
        match &toks[i] {
            TokenTree::Punct(p) if p.as_char() == '#' => {
                if let TokenTree::Group(g) = &toks[i + 1] {
                    let v: Vec<TokenTree> = g.stream().into_iter().collect();
                    if v[0].to_string() == "error" {
                        if let TokenTree::Group(a) = &v[1] {
                            msg = a.stream().to_string();
                        }
                    }
                }
                i += 2;
            }
            TokenTree::Ident(v) => {
                let mut pat = format!("{name}::{v}");
                i += 1;
                if let Some(TokenTree::Group(g)) = toks.get(i) {
                    let inner: Vec<TokenTree> = g.stream().into_iter().collect();
                    if g.delimiter() == Delimiter::Parenthesis {
                        let n = 1 + inner.iter().filter(|t| t.to_string() == ",").count();
                        let names: Vec<String> = (0..n).map(|k| format!("f{k}")).collect();
                        pat += &format!("({})", names.join(","));
                        for k in 0..n {
                            msg = msg.replace(&format!("{{{k}}}"), &format!("{{f{k}}}"));
                        }
                    } else {
                        let mut names = vec![];
                        for w in inner.windows(2) {
                            if let (TokenTree::Ident(a), TokenTree::Punct(p)) = (&w[0], &w[1]) {
                                if p.as_char() == ':' {
                                    names.push(a.to_string());
                                }
                            }
                        }
                        pat += &format!("{{{}}}", names.join(","));
                    }
                    i += 1;
                }
                arms += &format!("{pat} => ::core::write!(f, {msg}),");
                i += 1; // ','
            }
            _ => i += 1,
        }
    }
    format!(
        "impl ::core::fmt::Display for {name} {{ fn fmt(&self, f: &mut ::core::fmt::Formatter<'_>) -> ::core::fmt::Result {{ match self {{ {arms} }} }} }} impl ::core::error::Error for {name} {{}}"
    )
    .parse()
    .unwrap()
}
