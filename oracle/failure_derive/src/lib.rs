//! STAND-IN for the registry's `failure_derive`: derives `Fail` and `Display` for an enum whose cases are bare or have
//! named fields and carry `#[fail(display = "..", field, ..)]`. That is all error.rs needs.

use proc_macro::{Delimiter, Group, Spacing, TokenStream, TokenTree};

/// One case of the enum: its name, its fields, and the arguments of `write!` that its attribute gives.
#[derive(Default)]
struct Case {
    name: String,
    fields: Vec<String>,
    display: Option<String>,
}

#[proc_macro_derive(Fail, attributes(fail))]
pub fn derive_fail(item: TokenStream) -> TokenStream {
    let mut tokens = item.into_iter().skip_while(|t| t.to_string() != "enum").skip(1);
    let name = tokens.next().expect("the enum's name").to_string();
    let body = tokens.find_map(braces).expect("the enum's cases");
    let arms: String = cases(&body).iter().map(arm).collect();
    let code = format!(
        "impl ::failure::Fail for {name} {{}}
         impl ::std::fmt::Display for {name} {{
             #[allow(unused_variables)]
             fn fmt(&self, f: &mut ::std::fmt::Formatter) -> ::std::fmt::Result {{
                 match self {{ {arms} }}
             }}
         }}"
    );
    code.parse().expect("the derived code")
}

fn braces(token: TokenTree) -> Option<Group> {
    match token {
        TokenTree::Group(g) if g.delimiter() == Delimiter::Brace => Some(g),
        _ => None,
    }
}

fn arm(case: &Case) -> String {
    let display = case.display.as_ref().unwrap_or_else(|| panic!("{} has no #[fail(display = ..)]", case.name));
    format!("Self::{} {{ {} }} => write!(f, {}),", case.name, case.fields.join(", "), display)
}

fn cases(body: &Group) -> Vec<Case> {
    let mut all = vec![];
    let mut case = Case::default();
    for token in body.stream() {
        match token {
            TokenTree::Group(g) if g.delimiter() == Delimiter::Bracket => case.display = display(&g).or(case.display),
            TokenTree::Group(g) if g.delimiter() == Delimiter::Brace => case.fields = fields(&g),
            TokenTree::Group(_) => panic!("a case without field names is not provided for"),
            TokenTree::Ident(i) => case.name = i.to_string(),
            TokenTree::Punct(p) if p.as_char() == ',' => all.push(std::mem::take(&mut case)),
            _ => {}
        }
    }
    if !case.name.is_empty() {
        all.push(case);
    }
    all
}

/// What follows `display =` in an attribute `[fail(display = ..)]`; none for any other attribute.
fn display(attribute: &Group) -> Option<String> {
    let mut tokens = attribute.stream().into_iter();
    if tokens.next()?.to_string() != "fail" {
        return None;
    }
    match tokens.next()? {
        TokenTree::Group(g) => Some(g.stream().into_iter().skip(2).collect::<TokenStream>().to_string()),
        _ => None,
    }
}

/// The names before a single colon; the colons of a path are joint.
fn fields(group: &Group) -> Vec<String> {
    let tokens: Vec<TokenTree> = group.stream().into_iter().collect();
    let colon = |t: &TokenTree| matches!(t, TokenTree::Punct(p) if p.as_char() == ':' && p.spacing() == Spacing::Alone);
    let named = |w: &[TokenTree]| matches!(w[0], TokenTree::Ident(_)) && colon(&w[1]);
    tokens.windows(2).filter(|w| named(w)).map(|w| w[0].to_string()).collect()
}
