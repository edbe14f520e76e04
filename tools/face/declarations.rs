//! Holds the declarations of the C header and of the Rust crate against what the Rattle source exports: the same functions, and for each the same parameters, by
//! name and type, and the same result.

use std::collections::BTreeMap;
use std::process::exit;

const RATTLE: &str = include_str!("../../crates/image_reach_c/src/lib.rt");
const C: &str = include_str!("../../bindings/c/image_reach.h");
const RUST: &str = include_str!("../../bindings/rust/src/lib.rs");

/// A function's parameters and result, each as a name and a Rust type. The result has no name, and neither has a slice's length.
type Signature = Vec<(String, String)>;

/// From each place where `before` stands in front of a name and a parenthesis: the name, what is in the parentheses, and what follows up to `;`, `{` or a line's end.
fn declared<'a>(source: &'a str, before: &str) -> Vec<(&'a str, &'a str, &'a str)> {
    source
        .match_indices(before)
        .filter_map(|(at, _)| {
            let (name, rest) = source[at + before.len()..].split_once('(')?;
            let (parameters, rest) = rest.split_once(')')?;
            Some((name, parameters, rest.split([';', '{', '\n']).next()?))
        })
        .collect()
}

fn parts(parameters: &str) -> impl Iterator<Item = &str> {
    parameters.split(',').map(str::trim).filter(|p| !p.is_empty())
}

/// The result of a Rust or Rattle declaration.
fn result(after: &str) -> (String, String) {
    (String::new(), after.trim().strip_prefix("-> ").unwrap_or("()").to_string())
}

fn in_rattle() -> BTreeMap<String, Signature> {
    let mut all = BTreeMap::new();
    for (name, parameters, after) in declared(RATTLE, "pub extern \"C\" fn ") {
        let mut signature = vec![result(after)];
        for parameter in parts(parameters) {
            let (name, kind) = parameter.split_once(": ").unwrap();
            let (pointer, behind) = match kind.strip_prefix("&mut ") {
                Some(behind) => ("*mut ", behind),
                None => kind.strip_prefix('&').map_or(("", kind), |behind| ("*const ", behind)),
            };
            match behind.strip_prefix('[').and_then(|s| s.strip_suffix(']')) {
                Some(element) if !element.contains(';') => {
                    signature.push((name.to_string(), format!("{pointer}{element}")));
                    signature.push((String::new(), "usize".to_string()));
                }
                _ => signature.push((name.to_string(), format!("{pointer}{behind}"))),
            }
        }
        all.insert(name.to_string(), signature);
    }
    all
}

fn in_rust() -> BTreeMap<String, Signature> {
    let mut all = BTreeMap::new();
    for (name, parameters, after) in declared(RUST, "        pub fn image_reach") {
        let mut signature = vec![result(after)];
        for parameter in parts(parameters) {
            let (name, kind) = parameter.split_once(": ").unwrap();
            signature.push((name.to_string(), kind.replace("&mut ", "*mut ")));
        }
        all.insert(format!("image_reach{name}"), signature);
    }
    all
}

fn in_c() -> BTreeMap<String, Signature> {
    let rust_type = |c: &str| match c {
        "void" => "()",
        "uint8_t" => "u8",
        "uint16_t" => "u16",
        "uint32_t" => "u32",
        "uint64_t" => "u64",
        "size_t" => "usize",
        other => panic!("the header's type {other}"),
    };
    let mut all = BTreeMap::new();
    for kind in ["uint32_t", "void"] {
        for (name, parameters, _) in declared(C, &format!("\n{kind} image_reach")) {
            let mut signature = vec![(String::new(), rust_type(kind).to_string())];
            for parameter in parts(parameters) {
                let constant = parameter.strip_prefix("const ");
                let (kind, name) = constant.unwrap_or(parameter).split_once(' ').unwrap();
                let pointer = if constant.is_some() { "*const" } else { "*mut" };
                let kind = rust_type(kind);
                signature.push(match (name.strip_prefix('*'), name.split_once('[')) {
                    (Some(name), _) => (name.to_string(), format!("{pointer} {kind}")),
                    (None, Some((name, length))) => (name.to_string(), format!("{pointer} [{kind}; {}", length)),
                    (None, None) => (name.to_string(), kind.to_string()),
                });
            }
            all.insert(format!("image_reach{name}"), signature);
        }
    }
    all
}

/// The same but for the names of lengths, of which the Rattle source has none.
fn agree(rattle: &Signature, other: &Signature) -> bool {
    rattle.len() == other.len() && rattle.iter().zip(other).all(|(r, o)| r.1 == o.1 && (r.0.is_empty() || r.0 == o.0))
}

fn main() {
    let rattle = in_rattle();
    for (language, others) in [("C", in_c()), ("Rust", in_rust())] {
        if !rattle.keys().eq(others.keys()) {
            println!("Rattle exports {:?}\n{language} declares {:?}", rattle.keys(), others.keys());
            exit(1);
        }
        for (name, signature) in &rattle {
            if !agree(signature, &others[name]) {
                println!("{name}\n  Rattle {signature:?}\n  {language} {:?}", others[name]);
                exit(1);
            }
        }
    }
    println!("{} functions are declared alike in Rattle, C and Rust", rattle.len());
}
