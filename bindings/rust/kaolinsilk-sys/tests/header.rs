//! The declarations, beside the C header that stands where the library was found. Both are read as
//! text: each call with its types, each struct with its fields, and each number.
use std::collections::BTreeMap;
use std::fs;

const RUST: &str = include_str!("../src/lib.rs");

/// What a name stands for, with Rust's words for types.
type Declared = BTreeMap<String, String>;

#[test]
fn declarations_are_the_headers() {
    let file = env!("KAOLINSILK_HEADER");
    let Ok(header) = fs::read_to_string(file) else {
        println!("there is no {file}");
        return;
    };
    let (c, rust) = (without_comments(&header), without_line_comments(RUST));
    same(calls_of_c(&c), calls_of_rust(&rust));
    same(structs_of_c(&c), structs_of_rust(&rust));
    same(numbers_of_c(&c), numbers_of_rust(&rust));
}

fn same(of_c: Declared, of_rust: Declared) {
    assert!(!of_c.is_empty());
    for (name, declared) in &of_c {
        assert_eq!(of_rust.get(name), Some(declared), "{name}");
    }
    let more: Vec<&String> = of_rust
        .keys()
        .filter(|&it| !of_c.contains_key(it))
        .collect();
    assert!(more.is_empty(), "the header does not have {more:?}");
}

// ---- the header

fn without_comments(text: &str) -> String {
    let parts = text.split("/*");
    parts
        .map(|it| it.split_once("*/").map_or(it, |(_, behind)| behind))
        .collect()
}

fn calls_of_c(text: &str) -> Declared {
    let declared = text.split(';').filter_map(|it| it.trim().split_once('('));
    let calls = declared.filter_map(|(head, parameters)| {
        let (result, name) = head.trim().rsplit_once([' ', '\n'])?;
        let result = match result.rsplit('\n').next()? {
            "void" => String::new(),
            other => format!(" -> {}", base_of_c(other)),
        };
        let parameters: Vec<String> = match parameters.strip_suffix(')')? {
            "void" => Vec::new(),
            all => all.split(',').map(parameter_of_c).collect(),
        };
        Some((
            name.to_owned(),
            format!("({}){result}", parameters.join(", ")),
        ))
    });
    calls.filter(|(name, _)| name.starts_with("ks_")).collect()
}

fn parameter_of_c(text: &str) -> String {
    let (kind, name) = text.trim().rsplit_once([' ', '*']).unwrap();
    let kind = &text.trim()[..kind.len() + 1];
    let (is_const, stars) = (kind.contains("const "), kind.matches('*').count());
    let base = base_of_c(&kind.replace("const ", "").replace('*', ""));
    let pointer = if is_const { "*const " } else { "*mut " };
    format!("{name}: {}{base}", pointer.repeat(stars))
}

fn base_of_c(kind: &str) -> String {
    let kind = kind.trim();
    match kind {
        "uint8_t" => "u8",
        "uint32_t" => "u32",
        "uint64_t" => "u64",
        "size_t" => "usize",
        "char" => "c_char",
        _ => kind.strip_prefix("struct ").unwrap_or(kind),
    }
    .to_owned()
}

fn structs_of_c(text: &str) -> Declared {
    let declared = text.split("struct ").filter_map(|it| it.split_once(" {"));
    let structs = declared.filter(|(name, _)| name.starts_with("ks_") && !name.contains(' '));
    structs
        .map(|(name, rest)| {
            let fields = rest.split('}').next().unwrap().split(';').map(str::trim);
            let fields: Vec<String> = fields.filter(|it| !it.is_empty()).map(field_of_c).collect();
            (name.to_owned(), fields.join(", "))
        })
        .collect()
}

fn field_of_c(text: &str) -> String {
    let (kind, name) = text.rsplit_once(' ').unwrap();
    if let ("void", Some(name)) = (kind, name.strip_prefix('*')) {
        return format!("{name}: *mut c_void");
    }
    if name.starts_with('*') {
        return parameter_of_c(text);
    }
    match name.strip_suffix(']').and_then(|it| it.split_once('[')) {
        None => format!("{name}: {}", base_of_c(kind)),
        Some((name, count)) => format!("{name}: [{}; {count}]", base_of_c(kind)),
    }
}

fn numbers_of_c(text: &str) -> Declared {
    let parts = text.split(['{', '}', ',']).map(str::trim);
    let numbers = parts.filter_map(|it| it.split_once(" = "));
    let defined = text
        .lines()
        .filter_map(|it| it.strip_prefix("#define ")?.split_once(' '));
    let all = numbers.chain(defined);
    all.map(|(name, number)| (name.to_owned(), number.trim().to_owned()))
        .collect()
}

// ---- the declarations

fn without_line_comments(text: &str) -> String {
    let lines = text.lines().map(|it| it.split("//").next().unwrap().trim());
    lines
        .filter(|it| !it.is_empty())
        .collect::<Vec<_>>()
        .join(" ")
}

fn calls_of_rust(text: &str) -> Declared {
    let (_, calls) = text.split_once("unsafe extern \"C\" {").unwrap();
    let calls = calls.split('}').next().unwrap().split(';').map(str::trim);
    let calls = calls.filter_map(|it| it.split_once("fn ")?.1.split_once('('));
    calls
        .map(|(name, rest)| {
            let (parameters, result) = rest.split_once(')').unwrap();
            let parameters = parameters.trim().trim_end_matches(',');
            (name.to_owned(), format!("({parameters}){result}"))
        })
        .collect()
}

fn structs_of_rust(text: &str) -> Declared {
    let declared = text
        .split("pub struct ")
        .filter_map(|it| it.split_once(" { pub "));
    declared
        .map(|(name, rest)| {
            let fields = rest.split('}').next().unwrap().replace("pub ", "");
            (
                name.to_owned(),
                fields.trim().trim_end_matches(',').to_owned(),
            )
        })
        .collect()
}

fn numbers_of_rust(text: &str) -> Declared {
    let numbers = text
        .split("pub const KS_")
        .skip(1)
        .map(|it| it.split(';').next().unwrap());
    numbers
        .map(|it| {
            let (name, number) = it.split_once(": u32 = ").unwrap();
            (format!("KS_{name}"), number.to_owned())
        })
        .collect()
}
