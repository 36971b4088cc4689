//! Writes in Rust what `j1939.h` declares, and links libj1939.a: of the folder that J1939_LIB_DIR names, or the one that is
//! installed. The header is read as it is written: an item, or a comment and an item, between two empty lines.
use std::env;
use std::fs;
use std::path::Path;

/// Where the header may be, from this file's folder: beside it, or where the project has it.
const HEADERS: [&str; 2] = ["j1939.h", "../../c/j1939.h"];

fn main() {
    println!("cargo:rerun-if-env-changed=J1939_LIB_DIR");
    if let Ok(folder) = env::var("J1939_LIB_DIR") {
        println!("cargo:rustc-link-search=native={folder}");
    }
    println!("cargo:rustc-link-lib=static=j1939");
    let path = HEADERS.into_iter().find(|path| Path::new(path).exists());
    let path = path.expect("j1939.h beside this file, or in the project");
    println!("cargo:rerun-if-changed={path}");
    let header = fs::read_to_string(path).expect("the header can be read");
    let made = Path::new(&env::var("OUT_DIR").expect("cargo's folder")).join("j1939.rs");
    fs::write(made, header.split("\n\n").map(item).collect::<String>())
        .expect("cargo's folder takes a file");
}

/// An item in Rust with its comment; nothing for what isn't one.
fn item(block: &str) -> String {
    let (comment, item) = match block.split_once("*/\n") {
        Some((comment, item)) if comment.starts_with("/**") => (documented(comment), item),
        _ => (String::new(), block),
    };
    let made = if let Some(body) = item.strip_prefix("typedef struct {") {
        structure(body).map(|made| comment + &made)
    } else if item.starts_with("enum ") {
        constants(item)
    } else if let Some((result @ ("int32_t" | "size_t"), call)) = item.split_once(' ') {
        declaration(call, rust(result)).map(|made| format!("extern \"C\" {{\n{comment}{made}}}\n"))
    } else if let Some(number) = item.strip_prefix("#define J1939_LONGEST ") {
        Some(format!(
            "{comment}pub const J1939_LONGEST: usize = {number};\n"
        ))
    } else if let Some(version) = item.strip_prefix("#define J1939_VERSION ") {
        Some(format!(
            "{comment}pub const J1939_VERSION: &str = {version};\n"
        ))
    } else {
        Some(String::new())
    };
    made.unwrap_or_else(|| panic!("j1939.h has what is not read: {item}"))
}

/// A struct, whose handles alone aren't copied.
fn structure(body: &str) -> Option<String> {
    let (fields, name) = body.split_once('}')?;
    let mut made = String::new();
    for (field, comment) in parts(fields, ';') {
        let field = field.strip_prefix("J1939_ALIGNED ").unwrap_or(&field);
        if field.contains('*') {
            made += &format!("{}pub {},\n", documented(&comment), word(field)?);
            continue;
        }
        let (kind, names) = field.split_once(' ')?;
        for name in names.split(", ") {
            let (name, of) = match name.split_once('[') {
                Some((name, length)) => (name, format!("[{}; {}", rust(kind), length)),
                None => (name, rust(kind).to_owned()),
            };
            made += &format!("{}pub {name}: {of},\n", documented(&comment));
        }
    }
    let copied = if body.contains("handle") {
        ""
    } else {
        "Clone, Copy, "
    };
    let aligned = if fields.contains("J1939_ALIGNED") {
        ", align(8)"
    } else {
        ""
    };
    let name = name.trim().strip_suffix(';')?;
    Some(format!(
        "#[derive({copied}Debug)]\n#[repr(C{aligned})]\npub struct {name} {{\n{made}}}\n"
    ))
}

/// The values of an enum, each a number as a call answers it.
fn constants(item: &str) -> Option<String> {
    let (_, values) = item.strip_suffix("};")?.split_once('{')?;
    let mut made = String::new();
    for (value, comment) in parts(values, ',') {
        let (name, number) = value.split_once(" = ")?;
        made += &format!(
            "{}pub const {name}: i32 = {number};\n",
            documented(&comment)
        );
    }
    Some(made)
}

/// A call.
fn declaration(call: &str, result: &str) -> Option<String> {
    let (name, words) = call
        .strip_suffix(");")
        .or(call.strip_suffix(");\n"))?
        .split_once('(')?;
    let words: Option<Vec<String>> = words
        .split(',')
        .filter(|words| *words != "void")
        .map(word)
        .collect();
    Some(format!(
        "pub fn {name}({}) -> {result};\n",
        words?.join(", ")
    ))
}

/// A word that a call takes, or a pointer in a struct: `const uint8_t *payload`, or `uint8_t changed[2]`.
fn word(text: &str) -> Option<String> {
    let (kind, name) = text.trim().rsplit_once(' ')?;
    let (is_const, kind) = match kind.strip_prefix("const ") {
        Some(kind) => (true, kind),
        None => (false, kind),
    };
    let is_pointer = name.starts_with('*') || name.contains('[');
    let pointer = match (is_pointer, is_const) {
        (true, true) => "*const ",
        (true, false) => "*mut ",
        (false, _) => "",
    };
    let name = name.trim_start_matches('*').split('[').next()?;
    Some(format!("{name}: {pointer}{}", rust(kind)))
}

/// What stands between two ends, each with the comment behind it.
fn parts(body: &str, end: char) -> Vec<(String, String)> {
    let (mut parts, mut rest) = (Vec::new(), body.trim());
    while !rest.is_empty() {
        let at = rest.find([end, '/']).unwrap_or(rest.len());
        let (part, behind) = rest.split_at(at);
        let behind = behind.trim_start_matches(end).trim_start();
        let (comment, behind) = match behind
            .strip_prefix("/**<")
            .and_then(|text| text.split_once("*/"))
        {
            Some(found) => found,
            None => ("", behind),
        };
        parts.push((part.trim().to_owned(), comment.trim().to_owned()));
        rest = behind.trim_start();
    }
    parts
}

/// A comment's lines.
fn documented(comment: &str) -> String {
    let comment = comment.trim_start_matches("/**").trim();
    let lines = comment
        .lines()
        .map(|line| line.trim().trim_start_matches('*').trim());
    lines.map(|line| format!("/// {line}\n")).collect()
}

/// A type's name in Rust.
fn rust(kind: &str) -> &str {
    match kind {
        "uint64_t" => "u64",
        "int64_t" => "i64",
        "uint32_t" => "u32",
        "uint16_t" => "u16",
        "uint8_t" => "u8",
        "size_t" => "usize",
        "int32_t" => "i32",
        "void" => "c_void",
        "char" => "c_char",
        other => other,
    }
}
