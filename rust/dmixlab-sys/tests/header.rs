//! The declarations are those of `include/dmixlab.h`: each call with its types, each struct with
//! its size and its offsets.

use dmixlab_sys::*;
use std::collections::BTreeSet;
use std::fs;
use std::mem::{align_of, offset_of, size_of};
use std::path::Path;
use std::process::Command;

/// The folder of the header, and the header.
const FOLDER: &str = concat!(env!("CARGO_MANIFEST_DIR"), "/../../include");
const HEADER: &str = concat!(env!("CARGO_MANIFEST_DIR"), "/../../include/dmixlab.h");

/// A file's text, without comments and without lines of the preprocessor.
fn code_of(path: &str) -> String {
    let text = fs::read_to_string(path).unwrap_or_else(|why| panic!("{path}: {why}"));
    let mut pieces = text.split("/*");
    let mut code = pieces.next().unwrap_or_default().to_string();
    for piece in pieces {
        code.push_str(piece.split_once("*/").map_or("", |(_, rest)| rest));
    }
    let mut lines = Vec::new();
    let mut goes_on = false;
    for line in code.lines() {
        let is_directive = goes_on || line.starts_with('#');
        goes_on = is_directive && line.ends_with('\\');
        if !is_directive {
            lines.push(line.split("//").next().unwrap_or_default());
        }
    }
    lines.join(" ")
}

/// The text outside all braces, but for those of `extern "C"`.
fn outer_text(code: &str) -> String {
    let mut depth = 0;
    let mut outer = String::new();
    for letter in code.replace("extern \"C\" {", "").chars() {
        match letter {
            '{' => depth += 1,
            '}' => {
                depth -= 1;
                outer.push(';');
            }
            _ if depth == 0 => outer.push(letter),
            _ => {}
        }
    }
    outer
}

/// The Rust type of a C type.
fn rust_type(words: &[&str]) -> String {
    match words {
        ["const", words @ .., "*"] => format!("*const {}", rust_type(words)),
        [words @ .., "*"] => format!("*mut {}", rust_type(words)),
        ["int16_t"] => "i16".into(),
        ["uint32_t"] => "u32".into(),
        ["int64_t" | "dmix_sframes_t"] => "i64".into(),
        ["uint64_t" | "dmix_uframes_t"] => "u64".into(),
        ["size_t"] => "usize".into(),
        [word] => word.to_string(),
        _ => panic!("{words:?} is no type that this test knows"),
    }
}

/// A call as `name(types) -> type`, of a C declaration.
fn call_of_c(declaration: &str) -> Option<String> {
    let declaration = declaration.replace('*', " * ");
    let (head, parameters) = declaration.trim().strip_suffix(')')?.split_once('(')?;
    let head: Vec<&str> = head.split_whitespace().collect();
    let (name, result) = head.split_last()?;
    if ["static", "typedef"].contains(result.first()?) {
        return None;
    }
    let types: Vec<String> = parameters
        .split(',')
        .map(|parameter| parameter.split_whitespace().collect::<Vec<&str>>())
        .map(|words| rust_type(&words[..words.len() - 1]))
        .collect();
    Some(format!(
        "{name}({}) -> {}",
        types.join(", "),
        rust_type(result)
    ))
}

/// A call as `name(types) -> type`, of a Rust declaration.
fn call_of_rust(declaration: &str) -> Option<String> {
    let (_, declaration) = declaration.split_once("pub fn ")?;
    let (name, rest) = declaration.split_once('(')?;
    let (parameters, result) = rest.split_once(") -> ")?;
    let types: Vec<&str> = parameters
        .split(',')
        .filter_map(|parameter| parameter.split_once(": "))
        .map(|(_, kind)| kind.trim())
        .collect();
    Some(format!("{name}({}) -> {}", types.join(", "), result.trim()))
}

#[test]
fn each_call_of_the_header_is_declared_with_its_types() {
    let header = outer_text(&code_of(HEADER));
    let in_c: BTreeSet<String> = header.split(';').filter_map(call_of_c).collect();
    let source = code_of(concat!(env!("CARGO_MANIFEST_DIR"), "/src/lib.rs"));
    let in_rust: BTreeSet<String> = source.split(';').filter_map(call_of_rust).collect();
    assert!(in_c.len() > 20, "{in_c:?}");
    assert_eq!(in_rust, in_c);
}

/// Of each struct its name, its size and alignment, and its fields with their offsets.
macro_rules! layouts {
    ($($name:ident { $($field:ident),* $(,)? })*) => {
        [$((
            stringify!($name),
            [size_of::<$name>(), align_of::<$name>()],
            vec![$((stringify!($field), offset_of!($name, $field))),*],
        )),*]
    };
}

#[test]
fn each_struct_has_the_layout_of_the_header() {
    let layouts = layouts! {
        dmix_ring_t { kind_, held_, channels_ }
        dmix_card_t { kind_, held_, channels_ }
        dmix_client_t { kind_, held_, channels_ }
        dmix_reader_t { kind_, held_, channels_ }
        dmix_ring_params_t { channels, rate, period_size, buffer_size, clients }
        dmix_hw_params_t { channels, rate, period_size, buffer_size }
        dmix_sw_params_t { start_threshold, stop_threshold, avail_min }
        dmix_status_t { state, avail, delay, position }
    };
    let mut asserts = String::from("#include \"dmixlab.h\"\n");
    for (name, [size, align], fields) in layouts {
        asserts += &format!("_Static_assert(sizeof({name}) == {size}, \"{name}\");\n");
        asserts += &format!("_Static_assert(_Alignof({name}) == {align}, \"{name}\");\n");
        for (field, offset) in fields {
            asserts += &format!(
                "_Static_assert(offsetof({name}, {field}) == {offset}, \"{name}.{field}\");\n"
            );
        }
    }
    compile(&asserts);
}

/// Has the C compiler compile a text.
fn compile(text: &str) {
    let folder = Path::new(env!("CARGO_TARGET_TMPDIR"));
    let file = folder.join("layout.c");
    fs::write(&file, text).unwrap();
    let compiler = std::env::var_os("CC").unwrap_or("cc".into());
    let output = Command::new(compiler)
        .args(["-std=c11", "-fsyntax-only", "-I", FOLDER])
        .arg(&file)
        .output()
        .unwrap();
    assert!(
        output.status.success(),
        "{}",
        String::from_utf8_lossy(&output.stderr)
    );
}
