//! The C header's prototypes against the exported calls: each is what the call's signature is in C.

use std::collections::BTreeMap;

/// The text with comments left out and each stretch of white space as one blank.
fn plain(text: &str) -> String {
    let mut code = String::new();
    let mut rest = text;
    while let Some((before, comment)) = rest.split_once("/*") {
        code += before;
        rest = comment.split_once("*/").expect("a comment that ends").1;
    }
    (code + rest).split_whitespace().collect::<Vec<_>>().join(" ")
}

/// A parameter as the kit hands it over: a slice is a pointer and then its length.
fn parameter(declared: &str) -> String {
    let (name, kind) =
        declared.split_once(": ").unwrap_or_else(|| panic!("a parameter with a type: {declared}"));
    match kind {
        "&mut [u8]" => format!("uint8_t *{name}, size_t {name}_len"),
        "&[u8]" => format!("const uint8_t *{name}, size_t {name}_len"),
        "u16" => format!("uint16_t {name}"),
        "u32" => format!("uint32_t {name}"),
        _ => panic!("no type of C is known for {kind}"),
    }
}

/// The prototype that the exported calls of a Rattle source have in C, each by its name.
fn exported(source: &str) -> BTreeMap<String, String> {
    let mut calls = BTreeMap::new();
    for signature in source.split("pub extern \"C\" fn ").skip(1) {
        let (name, rest) = signature.split_once('(').expect("parameters");
        let (parameters, rest) = rest.split_once(')').expect("the parameters' end");
        assert!(rest.starts_with(" -> u32\n"), "{name} returns no u32");
        let parameters: Vec<String> = parameters.split(", ").map(parameter).collect();
        calls.insert(name.to_string(), format!("uint32_t {name}({});", parameters.join(", ")));
    }
    calls
}

/// The prototypes of a header, each by its name.
fn declared(header: &str) -> BTreeMap<String, String> {
    let mut calls = BTreeMap::new();
    for prototype in plain(header).split("uint32_t stled325_").skip(1) {
        let (prototype, _) = prototype.split_once(';').expect("a prototype's end");
        let name = prototype.split('(').next().unwrap();
        calls.insert(format!("stled325_{name}"), format!("uint32_t stled325_{prototype};"));
    }
    calls
}

#[test]
fn a_prototype_that_differs_is_noticed() {
    let source = "pub extern \"C\" fn stled325_x(image: &mut [u8], n: u16) -> u32\n";
    let right = "/* x */\nuint32_t stled325_x(uint8_t *image,\n    size_t image_len, uint16_t n);\n";
    assert_eq!(exported(source), declared(right));
    for wrong in ["const uint8_t *image", "uint8_t image", "uint8_t *picture"] {
        assert_ne!(exported(source), declared(&right.replace("uint8_t *image", wrong)), "{wrong}");
    }
    assert_ne!(exported(source), declared(&right.replace("uint16_t n", "uint32_t n")));
}

/// What stands from each public function's name up to its body: parameters, result and promise.
fn promised(source: &str) -> BTreeMap<&str, &str> {
    let heads = source.split("\npub ").skip(1).filter_map(|item| item.split_once("fn "));
    heads.filter_map(|(_, rest)| rest.split_once("\n{")?.0.split_once('(')).collect()
}

/// The library's source, whose calls answer by a `Result`, as that of calls which return the answer's number.
fn numbered(source: &str) -> String {
    source.replace("-> Result<(), Refusal>", "-> u32").replace("(number_of result)", "result")
}

#[test]
fn each_export_promises_what_the_call_of_its_name_promises() {
    let answer =
        "\npub fn x(n: u16) -> Result<(), Refusal>\n    ensures { (number_of result) ≡ n }\n{\n    n\n}\n";
    let call = &numbered(answer);
    let export = call.replace("pub fn", "pub extern \"C\" fn");
    assert_ne!(promised(answer), promised(&export));
    assert_eq!(promised(call), promised(&export));
    for wrong in [export.replace("≡ n", "≡ 0"), export.replace("u16", "u32"), export.replace("fn x", "fn y")]
    {
        assert_ne!(promised(call), promised(&wrong), "{wrong}");
    }
    let library = include_str!("../../crates/stled325/src/lib.rt");
    assert_eq!(library.matches("(number_of result)").count(), 10);
    let numbers = numbered(library);
    let calls = promised(&numbers);
    assert_eq!(calls.len(), 10);
    assert_eq!(calls, promised(include_str!("../../crates/stled325_c/src/lib.rt")));
}

#[test]
fn the_header_declares_the_exported_calls() {
    let calls = exported(include_str!("../../crates/stled325_c/src/lib.rt"));
    assert_eq!(calls.len(), 10);
    assert_eq!(calls, declared(include_str!("../../include/stled325.h")));
}
