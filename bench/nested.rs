//! Prints the layout of structs within structs, some 1 MiB of JSON: DEPTH levels of groups of WIDTH members each.
fn group(levels: u32, width: u32, text: &mut String) {
    if levels == 0 {
        text.push_str(r#"{"name":"b","type":"byte"}"#);
        return;
    }
    text.push_str(r#"{"members":["#);
    for i in 0..width {
        if i > 0 {
            text.push(',');
        }
        group(levels - 1, width, text);
    }
    text.push_str(r#"],"type":"struct"}"#);
}

fn main() {
    let mut words = std::env::args().skip(1).map(|word| word.parse().expect("a number"));
    let (levels, width) = (words.next().expect("DEPTH"), words.next().expect("WIDTH"));
    let mut text = String::new();
    group(levels, width, &mut text);
    println!("{text}");
}
