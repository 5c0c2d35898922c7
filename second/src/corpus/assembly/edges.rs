//! Document 02's edges of the assembler: for each refusal texts that just get it, beside texts that
//! just don't.

use std::fmt::Write;

use super::AssemblyCase;

/// What a byte of an edge's image holds before the call.
const UNTOUCHED: u8 = 0xa5;

/// A case, and the answer that document 02 gives it.
#[derive(Clone, Debug)]
pub struct AssemblyEdge {
    pub case: AssemblyCase,
    /// 0, or the refusal's number.
    pub reply: u32,
    /// The number of lines, or the line that is refused.
    pub line: usize,
}

/// Every edge, in the order of the refusals' numbers.
pub fn assembly_edges() -> Vec<AssemblyEdge> {
    [
        starts(),
        forms(),
        parentheses(),
        unknown_labels(),
        labels_twice(),
        many_labels(),
        values(),
        places(),
        rooms(),
    ]
    .concat()
}

fn edge(text: &str, start: usize, length: usize, reply: u32, line: usize) -> AssemblyEdge {
    let case = AssemblyCase { text: text.into(), start, image: vec![UNTOUCHED; length] };
    AssemblyEdge { case, reply, line }
}

/// A text from 0 on, with room to spare.
fn text(text: &str, reply: u32, line: usize) -> AssemblyEdge {
    edge(text, 0, 4 * text.lines().count() + 2, reply, line)
}

/// Texts of one line from 0x100 on, all with this reply.
fn lines(reply: u32, lines: &[&str]) -> Vec<AssemblyEdge> {
    lines.iter().map(|line| edge(&format!("{line}\n"), 0x100, 0x106, reply, 1)).collect()
}

/// The same of a `word` with each expression.
fn words(reply: u32, expressions: &[&str]) -> Vec<AssemblyEdge> {
    let line = |sum| edge(&format!("x\tword\t{sum}\n"), 0x100, 0x106, reply, 1);
    expressions.iter().map(line).collect()
}

/// So many lines, each with a label of its own.
fn labelled(lines: usize) -> String {
    (0..lines).fold(String::new(), |mut text, line| {
        writeln!(text, "l{line}\tjr\tr0").expect("a string takes all");
        text
    })
}

/// 29: the start.
fn starts() -> Vec<AssemblyEdge> {
    let mut edges = Vec::new();
    for text in ["", "\tjr\tr0\n", "\n"] {
        for start in [1, 7, 9, 10, 1 << 32, (1 << 32) + 2, usize::MAX, usize::MAX - 1] {
            edges.push(edge(text, start, 8, 29, 0));
        }
    }
    edges.extend([edge("", 2, 0, 29, 0), edge("", 8, 7, 29, 0)]);
    edges.extend([edge("", 0, 0, 0, 0), edge("", 8, 8, 0, 0), edge("\tjr\tr0\n", 6, 8, 0, 1)]);
    edges
}

/// 30: unknown form.
fn forms() -> Vec<AssemblyEdge> {
    let fields = ["", "\t", "\tjr", "\tjr\t", "\tjr\tr0\t", "jr\tr0", "\tjmp\t0", "\tJR\tr0"];
    let operands = ["\tjr\tr16", "\tjr\tr01", "\tjr\t0", "\tmfsfr\tr0\tsfr11", "\tjsfr\tsfr4"];
    let labels = ["1a\tjr\tr0", "Loop\tjr\tr0", "abcdefghijklm\tjr\tr0", "a_b\tjr\tr0"];
    let known = ["abcdefghijkl\tjr\tr15", "r1\tjsfr\tsfr3", "\tmtsfr\tsfr10\tr1"];
    let sums = [
        "", "01", "0x", "0xA", "1 ", " 1", "--1", "+1", "(1", "1)", "()", "1+", "1*+2", "1/2",
        "2(3)",
    ];
    [
        lines(30, &fields),
        lines(30, &operands),
        lines(30, &labels),
        lines(0, &known),
        words(30, &sums),
        words(0, &["0", "0x0001", "-x", "1*-2", "(1)", "-(-1)", "x*0-x"]),
        vec![text("\tjr\tr0", 30, 1), text("\tjr\tr0\n\n", 30, 2), text("\tjr\tr0\na\n", 30, 2)],
    ]
    .concat()
}

/// 31: a ninth parenthesis.
fn parentheses() -> Vec<AssemblyEdge> {
    let eight = "((((((((1))))))))";
    let ninth = [
        format!("({eight})"),
        format!("1+({eight}*2)"),
        format!("{eight}+({eight})"),
        format!("({eight})*none"),
        format!("({eight})*2147483648"),
    ];
    let fine = [eight.to_string(), format!("{eight}+{eight}"), "(1)+".repeat(9) + "1"];
    [
        words(31, &ninth.each_ref().map(String::as_str)),
        words(0, &fine.each_ref().map(String::as_str)),
        words(30, &[&format!("({eight})-")]),
    ]
    .concat()
}

/// 32: an unknown label.
fn unknown_labels() -> Vec<AssemblyEdge> {
    let mut edges = words(32, &["y", "x+y", "xx", "(y)", "0*y", "y*2147483648"]);
    edges.extend([
        text("\tword\ty\ny\tjmp\n", 32, 1),
        text("\tword\ty\ny\tjr\tr16\n", 32, 1),
        text("x\tword\ty\nx\tjr\tr0\ny\tjr\tr0\n", 33, 2),
        text("\tword\ty\ny\tjr\tr0\n", 0, 2),
        text("y\tjr\tr0\n\tsj\ty\n", 0, 2),
        text(&(labelled(256) + "\tword\tlast\nlast\tjr\tr0\n"), 32, 257),
    ]);
    edges
}

/// 33: a label written twice.
fn labels_twice() -> Vec<AssemblyEdge> {
    vec![
        text("a\tjr\tr0\na\tjr\tr0\n", 33, 2),
        text("a\tjr\tr0\nb\tjr\tr0\na\tjr\tr0\nb\tjr\tr0\n", 33, 3),
        text("a\tjr\tr0\na\tswint\t16\n", 33, 2),
        text("a\tjr\tr0\na\tword\tb\n", 32, 2),
        text("a\tjr\tr0\na\tjr\tr16\n", 30, 2),
        text("a\tjr\tr0\naa\tjr\tr0\na1\tjr\tr0\n", 0, 3),
        text(&(labelled(256) + "l0\tjr\tr0\n"), 33, 257),
        text(&(labelled(256) + "l255\tjr\tr0\n"), 33, 257),
    ]
}

/// 34: too many labels.
fn many_labels() -> Vec<AssemblyEdge> {
    vec![
        text(&labelled(255), 0, 255),
        text(&labelled(256), 0, 256),
        text(&labelled(257), 34, 257),
        text(&labelled(260), 34, 257),
        text(&(labelled(256) + "x\tword\tx\n"), 32, 257),
        text(&(labelled(255) + "\tjr\tr0\nx\tjr\tr0\n"), 0, 257),
        text(&(labelled(256) + "\tjr\tr0\nx\tswint\t16\n"), 34, 258),
        text(&(labelled(256) + "x\tjr\tr16\n"), 30, 257),
        text(&(labelled(256) + "\tsj\tl255\n"), 0, 257),
    ]
}

/// 35: a value outside 32 signed bits, wherever it comes up.
fn values() -> Vec<AssemblyEdge> {
    let outside = [
        "2147483648",
        "-2147483648",
        "0x80000000",
        "4294967296",
        "-(-2147483647-1)",
        "0*2147483648",
        "65536*32768",
        "65536*32768*0",
        "2147483647+1-1",
        "-2147483647-2+2",
        "99999999999999999999999999999999",
    ];
    let inside = [
        "2147483647",
        "-2147483647-1",
        "0x000000007fffffff",
        "-65536*32768",
        "0-2147483647-1",
        "2147483647-1+1",
        "1-(1-1)-1*2",
    ];
    [words(35, &outside), words(0, &inside)].concat()
}

/// Lines at 0x100 whose value is just outside its place.
const OUTSIDE: [&str; 24] = [
    "\thalf\t65536",
    "\thalf\t-1",
    "\taddi\tr1\t128",
    "\taddi\tr1\t-129",
    "\tandi\tr1\t256",
    "\tmovi\tr1\t-129",
    "\tlsli\tr1\t16",
    "\tcmpgti\tr1\t8",
    "\tcmpgti\tr1\t-9",
    "\tswint\t16",
    "\tldr\tr1\t64\tr2",
    "\tldr\tr1\t2\tr2",
    "\tldr\tr1\t-4\tr2",
    "\tstrh\tr1\t32\tr2",
    "\tstrh\tr1\t1\tr2",
    "\tldrb\tr1\t16\tr2",
    "\tsj\t0x500",
    "\tsj\t257",
    "\tsj\t0x100-1026",
    "\tj\t0x100+67108864",
    "\tj\t0x100-67108866",
    "\tldrpc\tr1\t258",
    "\tldrpc\tr1\t252",
    "\tldrpc\tr1\t0x500",
];

/// Lines at 0x100 whose value is just inside it.
const INSIDE: [&str; 17] = [
    "\thalf\t65535",
    "\taddi\tr1\t127",
    "\taddi\tr1\t-128",
    "\tandi\tr1\t255",
    "\tlsli\tr1\t15",
    "\tcmpgti\tr1\t7",
    "\tcmpgti\tr1\t-8",
    "\tswint\t15",
    "\tldr\tr1\t60\tr2",
    "\tstrh\tr1\t30\tr2",
    "\tldrb\tr1\t15\tr2",
    "\tsj\t0x4fe",
    "\tsj\t0x100-1024",
    "\tj\t0x100+67108862",
    "\tj\t0x100-67108864",
    "\tldrpc\tr1\t256",
    "\tldrpc\tr1\t0x4fc",
];

/// 35: a value outside its place. An `ldrpc` at 2 counts from 0.
fn places() -> Vec<AssemblyEdge> {
    let unaligned = |address, reply| text(&format!("\tjr\tr0\n\tldrpc\tr1\t{address}\n"), reply, 2);
    [
        lines(35, &OUTSIDE),
        lines(0, &INSIDE),
        [0, 1020].map(|address| unaligned(address, 0)).to_vec(),
        [2, 1024].map(|address| unaligned(address, 35)).to_vec(),
    ]
    .concat()
}

/// 36: no room in the image.
fn rooms() -> Vec<AssemblyEdge> {
    let three = "\tjr\tr0\n\tword\t1\n\tjr\tr1\n";
    let refused = [(0, 1), (1, 1), (2, 2), (5, 2), (6, 3), (7, 3)];
    let mut edges: Vec<AssemblyEdge> =
        refused.into_iter().map(|(length, line)| edge(three, 0, length, 36, line)).collect();
    edges.extend([8, 9, 40].map(|length| edge(three, 0, length, 0, 3)));
    edges.extend(["jf", "jt", "j", "jl", "word"].map(|name| {
        let line = format!("\t{name}\t0\n");
        edge(&line, 2, 5, 36, 1)
    }));
    edges.extend([
        edge("\tjr\tr0\n", 8, 8, 36, 1),
        edge("\thalf\t-1\n", 0, 0, 35, 1),
        edge("\tjr\tr0\na\n", 0, 0, 36, 1),
        edge("a\tjr\tr0\na\tjr\tr0\n", 0, 2, 33, 2),
        edge("\tswint\tx-x\n\tjr\tr0\nx\tjr\tr0\n", 0, 2, 36, 2),
    ]);
    edges
}
