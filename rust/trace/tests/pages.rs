//! Pages and pictures as text: how large the largest are, and that nothing of a file reaches them unescaped.

use expected::files::{input, input_names};
use std::time::{Duration, Instant};
use trace::frames::{Frames, NoFrames};
use trace::{escape, page, svg};

const MOST_PAGE: usize = 2_000_000;

/// The page and the picture of an input.
fn drawn(name: &str, input: &[u8]) -> [String; 2] {
    let frames = Frames::of(input).map_err(|none| match none {
        NoFrames::NoSession(reason) => reason,
        NoFrames::Library(error) => panic!("{error}"),
    });
    [page::page(name, &frames), svg::picture(name, &frames)]
}

/// A client count, a beginning, and as many repetitions of some lines as 16,384 bytes hold.
fn filled(beginning: &str, repeated: &str) -> Vec<u8> {
    let count = (limits::INPUT_LIMIT - beginning.len()) / repeated.len();
    (beginning.to_string() + &repeated.repeat(count)).into_bytes()
}

/// Sessions with the most steps, ledgers, entries, refusals, changes, long lines and hidden bytes.
fn largest() -> Vec<(&'static str, Vec<u8>)> {
    vec![
        ("most lines", filled("1\n", "\n")),
        ("most steps", filled("2\n", "N 1\nN 0\n")),
        ("most ledgers", filled("1\nB 0\nF 0\n", "C 0\nP 0\nO 0\n")),
        ("most entries", filled("1\nB 0\nF 0\nC 0\nP 0\n", "W 0 1\n")),
        ("most refused writes", filled("2\nB 0\nF 0\nC 0\nP 0\nN 1\nB 1\nF 1\nL 1\n", "W 0 1\n")),
        ("longest sentences", filled("1\n", "N 200\n")),
        ("hidden bytes", filled("1\n", "\u{1}\n")),
        ("markup", filled("1\n", "&\n")),
        ("one long line", filled("1\n", "\u{1}")),
        ("sixteen clients", filled("16\n", "N 15\nB 15\nF 15\nC 15\nA 15\nN 14\nB 14\nF 14\nC 14\n")),
    ]
}

#[test]
fn the_largest_pages_are_below_two_megabytes() {
    for (name, input) in largest() {
        assert!(input.len() <= limits::INPUT_LIMIT && input.len() > limits::INPUT_LIMIT - 64, "{name}");
        let start = Instant::now();
        let [page, picture] = drawn(name, &input);
        println!("{name}: page {} bytes, picture {} bytes, {:?}", page.len(), picture.len(), start.elapsed());
        assert!(page.len() < MOST_PAGE, "{name}: {} bytes", page.len());
        assert!(start.elapsed() < Duration::from_secs(5), "{name}: {:?}", start.elapsed());
    }
    for name in input_names().unwrap() {
        assert!(drawn(&name, &input(&name).unwrap())[0].len() < MOST_PAGE, "{name}");
    }
}

// Every tag of the page and of the picture is there for a file that has none.
#[test]
fn nothing_of_a_file_is_a_tag() {
    let nasty = [
        "</script><script>alert(1)</script>",
        "<img src=x onerror=alert(1)>",
        "\"'><svg onload=alert(1)>",
        "<!-- ]]> --> &lt;b&gt; <![CDATA[",
        "W 0 1\u{2028}\u{2029}\u{202e}\u{0}\u{1b}[31m",
    ];
    let tags = |text: &str| text.matches('<').count();
    for line in nasty {
        let plain = drawn("plain.session", b"1\nplain line\n");
        let name = escape::visible(line.as_bytes());
        let shown = drawn(&name, format!("1\n{line}\n").as_bytes());
        for (plain, shown) in plain.iter().zip(&shown) {
            assert_eq!(tags(shown), tags(plain), "{line}");
            assert!(!shown.contains(['\u{0}', '\u{1b}', '\u{2028}', '\u{202e}']), "{line}");
            assert!(shown.contains(&escape::markup(&escape::visible(&line.as_bytes()[..12]))), "{line}");
        }
    }
}

#[test]
fn bytes_that_are_no_text_are_shown_by_number() {
    let [page, picture] = drawn("bytes", b"1\n\xff\xfe W\t0\n");
    assert!(page.contains(r"<code>\xff\xfe W\x090</code> <b>bad line</b>"));
    assert!(picture.contains(r"\xff\xfe W\x090"));
}

#[test]
fn what_is_no_session_says_so() {
    for (input, reason) in [(vec![b'\n'; 16_385], "too long"), (b"3".to_vec(), "bad start"), (Vec::new(), "bad start")]
    {
        let [page, picture] = drawn("none", &input);
        assert!(page.contains(&format!("<b id=\"reply\">{reason}</b>")) && !page.contains("<script"), "{page}");
        assert!(picture.contains(&format!(">{reason}</text>")), "{picture}");
    }
}

#[test]
fn a_last_line_without_its_end_says_so() {
    let [page, _] = drawn("unended", b"1\nB 0");
    assert!(page.contains("<code>B 0</code> <b>bad line</b></a> <span>the last line has no line end</span>"));
}

// What a page loads would stand in one of these.
#[test]
fn a_page_loads_nothing() {
    let [page, picture] = drawn("x", b"2\nB 0\nF 0\nC 0\nP 0\nW 0 1\n");
    for text in [&page, &picture] {
        for loading in ["src=", "<link", "@import", "url(", "fetch(", "XMLHttp", "import("] {
            assert!(!text.contains(loading), "{loading}");
        }
    }
    let addresses = page.matches("http").count();
    assert_eq!(addresses, page.matches("http-equiv").count() + page.matches("http://www.w3.org/2000/svg").count());
    assert!(page.contains("default-src 'none'"));
}
