//! The smallest input that shows a difference, on made-up differences.

use oracle::shrink::shrink;

#[test]
fn drops_all_that_does_not_matter() {
    let text = "name = \"Havørn\" # 12\n".as_bytes();
    let holds = |part: &'static str| {
        let part = part.as_bytes();
        move |text: &[u8]| text.windows(part.len()).any(|window| window == part)
    };
    for part in ["ø", "n", " = \"", "\n"] {
        let (smallest, ()) = shrink(text, |text| holds(part)(text).then_some(())).unwrap();
        assert_eq!(smallest, part.as_bytes());
    }
    let both = |text: &[u8]| holds("n")(text) && holds("12")(text);
    let (smallest, ()) = shrink(text, |text| both(text).then_some(())).unwrap();
    assert_eq!(smallest, b"n12");
    assert_eq!(shrink(text, |_| None::<()>), None);
}

#[test]
fn makes_plain_what_cannot_be_dropped() {
    let (smallest, ()) = shrink(b"x = 12", |text| (text.len() > 2).then_some(())).unwrap();
    assert_eq!(smallest, b"aaa");
}

#[test]
fn gives_the_difference_of_what_is_left() {
    let (smallest, length) = shrink(b"abcdefgh", |text| Some(text.len())).unwrap();
    assert_eq!((smallest, length), (Vec::new(), 0));
}
