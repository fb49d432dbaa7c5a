//! The examples of FORMAT.md are what this program answers, and wrong lines
//! are not taken for cases.

use second::cases::parse;
use second::run::answers;

fn answer(inputs: &str) -> Result<String, String> {
    let mut out = Vec::new();
    answers(inputs.as_bytes(), &mut out)?;
    Ok(String::from_utf8(out).unwrap())
}

#[test]
fn examples_of_the_page() {
    let page = include_str!("../FORMAT.md");
    let start = page.find("## Examples").unwrap();
    let mut count = 0;
    for row in page[start..].lines().filter(|line| line.starts_with("| `")) {
        let pieces: Vec<&str> = row.split('`').collect();
        assert_eq!(answer(&format!("{}\n", pieces[1])).unwrap(), format!("{}\n", pieces[3]));
        count += 1;
    }
    assert_eq!(count, 12);
}

#[test]
fn a_place_may_be_changed_twice() {
    let twice = "10 0 1 4294967295 1 0 1 0 2 0 5 0 6\n";
    assert_eq!(answer(twice).unwrap(), "1 0 6\n");
}

#[test]
fn comments_are_not_counted() {
    assert_eq!(answer("# a\n1 2 3\n#\n3 0\n").unwrap(), "1 0 5\n2 0 0\n");
}

#[test]
fn wrong_lines_stop_the_program() {
    let wrong = [
        "",
        "1 2",
        "1 2 3 4",
        "7 1",
        "1 4294967296 0",
        "1  2 3",
        "1 2 x",
        // A list over the limit, and made lists that break a rule.
        "10 0 1 196617",
        "10 0 1 4294967295 1 0 0 0 0",
        "10 0 1 4294967295 1 0 2 4294967295 0",
        "10 0 1 4294967295 1 0 1 0 1 1 0",
        "10 0 1 4294967295 1 0 1 0 65",
        "10 0 1 4294967295 0 0 1 0 1 0 0",
        // A mark that is neither 0 nor 1, a byte over 255, a sequence whose
        // lists don't fit together.
        "32 0 1 0 0 2 0",
        "50 1 256 0",
        "33 1 1 0 1 2 0 0 0",
        "33 1 1 0 1 2 1 0 1 5 0",
    ];
    for line in wrong {
        assert!(parse(line).is_err(), "{}", line);
    }
    assert_eq!(answer("1 2 3\n1 2\n"), Err("line 2: line ends too soon".to_string()));
}
