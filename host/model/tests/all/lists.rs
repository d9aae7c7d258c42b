//! What `shimlist` prints.

use crate::common::*;
use shim_model::calls;
use shim_model::listing::printed;

fn input(upstream: &[u8], target: &[u8], rest: &str) -> Vec<u8> {
    [upstream, target, rest.as_bytes()].concat()
}

fn tso_on_arm(rest: &str) -> Vec<u8> {
    input(&builtin_text(1), &builtin_text(15), rest)
}

fn shown(input: &[u8]) -> String {
    String::from_utf8(printed(input)).expect("ASCII")
}

const LISTING: &str = "\
TSO ARM full
states 3
0 l - 1
0 L - 1
0 s - 2
0 S - 1
0 0 - 0
1 l 0 1
1 L 0 1
1 s 0 2
1 S 0 1
1 0 - 1
2 l - 1
2 L 0 1
2 s 0 2
2 S 0 1
2 0 - 1
out s0sl0l
fences 2
";

#[test]
fn the_listing_of_document_01() {
    let input = tso_on_arm("way full\nrun ssl0l\n");
    assert_eq!(shown(&input), LISTING);
    let (answer, bytes) = called(ROOM, |out| calls::list(&input, out));
    assert_eq!(
        (answer, &bytes[..]),
        (done(LISTING.len(), 2, 0), LISTING.as_bytes())
    );
    assert_eq!(
        called(LISTING.len() - 1, |out| calls::list(&input, out)).0,
        refused(7, 0)
    );
}

#[test]
fn an_empty_stream_leaves_the_space_after_out() {
    assert!(shown(&tso_on_arm("way sparing\nrun \n")).ends_with("2 0 - 1\nout \nfences 0\n"));
}

#[test]
fn the_stream_is_judged_before_the_machine() {
    let over = |rest| shown(&input(&file_text("a4097"), &file_text("part"), rest));
    assert_eq!(over("way full\nrun x\n"), "refused 4 at 0\n");
    assert_eq!(over("way full\nrun l\n"), "refused 8 at 0\n");
    let over = |rest| {
        shown(&input(
            &file_text("st256-up"),
            &file_text("st-target"),
            rest,
        ))
    };
    assert_eq!(over("way sparing\nrun l3\n"), "refused 5 at 1\n");
    assert_eq!(over("way sparing\nrun l2\n"), "refused 9 at 0\n");
}

#[test]
fn inputs_not_of_the_shape() {
    let rests = [
        "",
        "way fast\nrun l\n",
        "way 1\nrun l\n",
        "way full\nrun\n",
        "way full\nrun l",
        "way full\nrun l\n\n",
        "way full\nrun l\nl",
        "way full\r\nrun l\n",
        "way full\n",
        "way full \nrun l\n",
        " way full\nrun l\n",
        "way full\nRun l\n",
        "run l\nway full\n",
        "end\nway full\nrun l\n",
    ];
    for rest in rests {
        assert_eq!(shown(&tso_on_arm(rest)), "refused 2 at 0\n", "{rest:?}");
    }
    assert_eq!(shown(b""), "refused 2 at 0\n");
    assert_eq!(shown(&builtin_text(1)), "refused 2 at 0\n");
    assert_eq!(
        shown(&input(&builtin_text(1), b"", "way full\nrun l\n")),
        "refused 2 at 0\n"
    );
}

#[test]
fn carriage_return_belongs_to_the_stream() {
    assert_eq!(
        shown(&tso_on_arm("way full\nrun l\r\n")),
        "refused 4 at 1\n"
    );
}

#[test]
fn nonsense_texts_are_refused_as_texts() {
    assert_eq!(shown(b"end\nend\nway full\nrun \n"), "refused 2 at 0\n");
    let target_cut = input(&builtin_text(1), b"model T\nend\n", "way full\nrun \n");
    assert_eq!(shown(&target_cut), "refused 2 at 8\n");
    let long = format!("model {}\nend\n", "x".repeat(1_024));
    assert_eq!(
        shown(&input(long.as_bytes(), b"end\n", "way full\nrun \n")),
        "refused 1 at 0\n"
    );
    let line = "fence end ---- ---- ---- ----\n";
    let repeated = format!("model end\nppo ---- ---- ---- ----\n{line}{line}end\n");
    assert_eq!(
        shown(&input(
            &builtin_text(1),
            repeated.as_bytes(),
            "way full\nrun x\n"
        )),
        "refused 3 at 70\n"
    );
}

#[test]
fn places_are_counted_within_the_stream() {
    assert_eq!(
        shown(&tso_on_arm("way full\nrun llx\n")),
        "refused 4 at 2\n"
    );
    assert_eq!(
        shown(&tso_on_arm("way full\nrun ll1\n")),
        "refused 5 at 2\n"
    );
    let stream = "l".repeat(4_097);
    assert_eq!(
        shown(&tso_on_arm(&format!("way full\nrun {stream}\n"))),
        "refused 1 at 0\n"
    );
    let listing = shown(&tso_on_arm(&format!("way full\nrun {}\n", &stream[1..])));
    assert!(listing.ends_with("0l0l\nfences 4095\n"));
}

#[test]
fn refused_steps_end_in_nought() {
    let none = b"model NONE\nppo ---- ---- ---- ----\nend\n";
    let expected = "\
SC NONE sparing
states 2
0 l - 1
0 L - 1
0 s - 1
0 S - 1
1 l ! 0
1 L ! 0
1 s ! 0
1 S ! 0
out l
fences 0
";
    assert_eq!(
        shown(&input(&builtin_text(0), none, "way sparing\nrun l\n")),
        expected
    );
    assert_eq!(
        shown(&input(&builtin_text(0), none, "way sparing\nrun ll\n")),
        "refused 6 at 1\n"
    );
}

#[test]
fn fences_from_10_are_letters() {
    let weak: String = (0..10)
        .map(|number| format!("fence f{number} ---- ---- ---- ----\n"))
        .collect();
    let target =
        format!("model T\nppo ---- ---- ---- ----\n{weak}fence full SSSS SSSS SSSS SSSS\nend\n");
    let listing = shown(&input(
        &builtin_text(0),
        target.as_bytes(),
        "way sparing\nrun ll\n",
    ));
    assert!(listing.contains("\n1 l A 1\n"));
    assert!(listing.ends_with("\nout lAl\nfences 1\n"));
}

#[test]
fn input_of_32768_bytes_and_one_more() {
    let sized = |size: usize| {
        let empty = tso_on_arm("way full\nrun \n").len();
        tso_on_arm(&format!("way full\nrun {}\n", "l".repeat(size - empty)))
    };
    // Of the shape, so the stream's own length is judged.
    assert_eq!(shown(&sized(32_768)), "refused 1 at 0\n");
    let shapeless = vec![b'x'; 32_768];
    assert_eq!(shown(&shapeless), "refused 2 at 0\n");
    assert_eq!(shown(&[&shapeless[..], b"x"].concat()), "refused 1 at 0\n");
}

#[test]
fn the_longest_listing_stays_within_its_bound() {
    let target = file_text("st-target");
    let listing = shown(&input(
        &file_text("st255-up"),
        &target,
        "way sparing\nrun \n",
    ));
    assert!(listing.starts_with("U T sparing\nstates 255\n"));
    assert_eq!(listing.lines().count(), 2 + 255 * 7 + 2);
    assert!(listing.len() <= 69_461);
}
