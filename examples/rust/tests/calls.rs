//! What the wrapper answers, with values that are worked by hand.

use gridlay::{answer, Error, Fault, Page, Rect};

const DOCUMENT: &str = "\
gridlay 1
viewport 300 200
main grid { grid-template-columns: 100px 50px; grid-template-rows: 20px 30px }
  a leaf 10 10 { grid-column: 1 / 3; grid-row: 1 / 2 }
  b leaf 10 10 { grid-column: 2 / 3; grid-row: 2 / 3 }
";

fn fault(line: u32, column: u32, fault: u8) -> Error {
    Error::Refused(Fault {
        line,
        column,
        fault,
    })
}

/// A rectangle of whole px.
fn rect(x: i64, y: i64, width: i64, height: i64) -> Rect {
    Rect {
        x: x * 64,
        y: y * 64,
        width: width * 64,
        height: height * 64,
    }
}

#[test]
fn boxes_are_read() -> Result<(), Error> {
    let mut page = Page::open(DOCUMENT)?;
    assert_eq!(page.boxes(), Err(Error::Stale));
    page.layout()?;
    let boxes = [
        rect(0, 0, 300, 50),
        rect(0, 0, 150, 20),
        rect(100, 20, 50, 30),
    ];
    assert_eq!(page.count()?, 3);
    assert_eq!(page.boxes()?, boxes);
    assert_eq!(page.changed()?, [0, 1, 2]);
    assert_eq!(page.box_of("b")?, Some(boxes[2]));
    assert_eq!(page.box_of("c")?, None);
    assert_eq!(page.name(1)?.as_deref(), Some("a"));
    assert_eq!(page.name(3)?, None);
    assert_eq!(page.hit(120 * 64, 30 * 64)?, Some(2));
    assert_eq!(page.hit(-1, 0)?, None);
    assert_eq!(
        page.print()?,
        "layout 0\nmain 0 0 300 50\na 0 0 150 20\nb 100 20 50 30\n"
    );
    Ok(())
}

#[test]
fn edits_are_made_or_refused() -> Result<(), Error> {
    let mut page = Page::open(DOCUMENT)?;
    page.layout()?;
    assert_eq!(page.edit("set z grid-row: 1"), Err(fault(1, 5, 21)));
    assert_eq!(page.count()?, 3);
    page.edit("set b grid-column: 1 / 3")?;
    assert_eq!(page.count(), Err(Error::Stale));
    page.layout()?;
    assert_eq!(page.changed()?, [2]);
    assert_eq!(page.box_of("b")?, Some(rect(0, 20, 150, 30)));
    assert_eq!(page.layout()?.measured, 0);
    assert!(page.changed()?.is_empty());
    Ok(())
}

#[test]
fn a_written_document_reads_as_the_same() -> Result<(), Error> {
    let mut page = Page::open(DOCUMENT)?;
    let text = page.write()?;
    let mut again = Page::open(&text)?;
    page.layout()?;
    again.layout()?;
    assert_eq!(page.boxes()?, again.boxes()?);
    assert_eq!(again.write()?, text);
    Ok(())
}

#[test]
fn texts_that_are_none_are_refused() {
    assert_eq!(Page::open("").err(), Some(fault(1, 1, 3)));
    assert_eq!(
        Page::open("gridlay 1\nviewport 1 1\nm div\n").err(),
        Some(fault(3, 3, 7))
    );
}

#[test]
fn an_input_is_answered() {
    let input = [DOCUMENT, "---\nremove z\n"].concat();
    let (status, output) = answer(input.as_bytes());
    assert_eq!(status, 3);
    let boxes = "layout 0\nmain 0 0 300 50\na 0 0 150 20\nb 100 20 50 30\n";
    let whole = [boxes, "refused 1 7:8 unknown-name\n"].concat();
    assert_eq!(output, whole.as_bytes());
    assert_eq!(answer(b""), (2, b"refused 0 1:1 bad-header\n".to_vec()));
}
