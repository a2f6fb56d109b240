//! A column that is dragged wider, step by step: which boxes change, what lies under the pointer, and back again.
//!
//!     ./gridlay library
//!     cd examples/rust && cargo run --offline

use gridlay::{Error, Page, Rect};

const DOCUMENT: &str = "\
gridlay 1
viewport 300 100
page grid { grid-template-columns: auto 1fr; gap: 10px }
  list leaf 80 20 { width: 80px }
  text words 20 8 60 70 40
";

fn px(units: i64) -> f64 {
    units as f64 / 64.0
}

fn show(page: &mut Page, index: usize) -> Result<(), Error> {
    let name = page.name(index)?.unwrap_or_default();
    let Rect {
        x,
        y,
        width,
        height,
    } = page.box_of(&name)?.unwrap_or_default();
    println!("  {name} {} {} {} {}", px(x), px(y), px(width), px(height));
    Ok(())
}

fn lay_out(page: &mut Page, title: &str) -> Result<(), Error> {
    page.layout()?;
    println!("{title}");
    for index in page.changed()? {
        show(page, index)?;
    }
    Ok(())
}

fn main() -> Result<(), Error> {
    let mut page = Page::open(DOCUMENT)?;
    lay_out(&mut page, "opened")?;
    for width in [90, 100, 110] {
        page.edit(&format!("set list width: {width}px"))?;
        lay_out(&mut page, &format!("dragged to {width}"))?;
    }
    if let Some(index) = page.hit(150 * 64, 30 * 64)? {
        println!("at 150 30: {}", page.name(index)?.unwrap_or_default());
    }
    if let Err(error) = page.edit("set list width: wide") {
        println!("{error}");
    }
    page.edit("undo 3")?;
    lay_out(&mut page, "taken back")
}
