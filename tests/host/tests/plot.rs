//! The picture that `plot` draws is read back, cell by cell, and held against the other check.
//!
//! Would catch a plot with a cell left out, drawn twice, in a wrong place or in another digit's colour, one faded or
//! outlined that is not so or the reverse, a title that names another cell, digit or allowed digits, a wrong count,
//! lines or axes that do not fit the cells: the picture is read back and held against the other table check. The draws
//! are from the fixed seed below.
use host::draw::Draw;
use host::programs::{printed, printed_with};
use host::specification::{rule, seven, Rule, Unit, CELLS, EIGHT, SEVEN};
use host::svg::{colour, elements, lines, rectangle, styles, Element, Rectangle, Spot};
use std::collections::BTreeMap;

const SEED: u64 = 0x5EED_0384;
const KEPT: &[u8] = include_bytes!("../../../tables/kept.table");
const KEPT_SEVEN: &[u8] = include_bytes!("../../../tables/kept-seven-bits.table");
const PENTIUM: &[u8] = include_bytes!("../../../tables/pentium-1994.table");

/// The estimate that a picture is drawn by.
#[derive(Clone, Copy)]
struct By {
    name: &'static str,
    unit: Unit,
    rule: &'static Rule,
}

fn by_seven() -> By {
    By { name: "seven", unit: SEVEN, rule: seven() }
}

fn by_eight() -> By {
    By { name: "eight", unit: EIGHT, rule: rule() }
}

/// Up to so many bad cells have rings.
const FEW: usize = 16;

/// What is drawn above the cells.
const ABOVE: [&str; 6] = ["grid", "axis", "line", "range", "bad", "ring"];

/// Where the axes have a divisor and a remainder, the stored numbers divided by 2^60: D from 1 to 2 is 640 wide, P from -6
/// to 6 is 576 high. A row is a sixteenth of the width and a column, an eighth of the unit, 6 high.
fn across(d: f64) -> f64 {
    100.0 + 640.0 * (d - 1.0)
}

fn down(p: f64) -> f64 {
    372.0 - 48.0 * p
}

fn row_starts(row: f64) -> f64 {
    across(1.0 + row / 16.0)
}

fn column_starts(column: f64) -> f64 {
    down((column - 64.0) / 8.0)
}

fn ensure(holds: bool, what: impl Into<String>) -> Result<(), String> {
    if holds {
        Ok(())
    } else {
        Err(what.into())
    }
}

/// The cells that a rectangle covers, each wholly, in one row.
fn covered(r: Rectangle) -> Result<Vec<usize>, String> {
    let row = (0..16).find(|&row| row_starts(row as f64) == r.left && row_starts(row as f64 + 1.0) == r.right);
    let column = |y: f64| (16..=112).find(|&column| column_starts(column as f64) == y);
    match (row, column(r.bottom), column(r.top)) {
        (Some(row), Some(from), Some(end)) => Ok((from..end).map(|column| 128 * row + column).collect()),
        _ => Err(format!("{r:?} covers no whole cells of one row")),
    }
}

/// What a picture shows, read back from its text.
#[derive(Default)]
struct Picture {
    styles: BTreeMap<String, BTreeMap<String, String>>,
    /// the class and the title of each cell
    cells: BTreeMap<usize, (String, String)>,
    /// the outlines of bad cells, and the rings as middle and half axes
    marks: Vec<Rectangle>,
    rings: Vec<(Spot, Spot)>,
    /// the coloured fields of the legend
    keys: Vec<(String, Rectangle)>,
    grid: Vec<Vec<Spot>>,
    axes: Vec<Vec<Spot>>,
    lines: Vec<Vec<Spot>>,
    range: Vec<Vec<Spot>>,
    texts: Vec<(Spot, String)>,
}

impl Picture {
    fn read(svg: &str) -> Result<Picture, String> {
        let mut picture = Picture::default();
        let mut cell = None;
        for (turn, element) in elements(svg)?.iter().enumerate() {
            let known = ["class", "d", "fill", "cx", "cy", "rx", "ry"];
            let plain =
                turn == 0 || element.name == "text" || element.attributes.keys().all(|a| known.contains(&a.as_str()));
            ensure(plain, format!("<{}> has an attribute that is not known", element.name))?;
            match element.name.as_str() {
                "svg" => ensure(turn == 0 && element.get("viewBox") == "0 0 1030 770", "a part of the picture")?,
                "style" => picture.styles = styles(&element.text),
                "path" => cell = picture.add_path(element)?,
                "title" if turn > 1 => picture.add_title(cell, &element.text)?,
                "ellipse" => picture.add_ring(element)?,
                "text" if element.get("transform").is_empty() => {
                    picture.texts.push(((element.number("x")?, element.number("y")?), element.text.clone()));
                }
                "text" | "title" | "g" | "/svg" | "/style" | "/text" | "/title" | "/g" | "/path" => {}
                other => return Err(format!("<{other}>")),
            }
        }
        Ok(picture)
    }

    /// The ground comes first, then all cells, then what is drawn above them, then the legend. The answer is the cell.
    fn add_path(&mut self, element: &Element) -> Result<Option<usize>, String> {
        let (class, d) = (element.get("class"), element.get("d"));
        let above = !self.range.is_empty() || !self.grid.is_empty();
        match class {
            "" => ensure(self.cells.is_empty() && element.get("fill") == "#fff", "a path without a class")?,
            "over grid" => self.grid.extend(lines(d)?),
            "over axis" => self.axes.extend(lines(d)?),
            "over line" => self.lines.extend(lines(d)?),
            "over range" => self.range.extend(lines(d)?),
            "over bad" => {
                self.marks.push(rectangle(d)?);
                ensure(above, "a mark below the cells")?;
            }
            _ if rectangle(d)?.left > across(2.0) => self.keys.push((class.to_string(), rectangle(d)?)),
            _ => {
                ensure(!above, format!("{d} is drawn above the lines"))?;
                return match covered(rectangle(d)?)?[..] {
                    [cell] => {
                        let before = self.cells.insert(cell, (class.to_string(), String::new()));
                        ensure(before.is_none(), format!("cell {cell} is drawn twice")).map(|()| Some(cell))
                    }
                    ref cells => Err(format!("{} cells in one", cells.len())),
                };
            }
        }
        Ok(None)
    }

    fn add_title(&mut self, cell: Option<usize>, text: &str) -> Result<(), String> {
        let cell = cell.and_then(|cell| self.cells.get_mut(&cell)).ok_or("a title of no cell")?;
        ensure(cell.1.is_empty(), "a second title")?;
        cell.1 = text.to_string();
        Ok(())
    }

    fn add_ring(&mut self, element: &Element) -> Result<(), String> {
        ensure(element.get("class") == "over ring", "an ellipse that is no ring")?;
        let at = |name| element.number(name);
        self.rings.push(((at("cx")?, at("cy")?), (at("rx")?, at("ry")?)));
        Ok(())
    }

    fn property(&self, class: &str, name: &str) -> &str {
        self.styles.get(class).and_then(|rule| rule.get(name)).map_or("", String::as_str)
    }

    fn has_text(&self, x: f64, y: f64, text: &str) -> Result<(), String> {
        let found = self.texts.iter().any(|(spot, t)| *spot == (x, y) && t == text);
        ensure(found, format!("no text {text} at {x} {y}"))
    }

    /// The one property of a class.
    fn only(&self, class: &str, name: &str) -> Result<&str, String> {
        let properties = self.styles.get(class).ok_or_else(|| format!("no style {class}"))?;
        ensure(properties.len() == 1, format!("{class} has more than {name}"))?;
        Ok(self.property(class, name))
    }

    /// The colour of a field, and whether it is faded.
    fn shade(&self, class: &str) -> Result<([i32; 3], bool), String> {
        let (faded, class) = match class.strip_prefix("out ") {
            Some(rest) => (true, rest),
            None => (false, class),
        };
        Ok((colour(self.only(class, "fill")?)?, faded))
    }

    /// The legend's fields beside a name.
    fn legend(&self, name: &str) -> Result<Vec<([i32; 3], bool)>, String> {
        let beside = |r: &Rectangle| {
            self.texts.iter().any(|((x, y), text)| r.right < *x && r.top < *y && *y <= r.bottom + 2.0 && text == name)
        };
        self.keys.iter().filter(|(_, r)| beside(r)).map(|(class, _)| self.shade(class)).collect()
    }
}

/// The colours of the digits from -2 to 2, all different. The legend has each once, two as examples of faded ones, and
/// one of a bad cell.
fn digit_colours(picture: &Picture) -> Result<Vec<[i32; 3]>, String> {
    let mut colours = Vec::new();
    for digit in -2..=2 {
        match picture.legend(&digit.to_string())?[..] {
            [(one, false)] if !colours.contains(&one) => colours.push(one),
            _ => return Err(format!("the legend has no colour for digit {digit}, or two, or another digit's")),
        }
    }
    ensure(picture.legend("out of range:")? == [(colours[4], true), (colours[2], true)], "the legend's faded fields")?;
    ensure(picture.legend("bad cell")? == [(colours[2], false)], "the legend's bad cell")?;
    ensure(picture.keys.len() == 8, "fields of the legend")?;
    // faded: between a tenth and a third of the distance from white
    let opacity: f64 = picture.only("out", "fill-opacity")?.parse().map_err(|_| "no opacity")?;
    ensure((0.1..=0.33).contains(&opacity), "the faded colours")?;
    Ok(colours)
}

/// What a browser shows of a cell under the pointer.
fn title(by: By, cell: usize, byte: u8) -> String {
    let (row, column) = (cell / 128, cell % 128);
    let digit = |byte: u8| byte as i32 - 2;
    let place = format!("row {row}, column {column}, digit {}", digit(byte));
    if !by.unit.has_point(row as i128, column as i128) {
        return format!("{place}, out of range: any digit will do");
    }
    let allowed = by.rule.allowed(cell);
    let bad = if allowed.contains(&byte) { "" } else { ", bad" };
    let names: String = allowed.iter().map(|&byte| format!(" {}", digit(byte))).collect();
    format!("{place}{bad}, allowed:{names}")
}

/// Each cell of the columns 16 to 111 once, in the colour of its digit, faded where it has no point, with its title. The
/// other cells have no point.
fn compare_cells(picture: &Picture, by: By, table: &[u8]) -> Result<(), String> {
    let legend = digit_colours(picture)?;
    for (cell, &byte) in table.iter().enumerate() {
        let has_point = by.unit.has_point(cell as i128 / 128, cell as i128 % 128);
        if !(16..112).contains(&(cell % 128)) {
            ensure(!has_point && !picture.cells.contains_key(&cell), format!("cell {cell} outside the picture"))?;
            continue;
        }
        let (class, shown) = picture.cells.get(&cell).ok_or_else(|| format!("cell {cell} is not drawn"))?;
        let drawn = picture.shade(class)?;
        ensure(drawn == (legend[byte as usize], !has_point), format!("cell {cell}, byte {byte}: {drawn:?}"))?;
        ensure(*shown == title(by, cell, byte), format!("cell {cell}, byte {byte}: {shown}"))?;
    }
    Ok(())
}

/// Each bad cell outlined once and no other, those that follow each other in a row together; the legend has one outline
/// more.
fn compare_marks(picture: &Picture, by: By, table: &[u8]) -> Result<(), String> {
    let marks: Vec<Rectangle> = picture.marks.iter().copied().filter(|r| r.left < across(2.0)).collect();
    ensure(picture.marks.len() == marks.len() + 1, "the legend's outline")?;
    let mut marked = Vec::new();
    for &mark in &marks {
        let cells = covered(mark)?;
        let together = marked.last().is_none_or(|last| last + 1 < cells[0]);
        ensure(together, format!("{mark:?} starts inside a stretch"))?;
        marked.extend(cells);
    }
    let bad: Vec<usize> = by.rule.bad_cells(table).iter().map(|&(cell, _)| cell).collect();
    ensure(marked == bad, format!("outlined {marked:?}, bad {bad:?}"))?;
    compare_rings(picture, if bad.len() <= FEW { &marks } else { &[] })
}

/// A ring round each of these outlines, with its corners inside, and no other.
fn compare_rings(picture: &Picture, marks: &[Rectangle]) -> Result<(), String> {
    ensure(picture.rings.len() == marks.len(), format!("{} rings", picture.rings.len()))?;
    for r in marks {
        let middle = ((r.left + r.right) / 2.0, (r.top + r.bottom) / 2.0);
        let corner = (r.right - middle.0, r.bottom - middle.1);
        let round = picture
            .rings
            .iter()
            .filter(|(at, half)| *at == middle && (corner.0 / half.0).powi(2) + (corner.1 / half.1).powi(2) < 1.0);
        ensure(round.count() == 1, format!("{r:?} has no ring of its own"))?;
    }
    Ok(())
}

/// The heading, and the line that says whether the table passed.
fn compare_verdict(picture: &Picture, by: By, table: &[u8]) -> Result<(), String> {
    let heading = format!("P-D plot by {} bits: the quotient digit in each cell of the table", by.name);
    picture.has_text(100.0, 32.0, &heading)?;
    let report = by.rule.check(table);
    let bad = format!("Bad cells: {}; the first is row {}, column {}", report.count, report.row, report.column);
    let passed = "The table passes the check: no bad cell.".to_string();
    picture.has_text(100.0, 60.0, if report.count == 0 { &passed } else { &bad })
}

/// The lines P = k/3 D from D = 1 to D = 2, each with its name where it ends, and the legend's one.
fn compare_lines(picture: &Picture, found: &[Vec<Spot>], thirds: &[i32]) -> Result<(), String> {
    ensure(found.len() == thirds.len() + 1, format!("{} lines", found.len()))?;
    for &k in thirds {
        let at = |d: f64| (across(d), down(f64::from(k) * d / 3.0));
        let near = |a: Spot, b: Spot| a.0 == b.0 && (a.1 - b.1).abs() < 1e-6;
        let drawn = found.iter().filter(|line| line.len() == 2 && near(line[0], at(1.0)) && near(line[1], at(2.0)));
        ensure(drawn.count() == 1, format!("the line {k}/3 D"))?;
        picture.has_text(across(2.0) + 8.0, at(2.0).1.round() + 5.0, &format!("{k}/3 D"))?;
    }
    Ok(())
}

/// The overlap of two digits between their lines: q is allowed from (q - 2/3) D to (q + 2/3) D, so q + 1 and q both are
/// from (q + 1/3) D to (q + 2/3) D.
fn compare_choices(picture: &Picture) -> Result<(), String> {
    for q in -2..=1 {
        let y = down(2.0 * (f64::from(q) + 0.5)) + 4.0;
        picture.has_text(across(2.0) + 18.0, y, &format!("{q} or {}", q + 1))?;
    }
    Ok(())
}

/// The frame, its ticks and their names fit the cells: a text's foot is 5 below the middle of its line.
fn compare_axes(picture: &Picture) -> Result<(), String> {
    let (left, right, top, bottom) = (across(1.0), across(2.0), down(6.0), down(-6.0));
    let mut axes = vec![
        vec![(left, top), (right, top), (right, bottom), (left, bottom)],
        vec![(left, down(0.0)), (right, down(0.0))],
    ];
    for row in 0..16 {
        picture.has_text(row_starts(f64::from(row) + 0.5), bottom + 21.0, &row.to_string())?;
    }
    for column in (16..112).step_by(16) {
        picture.has_text(left - 10.0, column_starts(f64::from(column)) + 5.0, &column.to_string())?;
    }
    for p in (-6..=6).step_by(2) {
        let y = down(f64::from(p));
        axes.push(vec![(left - 6.0, y), (left, y)]);
        picture.has_text(left - 44.0, y + 5.0, &p.to_string())?;
    }
    for (d, name) in [(1.0, "1"), (1.25, "1.25"), (1.5, "1.5"), (1.75, "1.75"), (2.0, "2")] {
        axes.push(vec![(across(d), bottom), (across(d), bottom + 6.0)]);
        picture.has_text(across(d), bottom + 43.0, name)?;
    }
    let all = picture.axes.len() == axes.len() && axes.iter().all(|line| picture.axes.contains(line));
    ensure(all, "the frame and its ticks")?;
    let grid: Vec<Vec<Spot>> =
        (1..16).map(|row| [top, bottom].map(|y| (row_starts(f64::from(row)), y)).to_vec()).collect();
    ensure(picture.grid == grid, "the lines between the rows")
}

/// What differs between a picture and the table, if anything.
fn compare(svg: &str, by: By, table: &[u8]) -> Result<(), String> {
    ensure(svg.is_ascii() && !svg.contains('&'), "a sign that is not in ASCII")?;
    ensure(svg.len() < 300_000, "a picture that is too large")?;
    let picture = Picture::read(svg)?;
    // what is above the cells hides neither them nor their titles
    ensure(picture.property("over", "fill") == "none", "a filled mark")?;
    ensure(picture.property("over", "pointer-events") == "none", "a mark that takes the pointer")?;
    for class in ABOVE {
        let strokes = picture.styles.get(class).is_some_and(|rule| rule.keys().all(|name| name.starts_with("stroke")));
        ensure(strokes && !picture.property(class, "stroke").is_empty(), format!("{class} is no line"))?;
    }
    compare_cells(&picture, by, table)?;
    compare_marks(&picture, by, table)?;
    compare_verdict(&picture, by, table)?;
    compare_lines(&picture, &picture.lines, &[1, 2, 4, 5, -1, -2, -4, -5])?;
    compare_lines(&picture, &picture.range, &[8, -8])?;
    compare_choices(&picture)?;
    compare_axes(&picture)
}

fn check(table: &[u8]) {
    assert_eq!(compare(&printed("plot", table), by_eight(), table), Ok(()));
}

/// By the argument 7, and 8 is as none.
#[test]
fn by_either_estimate() {
    let mut draw = Draw::new(SEED + 2);
    for table in [KEPT, KEPT_SEVEN, PENTIUM, &seven().passing(&mut draw), &rule().passing(&mut draw)] {
        assert_eq!(compare(&printed_with("plot", &["7"], table), by_seven(), table), Ok(()));
        assert_eq!(printed_with("plot", &["8"], table), printed("plot", table));
    }
}

#[test]
fn passing_tables() {
    let mut draw = Draw::new(SEED);
    check(KEPT);
    check(&rule().farthest());
    for _ in 0..5 {
        check(&rule().passing(&mut draw));
    }
}

#[test]
fn tables_with_bad_cells() {
    let mut draw = Draw::new(SEED + 1);
    check(PENTIUM);
    for changes in [1, 2, 20, 60, 100, 200, 500] {
        let mut table = rule().passing(&mut draw);
        for _ in 0..changes {
            table[draw.below(CELLS as u64) as usize] = draw.below(5) as u8;
        }
        check(&table);
    }
    // drawn bytes; one digit everywhere; bad in every cell that has a point
    check(&(0..CELLS).map(|_| draw.below(5) as u8).collect::<Vec<u8>>());
    (0..5).for_each(|byte| check(&[byte; CELLS]));
    check(&rule().made().iter().map(|b| if *b < 2 { 4 } else { 0 }).collect::<Vec<u8>>());
}

/// Tables with exactly so many bad cells, apart or side by side, about the number up to which they get rings.
#[test]
fn rings_up_to_sixteen_bad_cells() {
    for (count, step) in [15, 16, 17].into_iter().flat_map(|count| [(count, 7), (count, 1)]) {
        let mut table = rule().made();
        let with_point = (0..CELLS).filter(|&cell| rule().allowed(cell).len() < 5);
        for cell in with_point.step_by(step).take(count) {
            table[cell] = if table[cell] < 2 { 4 } else { 0 };
        }
        assert_eq!(rule().bad_cells(&table).len(), count);
        check(&table);
    }
}

#[test]
fn what_is_no_table_gets_two_lines() {
    let mut above = PENTIUM.to_vec();
    (above[1500], above[2000]) = (5, 255);
    let long = [KEPT, &[2]].concat();
    for input in [&[], &KEPT[..1], &KEPT[..2047], &long, &above] {
        let report = rule().check(input);
        assert_eq!(printed("plot", input), format!("refusal place\n{} {}\n", report.refusal, report.place));
    }
}

/// The comparison itself: of the Pentium's picture some of the cells, each outline and each ring is left out, doubled
/// and changed in every digit of its numbers, and other lines at some places; every change is seen.
#[test]
fn a_changed_picture_is_seen() {
    let svg = printed("plot", PENTIUM);
    assert_eq!(compare(&svg, by_eight(), PENTIUM), Ok(()));
    let differs = |from: &str, to: &str| {
        let text = svg.replacen(from, to, 1);
        assert!(text != svg && compare(&text, by_eight(), PENTIUM).is_err(), "{from} made {to} is not seen");
    };
    let cells = svg.lines().filter(|line| line.contains("<title>row")).step_by(61);
    // the legend is to the right of 800
    let marks = svg.lines().filter(|line| line.contains("'over bad'") && !line.contains("'M8"));
    let rings = svg.lines().filter(|line| line.contains("<ellipse"));
    let mut changes = 0;
    for line in cells.chain(marks).chain(rings) {
        differs(line, "");
        differs(line, &format!("{line}{line}"));
        // a ring's size is free within limits
        let fixed = line.find("rx=").unwrap_or(line.len());
        for at in (0..fixed).filter(|&at| line.as_bytes()[at].is_ascii_digit()) {
            let digit = (line.as_bytes()[at] - b'0' + 1) % 10;
            differs(line, &format!("{}{digit}{}", &line[..at], &line[at + 1..]));
            changes += 1;
        }
    }
    assert!(changes > 300, "{changes}");
    for (from, to) in [
        ("#c4560d", "#8fc1e3"),
        ("fill-opacity:.2", "fill-opacity:.9"),
        ("M100 356L", "M100 357L"),
        ("740 628", "740 627"),
        ("M140 84v576", "M141 84v576"),
        ("M94 180h6", "M94 185h6"),
        (".q3{fill", ".q3{fill-opacity:0;fill"),
        (".bad{stroke", ".bad{fill:#000;stroke"),
        ("fill:none;pointer-events:none", "fill:none"),
        (".over{fill:none", ".over{fill:#fff"),
        ("</svg>", ""),
        ("<g ", "<g transform='scale(2)' "),
        ("viewBox='0 0 1030", "viewBox='0 0 600"),
        ("Bad cells: 5", "Bad cells: 6"),
        (">1.25<", ">1.2<"),
        (">4/3 D<", ">5/3 D<"),
        ("1 or 2", "0 or 2"),
        ("remainder P", "remainder \u{2264} P"),
        ("allowed: 2", "allowed: 1 2"),
        ("out of range: any", "any"),
        ("M836 106h34", "M836 206h34"),
        ("<g ", "<image/><g "),
    ] {
        differs(from, to);
    }
}
