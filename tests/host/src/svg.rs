//! Reads an SVG picture: as much of SVG as the plot program writes. What it does not know is an error.
use std::collections::BTreeMap;

/// A tag with the text behind it, up to the next tag. A closing tag is an element of its own, named `/name`.
pub struct Element {
    pub name: String,
    pub attributes: BTreeMap<String, String>,
    pub text: String,
}

pub type Spot = (f64, f64);

/// Upright, the sides parallel to the axes.
#[derive(Clone, Copy, Debug, PartialEq)]
pub struct Rectangle {
    pub left: f64,
    pub top: f64,
    pub right: f64,
    pub bottom: f64,
}

impl Element {
    pub fn get(&self, attribute: &str) -> &str {
        self.attributes.get(attribute).map_or("", String::as_str)
    }

    pub fn number(&self, attribute: &str) -> Result<f64, String> {
        self.get(attribute).parse().map_err(|_| format!("<{}>: {attribute} is no number", self.name))
    }
}

/// All elements, in the order in which they are painted. Each tag that is opened is closed, the last one first.
pub fn elements(svg: &str) -> Result<Vec<Element>, String> {
    let mut open: Vec<&str> = Vec::new();
    for piece in svg.split('<').skip(1) {
        let tag = piece.split('>').next().unwrap_or("");
        let name = tag.split(' ').next().unwrap_or("");
        match name.strip_prefix('/') {
            Some(closed) if open.pop() != Some(closed) => return Err(format!("<{tag}> closes nothing")),
            None if !tag.ends_with('/') => open.push(name),
            _ => {}
        }
    }
    match open.pop() {
        None => svg.split('<').skip(1).map(element).collect(),
        Some(name) => Err(format!("<{name}> is not closed")),
    }
}

fn element(piece: &str) -> Result<Element, String> {
    let (tag, text) = piece.split_once('>').ok_or_else(|| format!("<{piece}: not closed"))?;
    let tag = tag.strip_suffix('/').unwrap_or(tag).trim_end();
    let (name, mut rest) = tag.split_once(' ').unwrap_or((tag, ""));
    let mut attributes = BTreeMap::new();
    while !rest.is_empty() {
        let (key, behind) = rest.split_once("='").ok_or_else(|| format!("<{tag}>: {rest}"))?;
        let (value, behind) = behind.split_once('\'').ok_or_else(|| format!("<{tag}>: {rest}"))?;
        if attributes.insert(key.to_string(), value.to_string()).is_some() {
            return Err(format!("<{tag}>: {key} twice"));
        }
        rest = behind.trim_start();
    }
    Ok(Element { name: name.to_string(), attributes, text: text.trim_end().to_string() })
}

/// The lines of a path's `d`, each as the spots it goes through; a closed one does not repeat its first.
pub fn lines(d: &str) -> Result<Vec<Vec<Spot>>, String> {
    let mut found: Vec<Vec<Spot>> = Vec::new();
    let (mut x, mut y) = (0.0, 0.0);
    for part in d.split_inclusive(|c: char| "MLHVhvz".contains(c)).collect::<Vec<_>>().windows(2) {
        let command = part[0].chars().last().expect("a part is not empty");
        let numbers = part[1].trim_end_matches(|c: char| "MLHVhvz".contains(c)).split(' ');
        let numbers: Result<Vec<f64>, _> = numbers.filter(|n| !n.is_empty()).map(str::parse).collect();
        let numbers = numbers.map_err(|e| format!("{d}: {e}"))?;
        match (command, &numbers[..]) {
            ('M' | 'L', &[a, b]) => (x, y) = (a, b),
            ('H', &[a]) => x = a,
            ('V', &[b]) => y = b,
            ('h', &[a]) => x += a,
            ('v', &[b]) => y += b,
            ('z', &[]) => continue,
            _ => return Err(format!("{d}: {command}")),
        }
        match found.last_mut() {
            Some(line) if command != 'M' => line.push((x, y)),
            _ => found.push(vec![(x, y)]),
        }
    }
    Ok(found)
}

/// The rectangle that a path outlines, from its upper left corner to the right and round.
pub fn rectangle(d: &str) -> Result<Rectangle, String> {
    let closed = d.strip_suffix('z').ok_or_else(|| format!("{d}: not closed"))?;
    match lines(closed)?[..] {
        [ref corners] if corners.len() == 4 => {
            let ((left, top), (right, bottom)) = (corners[0], corners[2]);
            let round = [(left, top), (right, top), (right, bottom), (left, bottom)];
            if corners[..] == round && left < right && top < bottom {
                return Ok(Rectangle { left, top, right, bottom });
            }
        }
        _ => {}
    }
    Err(format!("{d}: no rectangle"))
}

/// The properties of each class in a style sheet.
pub fn styles(sheet: &str) -> BTreeMap<String, BTreeMap<String, String>> {
    let rules = sheet.split('}').filter_map(|rule| rule.trim().strip_prefix('.')?.split_once('{'));
    let properties = |body: &str| -> BTreeMap<String, String> {
        let pairs = body.split(';').filter_map(|p| p.split_once(':'));
        pairs.map(|(key, value)| (key.to_string(), value.to_string())).collect()
    };
    rules.map(|(class, body)| (class.to_string(), properties(body))).collect()
}

/// Red, green and blue of #rrggbb.
pub fn colour(text: &str) -> Result<[i32; 3], String> {
    let number = text.strip_prefix('#').filter(|n| n.len() == 6).and_then(|n| i32::from_str_radix(n, 16).ok());
    number.map(|n| [n >> 16, n >> 8 & 255, n & 255]).ok_or_else(|| format!("{text}: no colour"))
}
