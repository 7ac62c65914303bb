//! The shapes of a picture, for its tests. Each of them uses some of this.
#![allow(dead_code)]

/// A number of an element, by its name.
pub fn number(element: &str, name: &str) -> f64 {
    let (_, rest) = element.split_once(&format!(" {name}=\"")).unwrap();
    rest.split(['"', 'm']).next().unwrap().parse().unwrap()
}

/// The boxes of a class: x, y, width and height. Some stand alone, and others are joined.
pub fn boxes(picture: &str, class: &str) -> Vec<[f64; 4]> {
    let begin = format!("<rect class=\"{class}\"");
    let lines = picture.lines().filter(|line| line.starts_with(&begin));
    let alone = lines.map(|line| ["x", "y", "width", "height"].map(|name| number(line, name)));
    let joined = joined(picture, class).into_iter().filter_map(|shape| {
        let (place, sides) = shape.strip_suffix('z')?.split_once('h')?;
        let (width, height) = sides.split_once('h')?.0.split_once('v')?;
        let (x, y) = place.split_once(' ')?;
        Some([x, y, width, height].map(|number| number.parse().unwrap()))
    });
    alone.chain(joined).collect()
}

/// The shapes of a class that are joined, each without the M that begins it.
pub fn joined<'a>(picture: &'a str, class: &str) -> Vec<&'a str> {
    let begin = format!("<path class=\"{class}\" d=\"M");
    let paths = picture.lines().filter_map(|line| line.strip_prefix(&begin));
    paths.flat_map(|path| path.split('"').next().unwrap().split('M')).collect()
}

/// The elements of a picture.
pub fn elements(picture: &str) -> usize {
    picture.matches('<').count() - picture.matches("</").count()
}
