//! The few elements of SVG that a bar chart takes. Positions are in pixels from the top left.

/// Grey is told from a light ground and from a dark one.
const GREY: &str = "#808080";

pub fn page(width: f64, height: f64, elements: &str) -> String {
    let head = format!("<svg xmlns=\"http://www.w3.org/2000/svg\" viewBox=\"0 0 {width} {height}\" width=\"{width}\"");
    format!("{head} font-family=\"sans-serif\" fill=\"{GREY}\">\n{elements}</svg>\n")
}

pub fn text(x: f64, y: f64, size: f64, words: &str) -> String {
    format!("<text x=\"{x:.1}\" y=\"{y:.1}\" font-size=\"{size}\">{words}</text>\n")
}

pub fn bar(x: f64, y: f64, width: f64, height: f64, colour: &str) -> String {
    format!("<rect x=\"{x:.1}\" y=\"{y:.1}\" width=\"{width:.1}\" height=\"{height:.1}\" fill=\"{colour}\"/>\n")
}

pub fn upright(x: f64, top: f64, bottom: f64, width: f64) -> String {
    let ends = format!("x1=\"{x:.1}\" y1=\"{top:.1}\" x2=\"{x:.1}\" y2=\"{bottom:.1}\"");
    format!("<line {ends} stroke=\"{GREY}\" stroke-width=\"{width}\"/>\n")
}
