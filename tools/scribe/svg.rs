//! The few shapes that a picture is made of. Colours are in the style alone, which has a second set for
//! dark screens; the page is painted, so that the picture reads on any background.

const STYLE: &str = "
text { font-family: ui-monospace, 'DejaVu Sans Mono', Menlo, Consolas, monospace; font-size: 10px; fill: #1c2530; }
.title { font-size: 15px; font-weight: bold; }
.part { font-size: 12px; font-weight: bold; }
.mid { text-anchor: middle; }
.faint { fill: #5d6a78; font-size: 9px; }
.chip { fill: #ffffff; font-weight: bold; text-anchor: middle; }
.no { fill: #c81e1e; font-weight: bold; text-anchor: middle; }
.page { fill: #ffffff; }
.lane { fill: #eef1f4; }
.R { fill: #1d4ed8; } .W { fill: #b45309; } .MW { fill: #9d174d; }
.MR { fill: #0f766e; } .CU { fill: #6d28d9; } .CI { fill: #57534e; }
.refused { fill: #ffffff; stroke: #c81e1e; stroke-width: 1.5; stroke-dasharray: 3 2; }
.settled { fill: #16a34a; fill-opacity: 0.26; }
.edge { stroke: #15803d; stroke-width: 2; }
.across { stroke: #9d174d; stroke-opacity: 0.55; stroke-dasharray: 2 3; }
.b0 { fill: #94a3b8; } .b1 { fill: #3b82f6; } .b2 { fill: #f59e0b; } .b3 { fill: #ec4899; }
.b4 { fill: #06b6d4; } .b5 { fill: #8b5cf6; } .none { fill: #ef4444; }
.tint { fill-opacity: 0.13; }
.touch { fill-opacity: 0; }
.strip { fill-opacity: 0.45; }
@media (prefers-color-scheme: dark) {
text { fill: #e6ebf0; }
.faint { fill: #9aa7b4; }
.no { fill: #ff8a8a; }
.page { fill: #12171c; }
.lane { fill: #1d242b; }
.R { fill: #2f62e8; } .W { fill: #b45309; } .MW { fill: #b3266a; }
.refused { fill: #12171c; stroke: #ff8a8a; }
.edge { stroke: #4ade80; }
.across { stroke: #f472b6; }
}
";

pub struct Svg(String);

fn escaped(text: &str) -> String {
    text.replace('&', "&amp;").replace('<', "&lt;").replace('>', "&gt;").replace('"', "&quot;")
}

impl Svg {
    pub fn new() -> Svg {
        Svg(String::new())
    }

    pub fn rect(&mut self, at: (usize, usize), size: (usize, usize), round: usize, class: &str) {
        let ((x, y), (width, height)) = (at, size);
        self.0 += &format!(
            "<rect x=\"{x}\" y=\"{y}\" width=\"{width}\" height=\"{height}\" rx=\"{round}\" class=\"{class}\"/>\n"
        );
    }

    pub fn text(&mut self, at: (usize, usize), class: &str, text: &str) {
        let (x, y) = at;
        self.0 += &format!("<text x=\"{x}\" y=\"{y}\" class=\"{class}\">{}</text>\n", escaped(text));
    }

    /// A line straight down.
    pub fn down(&mut self, at: (usize, usize), length: usize, class: &str) {
        let (x, y) = at;
        self.0 += &format!("<line x1=\"{x}\" y1=\"{y}\" x2=\"{x}\" y2=\"{}\" class=\"{class}\"/>\n", y + length);
    }

    /// Shapes that say this when pointed at.
    pub fn titled(&mut self, title: &str, draw: impl FnOnce(&mut Svg)) {
        self.0 += &format!("<g><title>{}</title>\n", escaped(title));
        draw(self);
        self.0 += "</g>\n";
    }

    /// The whole picture on its page.
    pub fn finish(self, width: usize, height: usize) -> String {
        let mut page = Svg::new();
        page.rect((0, 0), (width, height), 0, "page");
        let room = format!("width=\"{width}\" height=\"{height}\" viewBox=\"0 0 {width} {height}\"");
        format!(
            "<svg xmlns=\"http://www.w3.org/2000/svg\" {room}>\n<style>{STYLE}</style>\n{}{}</svg>\n",
            page.0, self.0
        )
    }
}
