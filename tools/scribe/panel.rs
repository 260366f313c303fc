//! A panel: engines as lanes, columns from left to right, broken into rows that fit the page.

use crate::svg::Svg;

pub const MARGIN: usize = 18;
/// Left of the lanes, for their names.
pub const GUTTER: usize = 76;
const LANE: usize = 62;
const STRIP: usize = 13;
const HEAD: usize = 16;
const ROW_GAP: usize = 16;
const CHIP: (usize, usize) = (24, 16);
const WIDEST_ROW: usize = 1_160;
/// One letter of the marks' text, in tenths of a pixel.
const LETTER_TENTHS: usize = 62;
const COLOURS: usize = 6;

/// What lies behind a lane at one column.
#[derive(Clone, Copy, PartialEq)]
pub enum Band {
    Slot(usize),
    Unpublished,
    Nothing,
}

#[derive(Clone, Copy, PartialEq)]
pub enum Shade {
    Nothing,
    /// Behind the mark alone.
    Mark,
    /// Behind the whole column.
    Column,
    /// The same, and the shaded part ends here.
    LastColumn,
}

pub struct Mark {
    pub lane: usize,
    pub letters: String,
    pub above: String,
    pub below: String,
    pub refused: bool,
    /// The printed line, shown when the mark is pointed at.
    pub line: String,
}

pub struct Column {
    pub head: String,
    pub mark: Mark,
    /// One for each lane.
    pub bands: Vec<Band>,
    pub shade: Shade,
    /// Whether the event reaches every lane.
    pub across: bool,
}

pub struct Panel {
    pub name: String,
    pub lanes: Vec<String>,
    pub columns: Vec<Column>,
}

impl Band {
    fn class(self) -> Option<String> {
        match self {
            Band::Slot(number) => Some(format!("b{}", number % COLOURS)),
            Band::Unpublished => Some("none".to_string()),
            Band::Nothing => None,
        }
    }

    fn name(self) -> String {
        match self {
            Band::Slot(number) => number.to_string(),
            Band::Unpublished => "-".to_string(),
            Band::Nothing => String::new(),
        }
    }
}

impl Column {
    /// As wide as the longest text of its mark, so that no two run into each other.
    fn width(&self) -> usize {
        let texts = [&self.mark.above, &self.mark.below, &self.head];
        let longest = texts.iter().map(|text| text.chars().count()).max().unwrap_or(0);
        (longest * LETTER_TENTHS / 10 + 6).max(CHIP.0 + 6)
    }
}

fn width_of(columns: &[Column]) -> usize {
    columns.iter().map(Column::width).sum()
}

impl Panel {
    /// The columns in rows, as many to each as fit.
    fn rows(&self) -> Vec<&[Column]> {
        let mut rows = Vec::new();
        let mut left = &self.columns[..];
        while !left.is_empty() {
            let fitting =
                (1..=left.len()).take_while(|count| width_of(&left[..*count]) <= WIDEST_ROW).last().unwrap_or(1);
            let (row, rest) = left.split_at(fitting);
            rows.push(row);
            left = rest;
        }
        rows
    }

    pub fn width(&self) -> usize {
        GUTTER + self.rows().into_iter().map(width_of).max().unwrap_or(0)
    }

    /// Draws the panel from this height down; answers where it ends.
    pub fn draw(&self, svg: &mut Svg, top: usize) -> usize {
        svg.text((MARGIN, top + 12), "part", &self.name);
        let mut y = top + 22;
        for row in self.rows() {
            self.draw_row(svg, y, row);
            y += self.row_height() + ROW_GAP;
        }
        y
    }

    fn row_height(&self) -> usize {
        HEAD + self.lanes.len() * LANE
    }

    fn draw_row(&self, svg: &mut Svg, top: usize, row: &[Column]) {
        let left = MARGIN + GUTTER;
        for (lane, name) in self.lanes.iter().enumerate() {
            let y = top + HEAD + lane * LANE;
            svg.text((MARGIN, y + 27), "", name);
            if row[0].bands[lane] != Band::Nothing {
                svg.text((left - 30, y + LANE - 6), "faint", "slot");
            }
            svg.rect((left, y), (width_of(row), LANE - 3), 3, "lane");
            draw_bands(svg, (left, y), row, lane);
        }
        for (place, column) in row.iter().enumerate() {
            let x = left + width_of(&row[..place]);
            self.draw_behind(svg, (x, top), column);
            svg.text((x + column.width() / 2, top + 11), "faint mid", &column.head);
            draw_mark(svg, (x, top + HEAD + column.mark.lane * LANE), column.width(), &column.mark);
        }
    }

    fn draw_behind(&self, svg: &mut Svg, at: (usize, usize), column: &Column) {
        let ((x, top), width) = (at, column.width());
        let lane_top = |lane: usize| top + HEAD + lane * LANE;
        let own = column.mark.lane;
        match column.shade {
            Shade::Nothing => {}
            Shade::Mark => svg.rect((x + 1, lane_top(own) + 2), (width - 2, LANE - STRIP - 6), 4, "settled"),
            Shade::Column | Shade::LastColumn => self.shade_column(svg, at, width),
        }
        if column.shade == Shade::LastColumn {
            svg.down((x + width, top), self.row_height() - 3, "edge");
        }
        // in its own lane the line would run through the mark's text
        for lane in (0..self.reached_lanes(column)).filter(|lane| *lane != own) {
            svg.down((x + width / 2, lane_top(lane)), LANE - 3 - STRIP, "across");
        }
    }

    /// All of a column but the strips, whose colours would be told apart no longer.
    fn shade_column(&self, svg: &mut Svg, at: (usize, usize), width: usize) {
        let (x, top) = at;
        svg.rect((x, top), (width, HEAD), 0, "settled");
        for lane in 0..self.lanes.len() {
            svg.rect((x, top + HEAD + lane * LANE), (width, LANE - 3 - STRIP), 0, "settled");
        }
    }

    fn reached_lanes(&self, column: &Column) -> usize {
        let engine_lanes = column.bands.iter().filter(|band| **band != Band::Nothing).count();
        if column.across {
            engine_lanes
        } else {
            0
        }
    }
}

/// Neighbours with the same band make one stretch, which has its number once.
fn draw_bands(svg: &mut Svg, at: (usize, usize), row: &[Column], lane: usize) {
    let ((mut x, y), height) = (at, LANE - 3);
    for stretch in row.chunk_by(|left, right| left.bands[lane] == right.bands[lane]) {
        let (band, length) = (stretch[0].bands[lane], width_of(stretch));
        if let Some(class) = band.class() {
            svg.rect((x, y), (length, height - STRIP), 0, &format!("{class} tint"));
            svg.rect((x, y + height - STRIP), (length, STRIP), 0, &format!("{class} strip"));
            svg.text((x + 4, y + height - 3), "", &band.name());
        }
        x += length;
    }
}

fn draw_mark(svg: &mut Svg, at: (usize, usize), width: usize, mark: &Mark) {
    let ((left, y), middle) = (at, at.0 + width / 2);
    let (shape, letters, below) =
        if mark.refused { ("refused", "no", "no") } else { (mark.letters.as_str(), "chip", "mid") };
    svg.titled(&mark.line, |svg| {
        // takes the pointer wherever it is in the cell
        svg.rect((left, y), (width, LANE - STRIP), 0, "touch");
        svg.text((middle, y + 11), "faint mid", &mark.above);
        svg.rect((middle - CHIP.0 / 2, y + 15), CHIP, 4, shape);
        svg.text((middle, y + 27), letters, &mark.letters);
        svg.text((middle, y + 42), below, &mark.below);
    });
}
