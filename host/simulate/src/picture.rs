//! Draws a run: a row for each station, ticks to the right, views as bands, votes with the timers of
//! their commits, quits, blames, and the messages upon which a station did something.

use crate::canvas::{Canvas, Font};
use crate::group::{Delays, Letter};
use crate::story::{self, Story};
use crate::trace::{Mark, Trace, What};
use station::{Lock, Message, Name};

const LEFT: f64 = 148.0;
const RIGHT: f64 = 44.0;
const TOP: f64 = 104.0;
const ROW: f64 = 76.0;
/// A tick's width, where there are many; fewer are wider, so that a sheet has its least width.
const TICK: f64 = 15.0;
const WIDEST: f64 = 28.0;
const LEAST_WIDTH: f64 = 1180.0;
/// Height of a timer, and from one lane of timers to the next.
const BAR: f64 = 12.0;
const LANE: f64 = 14.0;
const LANES: u32 = 3;
/// Where new-views and the votes for them stand in a row.
const NEW_VIEW: f64 = 29.0;

const INK: &str = "#1f2933";
const PALE: &str = "#66727f";
const RED: &str = "#c0392b";
const AMBER: &str = "#d07c0a";
const GREEN: &str = "#1d7f46";
const GOLD: &str = "#b8860b";

const BANDS: [&str; 6] = ["#dfeaf8", "#fbead2", "#e0f2e3", "#efe3f8", "#fde2e2", "#dcf1f2"];
const BLOCKS: [&str; 4] = ["#2d6fb7", "#c0392b", "#8e44ad", "#16808a"];

const TITLE: Font = Font::new(19.0, INK).bold();
const BODY: Font = Font::new(12.0, INK);
const SMALL: Font = Font::new(9.5, PALE);
const LABEL: Font = Font::new(12.5, INK).bold();
const IN_BAR: Font = Font::new(9.0, "#ffffff").bold();

/// The run as one SVG file.
pub fn draw(trace: &Trace) -> String {
    let room = (LEAST_WIDTH - LEFT - RIGHT) / f64::from(trace.last + 1);
    let tick = room.clamp(TICK, WIDEST);
    let mut sheet = Sheet { trace, tick, canvas: Canvas::default(), story: story::first(trace) };
    sheet.ground();
    sheet.window();
    for station in 0..trace.plan.n {
        sheet.row(station);
    }
    sheet.guides();
    for letter in &trace.letters {
        sheet.letter(letter);
    }
    for station in 0..trace.plan.n {
        sheet.deeds(station);
    }
    sheet.heading();
    let below = sheet.legend(sheet.bottom() + 42.0);
    let height = sheet.explanation(below + 30.0);
    let width = sheet.width();
    sheet.canvas.finish(width, height, "A group of stations, tick by tick")
}

struct Sheet<'a> {
    trace: &'a Trace,
    /// A tick's width.
    tick: f64,
    canvas: Canvas,
    story: Option<Story>,
}

/// Where things are.
impl Sheet<'_> {
    fn width(&self) -> f64 {
        (self.x(self.trace.last + 1) + RIGHT).max(LEAST_WIDTH)
    }

    fn bottom(&self) -> f64 {
        self.y(self.trace.plan.n)
    }

    /// The left edge of a tick's column: what the tick itself does stands here.
    fn x(&self, clock: u32) -> f64 {
        LEFT + f64::from(clock) * self.tick
    }

    fn y(&self, station: u8) -> f64 {
        TOP + f64::from(station) * ROW
    }

    /// A mark's place along the row: what comes after the tick stands in the middle of its column.
    fn along(&self, mark: &Mark) -> f64 {
        self.x(mark.clock) + if mark.by_tick { 0.0 } else { self.tick / 2.0 }
    }

    /// The middle of the lane for a block of this height.
    fn lane(&self, station: u8, height: u32) -> f64 {
        self.y(station) + 26.0 + LANE * f64::from((height + LANES - 1) % LANES) + BAR / 2.0
    }

    /// Where a faulty leader's block stands: rivals of one height below each other, clear of the next two heights'.
    fn stall(&self, station: u8, height: u32, rival: usize) -> f64 {
        self.y(station) + 28.0 + 10.5 * ((2 * (height as usize - 1) + rival) % 5) as f64
    }

    fn colour(&self, height: u32, name: &Name) -> &'static str {
        BLOCKS[self.trace.rival(height, name).min(BLOCKS.len() - 1)]
    }
}

/// What stands behind everything.
impl Sheet<'_> {
    fn ground(&mut self) {
        let (width, bottom) = (self.width(), self.bottom());
        self.canvas.raw(
            "<defs><pattern id=\"faulty\" width=\"7\" height=\"7\" patternUnits=\"userSpaceOnUse\" \
             patternTransform=\"rotate(45)\"><rect width=\"7\" height=\"7\" fill=\"#f3f1ee\"/>\
             <line x1=\"0\" y1=\"0\" x2=\"0\" y2=\"7\" stroke=\"#e2ddd6\" stroke-width=\"2.5\"/></pattern></defs>",
        );
        let style = r##"fill="#ffffff""##;
        self.canvas.rectangle((0.0, 0.0), (width, bottom + 2000.0), style, "");
        for clock in 0..=self.trace.last + 1 {
            let x = self.x(clock);
            let major = clock % 5 == 0;
            let colour = if major { "#d5dae0" } else { "#eef0f3" };
            let style = format!(r#"stroke="{colour}" stroke-width="1""#);
            self.canvas.line((x, TOP - 6.0), (x, bottom + 4.0), &style, "");
            if major {
                self.canvas.text((x, bottom + 17.0), SMALL.middle(), &clock.to_string());
            }
        }
        self.canvas.text((LEFT - 12.0, bottom + 17.0), SMALL.end(), "tick");
    }

    /// The moments of the commit that is explained: the vote, D and 2D ticks later, and the commit.
    fn moments(&self) -> Option<[f64; 4]> {
        let (vote, d) = (self.story.as_ref()?.vote, self.trace.plan.d);
        let after = |clock| self.x(clock) + self.tick / 2.0;
        Some([after(vote), after(vote + d), after(vote + 2 * d), self.x(vote + 2 * d + 1)])
    }

    /// The time between them.
    fn window(&mut self) {
        let Some([start, .., end]) = self.moments() else { return };
        let (top, bottom) = (TOP - 8.0, self.bottom() + 2.0);
        let style = r##"fill="#fff3c4""##;
        self.canvas.rectangle((start, top), (end - start, bottom - top), style, "");
    }

    /// The moments as lines, and the votes that are given between them.
    fn guides(&mut self) {
        let Some(moments) = self.moments() else { return };
        for (place, x) in moments.into_iter().enumerate() {
            let style = format!(r#"stroke="{GOLD}" stroke-width="1.2" stroke-dasharray="3 3""#);
            self.canvas.line((x, TOP - 8.0), (x, self.bottom() + 2.0), &style, "");
            let up = if place == 3 { 31.0 } else { 16.0 };
            self.numbered((x, TOP - up), place + 1);
        }
        for letter in &self.trace.votes {
            self.vote_given(letter);
        }
    }

    /// A sound station's vote for the block that is explained.
    fn vote_given(&mut self, letter: &Letter) {
        let Some(story) = &self.story else { return };
        let Message::Vote { view, name, height, .. } = letter.message else { return };
        if (view, name) != (story.view, story.name) || !self.trace.plan.is_sound(letter.from) {
            return;
        }
        let at = |clock, station| (self.x(clock) + self.tick / 2.0, self.lane(station, height));
        let (start, end) = (at(letter.sent, letter.from), at(letter.due, letter.to));
        let style = format!(r#"stroke="{GOLD}" stroke-width="1" opacity="0.75""#);
        let meaning = format!("the vote of {} reaches {}", letter.from, letter.to);
        self.canvas.line(start, end, &style, &meaning);
    }

    /// A number in a circle, as in the explanation.
    fn numbered(&mut self, (x, y): (f64, f64), number: usize) {
        self.canvas.circle((x, y), 8.0, &format!(r#"fill="{GOLD}""#), "");
        let font = Font::new(10.0, "#ffffff").bold().middle();
        self.canvas.text((x, y + 3.6), font, &number.to_string());
    }

    /// A station's label, and its views as bands.
    fn row(&mut self, station: u8) {
        let y = self.y(station);
        let plan = &self.trace.plan;
        let fault = plan.faults[usize::from(station)];
        self.canvas.text((LEFT - 12.0, y + 32.0), LABEL.end(), &format!("station {station}"));
        let (words, colour) = match fault {
            Some(fault) => (fault.deed(), RED),
            None => ("sound", GREEN),
        };
        let font = Font { colour, ..SMALL };
        self.canvas.text((LEFT - 12.0, y + 47.0), font.end(), words);
        if fault.is_some() {
            let size = (self.x(self.trace.last + 1) - LEFT, ROW - 12.0);
            let style = r#"rx="5" fill="url(#faulty)""#;
            self.canvas.rectangle((LEFT, y + 6.0), size, style, "a faulty station");
            return;
        }
        for (view, start, end, lock) in self.bands(station) {
            self.band(station, view, (start, end), lock);
        }
    }

    /// Each view that a station was in: from where to where, and its lock there.
    fn bands(&self, station: u8) -> Vec<(u32, f64, f64, Option<Lock>)> {
        let mut bands = Vec::new();
        let mut open = Some((1, LEFT, None));
        for mark in self.trace.of(station) {
            match (mark.what, open) {
                (What::Enters { view, lock }, _) => {
                    open = Some((view, self.along(mark), Some(lock)))
                }
                (What::Quits { .. }, Some((view, start, lock))) => {
                    bands.push((view, start, self.along(mark), lock));
                    open = None;
                }
                _ => {}
            }
        }
        if let Some((view, start, lock)) = open {
            bands.push((view, start, self.x(self.trace.last + 1), lock));
        }
        bands
    }

    fn band(&mut self, station: u8, view: u32, (start, end): (f64, f64), lock: Option<Lock>) {
        let y = self.y(station);
        let colour = BANDS[(view as usize - 1) % BANDS.len()];
        let leads = self.trace.plan.leader(view) == station;
        let style = format!(r#"rx="5" fill="{colour}" fill-opacity="0.85""#);
        let meaning = format!("station {station} is in view {view}");
        self.canvas.rectangle((start, y + 6.0), (end - start, ROW - 12.0), &style, &meaning);
        let mut words = format!("view {view}");
        if leads {
            words.push_str(", leads");
        }
        if let Some(lock) = lock {
            words.push_str(&format!(", lock {}", self.trace.label(lock.height, &lock.name)));
        }
        self.canvas.text((start + 6.0, y + 19.0), Font { colour: INK, ..SMALL }, &words);
    }
}

/// What stations do, and what they do it upon.
impl Sheet<'_> {
    /// A message upon which a station did something.
    fn letter(&mut self, letter: &Letter) {
        let Letter { from, to, sent, due, message } = *letter;
        let colour = match message {
            Message::Propose { height, name, .. } => self.colour(height, &name),
            Message::Blame { .. } | Message::BlameSet { .. } => AMBER,
            _ => PALE,
        };
        let by_tick = self.trace.of(from).any(|mark| mark.clock == sent && mark.by_tick);
        let offset = if by_tick { 0.0 } else { self.tick / 2.0 };
        let start = (self.x(sent) + offset, self.level(from, &message));
        let end = (self.x(due) + self.tick / 2.0, self.level(to, &message));
        let style = format!(r#"stroke="{colour}" stroke-width="1.1" opacity="0.45""#);
        let meaning =
            format!("{}, sent at {sent} by {from}, given to {to} at {due}", self.words(&message));
        self.canvas.line(start, end, &style, &meaning);
        self.canvas.circle(end, 2.0, &format!(r#"fill="{colour}" opacity="0.7""#), &meaning);
    }

    /// The height in a row at which a message stands.
    fn level(&self, station: u8, message: &Message) -> f64 {
        match message {
            Message::Propose { height, name, author, .. } => {
                match *author == station && !self.trace.plan.is_sound(station) {
                    true => self.stall(station, *height, self.trace.rival(*height, name)),
                    false => self.lane(station, *height),
                }
            }
            Message::Blame { .. } | Message::BlameSet { .. } => self.y(station) + ROW - 17.0,
            _ => self.y(station) + NEW_VIEW,
        }
    }

    fn words(&self, message: &Message) -> String {
        let label = |height, name| self.trace.label(height, &name);
        match *message {
            Message::NewView { view, height, name, .. } => {
                format!("new-view of view {view} on {}", label(height, name))
            }
            Message::Propose { height, name, .. } => format!("propose {}", label(height, name)),
            Message::Vote { height, name, .. } => format!("vote for {}", label(height, name)),
            Message::Blame { view, .. } => format!("blame of view {view}"),
            Message::BlameSet { view, .. } => format!("blame set of view {view}"),
            Message::Status { height, name, .. } => format!("status {}", label(height, name)),
        }
    }

    fn deeds(&mut self, station: u8) {
        let marks: Vec<Mark> = self.trace.of(station).copied().collect();
        for (place, mark) in marks.iter().enumerate() {
            match mark.what {
                What::Votes { height, name, on_propose: true, .. } => {
                    self.timer(mark, height, &name, &marks[place + 1..]);
                }
                What::Votes { height, name, .. } => {
                    let meaning = format!(
                        "station {station} votes at {} for the new-view on {}",
                        mark.clock,
                        self.trace.label(height, &name)
                    );
                    let style = format!(r##"fill="#ffffff" stroke="{INK}" stroke-width="1.4""##);
                    let at = (self.along(mark), self.y(station) + NEW_VIEW);
                    self.canvas.circle(at, 3.6, &style, &meaning);
                }
                What::Blames { view } => self.blame(mark, view),
                What::Quits { view, on_pair } => self.quit(mark, view, on_pair),
                What::Commits { .. } | What::Enters { .. } | What::Makes(_) => {}
            }
        }
        for mark in &marks {
            match mark.what {
                What::Makes(statement) => self.made(mark, &statement),
                What::Commits { .. } => self.commit(mark, &marks),
                _ => {}
            }
        }
    }

    /// A vote for a propose, and the time until its commit: whole, cut off by a quit, or running.
    fn timer(&mut self, mark: &Mark, height: u32, name: &Name, later: &[Mark]) {
        let due = mark.clock + 2 * self.trace.plan.d + 1;
        let quit = later.iter().find(|mark| matches!(mark.what, What::Quits { .. }));
        let quit = quit.filter(|quit| quit.clock < due);
        let start = self.along(mark);
        let edge = self.x(self.trace.last + 1);
        let end = quit.map_or(self.x(due).min(edge), |quit| self.along(quit));
        let y = self.lane(mark.station, height);
        let colour = self.colour(height, name);
        let label = self.trace.label(height, name);
        let meaning =
            format!("station {} votes for {label} at {}, due at {due}", mark.station, mark.clock);
        let opacity = if quit.is_some() { 0.55 } else { 0.9 };
        let style = format!(r#"rx="3" fill="{colour}" opacity="{opacity}""#);
        let width = (end - start).max(5.0);
        self.canvas.rectangle((start, y - BAR / 2.0), (width, BAR), &style, &meaning);
        if width >= 18.0 {
            let indent = if self.is_made(mark, name) { 9.0 } else { 5.0 };
            self.canvas.text((start + indent, y + 3.3), IN_BAR, &label);
        }
        if quit.is_some() {
            let style = format!(r#"stroke="{RED}" stroke-width="2.2" stroke-linecap="round""#);
            self.canvas.cross((end + 1.0, y), 4.0, &style, "cut off by the quit: no commit");
        }
    }

    /// Whether a voter is the leader that made the block.
    fn is_made(&self, vote: &Mark, wanted: &Name) -> bool {
        self.trace.of(vote.station).any(|mark| match mark.what {
            What::Makes(Message::Propose { name, .. }) => name == *wanted,
            _ => false,
        })
    }

    /// The commits of one tick, as one chip at the end of the timer.
    fn commit(&mut self, mark: &Mark, marks: &[Mark]) {
        let of_tick = |other: &&Mark| other.clock == mark.clock;
        let blocks: Vec<(u32, Name)> = marks.iter().filter(of_tick).filter_map(committed).collect();
        let (Some(first), Some(last)) = (blocks.first(), blocks.last()) else { return };
        if committed(mark) != Some(*last) {
            return;
        }
        let label = |block: &(u32, Name)| self.trace.label(block.0, &block.1);
        let words = match blocks.len() {
            1 => format!("✓ {}", label(last)),
            _ => format!("✓ {}–{}", label(first), label(last)),
        };
        let (x, y) = (self.along(mark), self.lane(mark.station, last.0));
        let meaning = format!("station {} commits {words} at {}", mark.station, mark.clock);
        let size = (IN_BAR.width(&words) + 9.0, BAR + 3.0);
        let style = format!(r##"rx="4" fill="{GREEN}" stroke="#ffffff" stroke-width="1""##);
        self.canvas.rectangle((x, y - size.1 / 2.0), size, &style, &meaning);
        self.canvas.text((x + 4.0, y + 3.3), IN_BAR, &words);
    }

    /// A statement that a leader makes. A sound one votes for it in the same moment.
    fn made(&mut self, mark: &Mark, statement: &Message) {
        let (x, station) = (self.along(mark), mark.station);
        let meaning =
            format!("station {station} makes {} at {}", self.words(statement), mark.clock);
        let sound = self.trace.plan.is_sound(station);
        match *statement {
            Message::Propose { height, name, .. } => {
                let (y, colour) = (self.level(station, statement), self.colour(height, &name));
                let style = format!(r##"fill="{colour}" stroke="#ffffff" stroke-width="1.2""##);
                self.canvas.diamond((x, y), if sound { 6.5 } else { 5.5 }, &style, &meaning);
                if !sound {
                    let font = Font { colour, ..SMALL.bold() };
                    self.canvas.text((x + 9.0, y + 3.5), font, &self.trace.label(height, &name));
                }
            }
            Message::NewView { height, name, .. } => {
                let y = self.y(station) + NEW_VIEW;
                let style = format!(r##"fill="#ffffff" stroke="{INK}" stroke-width="1.4""##);
                self.canvas.diamond((x, y), 6.0, &style, &meaning);
                let words = format!("new-view on {}", self.trace.label(height, &name));
                let font = Font { colour: INK, ..SMALL };
                // a sound leader's next blocks stand in other lanes
                let lane = self.lane(station, height + LANES) + 3.5;
                let at = if sound { (x + 9.0, lane) } else { (x - 4.0, y - 9.0) };
                self.canvas.text(at, font, &words);
            }
            _ => {}
        }
    }

    fn blame(&mut self, mark: &Mark, view: u32) {
        let (x, y) = (self.along(mark), self.y(mark.station) + ROW - 17.0);
        let meaning = format!("station {} blames view {view} at {}", mark.station, mark.clock);
        let points = [(x - 5.0, y + 5.0), (x + 5.0, y + 5.0), (x, y - 5.0)];
        let style = format!(r##"fill="{AMBER}" stroke="#ffffff" stroke-width="1""##);
        self.canvas.polygon(&points, &style, &meaning);
    }

    fn quit(&mut self, mark: &Mark, view: u32, on_pair: bool) {
        let (x, y) = (self.along(mark), self.y(mark.station));
        let (words, colour) = if on_pair { ("conflict", RED) } else { ("blamed", AMBER) };
        let meaning =
            format!("station {} quits view {view} at {}: {words}", mark.station, mark.clock);
        let style = format!(r#"stroke="{colour}" stroke-width="3" stroke-linecap="round""#);
        self.canvas.line((x, y + 7.0), (x, y + ROW - 7.0), &style, &meaning);
        let font = Font { colour, ..SMALL };
        self.canvas.text((x + 5.0, y + 19.0), font, "quits:");
        self.canvas.text((x + 5.0, y + 31.0), font, words);
    }
}

fn committed(mark: &Mark) -> Option<(u32, Name)> {
    match mark.what {
        What::Commits { height, name } => Some((height, name)),
        _ => None,
    }
}

/// What is said around the rows.
impl Sheet<'_> {
    fn heading(&mut self) {
        let plan = &self.trace.plan;
        let faulty = plan.faults.iter().flatten().count();
        let title = format!("{} stations, {faulty} of them faulty", plan.n);
        let taken = match plan.delays {
            Delays::Longest => ", and here each takes as long as it may",
            Delays::Bounds | Delays::Any => "",
        };
        let line = format!(
            "Messages arrive within D ticks, D = {}{taken}. A sound station commits a block 2D+1 ticks after its vote, if it is still in the view.",
            plan.d
        );
        self.canvas.text((24.0, 34.0), TITLE, &title);
        self.canvas.text((24.0, 55.0), Font { colour: PALE, ..BODY }, &line);
    }

    fn legend(&mut self, y: f64) -> f64 {
        let ink = format!(r##"fill="#ffffff" stroke="{INK}" stroke-width="1.4""##);
        let blue = format!(r#"fill="{}""#, BLOCKS[0]);
        let mut x = 24.0;
        let mut entry = |canvas: &mut Canvas, words: &str, draw: &dyn Fn(&mut Canvas, f64)| {
            draw(canvas, x);
            canvas.text((x + 28.0, y + 3.5), Font { colour: INK, ..SMALL }, words);
            x += 46.0 + SMALL.width(words);
        };
        let canvas = &mut self.canvas;
        entry(canvas, "statement made", &|c, x| c.diamond((x + 12.0, y), 6.0, &ink, ""));
        entry(canvas, "vote for a new-view", &|c, x| c.circle((x + 12.0, y), 3.6, &ink, ""));
        entry(canvas, "vote for a block, and its timer", &|c, x| {
            c.rectangle((x, y - 6.0), (24.0, BAR), &format!(r#"rx="3" {blue}"#), "");
            c.text((x + 4.0, y + 3.3), IN_BAR, "A1");
        });
        entry(canvas, "timer cut off", &|c, x| {
            let style = format!(r#"stroke="{RED}" stroke-width="2.2" stroke-linecap="round""#);
            c.cross((x + 12.0, y), 4.0, &style, "");
        });
        entry(canvas, "commit", &|c, x| {
            c.rectangle((x - 6.0, y - 7.0), (30.0, 15.0), &format!(r#"rx="4" fill="{GREEN}""#), "");
            c.text((x - 2.0, y + 3.3), IN_BAR, "✓ A1");
        });
        entry(canvas, "blame", &|c, x| {
            let points = [(x + 7.0, y + 5.0), (x + 17.0, y + 5.0), (x + 12.0, y - 5.0)];
            c.polygon(&points, &format!(r#"fill="{AMBER}""#), "");
        });
        entry(canvas, "message that a station acted on", &|c, x| {
            let style = format!(r#"stroke="{}" stroke-width="1.1" opacity="0.6""#, BLOCKS[0]);
            c.line((x, y - 5.0), (x + 22.0, y + 5.0), &style, "");
        });
        if let Some(story) = &self.story {
            let label = self.trace.label(story.height, &story.name);
            entry(canvas, &format!("sound votes for {label} on their way"), &|c, x| {
                let style = format!(r#"stroke="{GOLD}" stroke-width="1.2""#);
                c.line((x, y + 5.0), (x + 22.0, y - 5.0), &style, "");
            });
        }
        y + 14.0
    }

    /// Why one commit is safe.
    fn explanation(&mut self, y: f64) -> f64 {
        let Some(story) = self.story.take() else { return y };
        let label = self.trace.label(story.height, &story.name);
        let title = format!(
            "Why station {} may commit {label} at tick {}",
            story.station,
            story.vote + 2 * self.trace.plan.d + 1
        );
        self.canvas.text((24.0, y), Font::new(14.0, INK).bold(), &title);
        let mut at = y + 24.0;
        let width = (self.width() - 90.0).min(1100.0);
        for (place, text) in story.moments(self.trace).iter().enumerate() {
            self.numbered((34.0, at - 4.0), place + 1);
            at = self.canvas.paragraph((52.0, at), width, BODY, text) + 5.0;
        }
        at + 10.0
    }
}
