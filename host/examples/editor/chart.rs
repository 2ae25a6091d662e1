//! Draws a session as an SVG: above, each TSN's life over time; between, what the link lost; below, each message's life. Channels differ in colour,
//! in letter and in stroke, marks in shape, so that the drawing can be read without colours too.

use std::fmt::Write;

use crate::host::{CHANNELS, Channel, End, Event, Mark, Message};
use crate::link::DOWN;
use crate::{FIRST_TSN, Session};

const WIDTH: f64 = 960.0;
const LEFT: f64 = 120.0;
const RIGHT: f64 = 940.0;
/// Where the upper drawing begins, and the height of a TSN in it.
const TOP: f64 = 198.0;
const PITCH: f64 = 4.5;
/// A row of what was lost, and a message's row.
const STRIP: f64 = 15.0;
const ROW: f64 = 16.0;

const INK: &str = "#1f2933";
const SOFT: &str = "#52606d";
const RULE: &str = "#c3ced9";
const LOST: &str = "#c1121f";

/// How a channel is drawn: its letter, its colour and a tint of it, and the dashes of its lines. The colours stay apart for the colour-blind.
struct Look {
    letter: char,
    colour: &'static str,
    tint: &'static str,
    dashes: &'static str,
}

fn look(stream: u16) -> Look {
    match stream {
        1 => Look { letter: 'T', colour: "#0072b2", tint: "#cfe5f3", dashes: "none" },
        2 => Look { letter: 'L', colour: "#c65102", tint: "#fbdcc6", dashes: "5 2" },
        _ => Look { letter: 'P', colour: "#00805d", tint: "#c9eadf", dashes: "1.5 2" },
    }
}

/// What is drawn of a TSN.
#[derive(Clone, Copy, PartialEq, Eq)]
enum Sign {
    Sent,
    Lost,
    SentAgain,
    LostAgain,
    Acknowledged,
    GivenUp,
    Unheard,
    Terminator,
}

/// From the first drawn to the last, so that the rarest lie on top.
const SIGNS: [Sign; 8] =
    [Sign::Sent, Sign::Acknowledged, Sign::GivenUp, Sign::SentAgain, Sign::LostAgain, Sign::Lost, Sign::Unheard, Sign::Terminator];

fn sign(session: &Session, event: &Event) -> Sign {
    match (event.mark, event.lost) {
        (Mark::Sent, false) => Sign::Sent,
        (Mark::Sent, true) => Sign::Lost,
        (Mark::Retransmitted, false) => Sign::SentAgain,
        (Mark::Retransmitted, true) => Sign::LostAgain,
        (Mark::Acknowledged, _) => Sign::Acknowledged,
        (Mark::Abandoned, _) if session.receiver.arrived.get(&event.at).is_some_and(|at| *at <= event.time) => Sign::Unheard,
        (Mark::Abandoned, _) => Sign::GivenUp,
        (Mark::Terminator, _) => Sign::Terminator,
    }
}

fn name(sign: Sign) -> &'static str {
    match sign {
        Sign::Sent => "sent",
        Sign::Lost => "sent, lost on the link",
        Sign::SentAgain => "sent again",
        Sign::LostAgain => "sent again, lost",
        Sign::Acknowledged => "acknowledged",
        Sign::GivenUp => "given up",
        Sign::Unheard => "given up unheard: it had arrived",
        Sign::Terminator => "terminator: a TSN that is never sent",
    }
}

fn shape(sign: Sign, x: f64, y: f64, colour: &str) -> String {
    match sign {
        Sign::Sent => format!("<circle cx='{x:.1}' cy='{y:.1}' r='2' fill='{colour}'/>"),
        Sign::Lost => format!("<circle cx='{x:.1}' cy='{y:.1}' r='2.5' fill='#fff' stroke='{LOST}' stroke-width='1.3'/>"),
        Sign::SentAgain => format!("<path d='M{x:.1} {:.1}l3.4 5.8h-6.8z' fill='{colour}' stroke='#fff' stroke-width='0.5'/>", y - 3.4),
        Sign::LostAgain => format!("<path d='M{x:.1} {:.1}l3.3 5.7h-6.6z' fill='#fff' stroke='{LOST}' stroke-width='1.3'/>", y - 3.4),
        Sign::Acknowledged => {
            format!("<path d='M{:.1} {y:.1}l1.8 2.2l3.2 -4.6' fill='none' stroke='{colour}' stroke-width='1.4'/>", x - 2.2)
        }
        Sign::GivenUp => {
            let (x, y) = (x - 2.1, y - 2.1);
            format!("<path d='M{x:.1} {y:.1}l4.2 4.2m0 -4.2l-4.2 4.2' fill='none' stroke='{INK}' stroke-width='1.3'/>")
        }
        Sign::Unheard => {
            let corner = (x - 1.9, y - 1.9);
            format!(
                "<circle cx='{x:.1}' cy='{y:.1}' r='3.4' fill='#ffe08a' stroke='{INK}' stroke-width='0.9'/>\
                 <path d='M{:.1} {:.1}l3.8 3.8m0 -3.8l-3.8 3.8' fill='none' stroke='{INK}' stroke-width='1.1'/>",
                corner.0, corner.1
            )
        }
        Sign::Terminator => {
            format!("<path d='M{x:.1} {:.1}l5.4 5.4l-5.4 5.4l-5.4 -5.4z' fill='#7b2d8e' stroke='#fff' stroke-width='0.9'/>", y - 5.4)
        }
    }
}

fn text(x: f64, y: f64, size: f64, fill: &str, anchor: &str, words: &str) -> String {
    format!("<text x='{x:.1}' y='{y:.1}' font-size='{size}' fill='{fill}' text-anchor='{anchor}'>{words}</text>\n")
}

fn line(x1: f64, y1: f64, x2: f64, y2: f64, stroke: &str, more: &str) -> String {
    format!("<line x1='{x1:.1}' y1='{y1:.1}' x2='{x2:.1}' y2='{y2:.1}' stroke='{stroke}' {more}/>\n")
}

fn life(channel: &Channel) -> String {
    channel.lifetime.map_or("no lifetime".into(), |ms| format!("lives {ms} ms"))
}

fn order(channel: &Channel) -> &'static str {
    if channel.unordered { "unordered" } else { "ordered" }
}

/// A channel's lane: its messages with their rows, and how many rows they need.
struct Lane<'a> {
    channel: &'static Channel,
    messages: Vec<(&'a Message, usize)>,
    rows: usize,
}

impl Lane<'_> {
    fn height(&self) -> f64 {
        8.0 + ROW * self.rows.max(3) as f64
    }
}

/// Where times, TSNs and lanes are.
struct Chart<'a> {
    session: &'a Session,
    /// The last moment, and how many TSNs there are.
    time: f64,
    tsns: u32,
    /// When the first and the last thing happened to each TSN.
    spans: Vec<(u64, u64)>,
    /// The lower edge of the upper drawing, the upper edge of the lanes, and their lower edge.
    bottom: f64,
    lanes_top: f64,
    floor: f64,
    lanes: Vec<Lane<'a>>,
    svg: String,
}

impl<'a> Chart<'a> {
    fn new(session: &'a Session) -> Chart<'a> {
        let tsns = session.host.sender.next_tsn().wrapping_sub(FIRST_TSN);
        let bottom = TOP + 16.0 + PITCH * f64::from(tsns);
        let lanes_top = bottom + 26.0 + 2.0 * STRIP;
        let time = (session.ended as f64 / 50.0).ceil() * 50.0;
        let mut spans = vec![(u64::MAX, 0); tsns as usize];
        for event in &session.host.events {
            let (first, last) = &mut spans[event.at as usize];
            (*first, *last) = ((*first).min(event.time), (*last).max(event.time));
        }
        let mut chart = Chart { session, time, tsns, spans, bottom, lanes_top, floor: 0.0, lanes: Vec::new(), svg: String::new() };
        chart.lanes = chart.laid_out();
        chart.floor = lanes_top + chart.lanes.iter().map(Lane::height).sum::<f64>();
        chart
    }

    fn x(&self, time: u64) -> f64 {
        LEFT + (RIGHT - LEFT) * time as f64 / self.time
    }

    fn y(&self, at: u32) -> f64 {
        self.bottom - 10.0 - PITCH * f64::from(at)
    }

    fn put(&mut self, part: &str) {
        self.svg.push_str(part);
    }

    fn draw(mut self) -> String {
        self.ground();
        self.deadlines();
        self.lives();
        self.names();
        self.losses();
        self.draw_lanes();
        let height = self.legends();
        format!(
            "<svg xmlns='http://www.w3.org/2000/svg' viewBox='0 0 {WIDTH} {height}' width='{WIDTH}' height='{height}' font-family='Helvetica, Arial, sans-serif'>\n\
             <title>A session of analyses over a lossy link</title>\n\
             <defs>\n\
             <pattern id='down' width='8' height='8' patternUnits='userSpaceOnUse' patternTransform='rotate(45)'><rect width='2.5' height='8' fill='#9aa5b1' fill-opacity='0.3'/></pattern>\n\
             <pattern id='cut' width='6' height='6' patternUnits='userSpaceOnUse' patternTransform='rotate(-45)'><rect width='6' height='6' fill='#faf4fb'/><rect width='1.8' height='6' fill='#e7cfec'/></pattern>\n\
             </defs>\n\
             <rect width='{WIDTH}' height='{height}' fill='#fff'/>\n\
             {}</svg>\n",
            self.svg
        )
    }

    /// Times over the upper drawing, and under the lower one.
    fn axis(&mut self, y: f64, up: f64) {
        let mut time = 0;
        while time as f64 <= self.time {
            let x = self.x(time);
            let label = text(x, y + if up < 0.0 { -8.0 } else { 17.0 }, 12.0, INK, "middle", &time.to_string());
            self.put(&line(x, y, x, y + 5.0 * up, INK, ""));
            self.put(&label);
            time += 100;
        }
        self.put(&text(LEFT - 9.0, y + if up < 0.0 { -8.0 } else { 17.0 }, 12.0, INK, "end", "time in ms"));
        self.put(&line(LEFT, y, RIGHT, y, INK, ""));
    }

    fn ground(&mut self) {
        let (session, bottom, floor) = (self.session, self.bottom, self.floor);
        // A band for each edit: from the moment that the host hears of it to the next.
        for (at, edit) in session.edits.iter().enumerate() {
            let from = self.x(edit.at);
            let to = session.edits.get(at + 1).map_or(RIGHT, |next| self.x(next.at));
            let fill = if at % 2 == 0 { "#eef4fa" } else { "#fafbfd" };
            let band = format!("<rect x='{from:.1}' y='{TOP}' width='{:.1}' height='{:.1}' fill='{fill}'/>\n", to - from, floor - TOP);
            self.put(&band);
            self.put(&line(from, TOP - 16.0, from, floor, RULE, ""));
            self.put(&text(from + 3.0, TOP - 5.0, 11.0, "#486581", "start", &format!("v{}", edit.version)));
        }
        let (from, to) = (self.x(DOWN.0), self.x(DOWN.1));
        let band = format!("<rect x='{from:.1}' y='{TOP}' width='{:.1}' height='{:.1}' fill='url(#down)'/>\n", to - from, self.lanes_top - TOP);
        self.put(&band);
        let middle = (from + to) / 2.0;
        self.put(&format!(
            "<rect x='{:.1}' y='{:.1}' width='62' height='17' rx='3' fill='#fff' fill-opacity='0.85'/>\n",
            middle - 31.0,
            bottom - 21.0
        ));
        self.put(&text(middle, bottom - 8.5, 12.0, SOFT, "middle", "link down"));
        // TSNs.
        for at in (0..self.tsns).step_by(20) {
            let y = self.y(at);
            self.put(&line(LEFT - 5.0, y, LEFT, y, INK, ""));
            self.put(&line(LEFT, y, RIGHT, y, "#dde5ed", "stroke-width='0.6'"));
            self.put(&text(LEFT - 9.0, y + 4.0, 12.0, INK, "end", &FIRST_TSN.wrapping_add(at).to_string()));
        }
        self.put(&text(LEFT - 9.0, TOP - 5.0, 12.0, INK, "end", "TSN"));
        let wrap = 0u32.wrapping_sub(FIRST_TSN);
        if wrap < self.tsns {
            let y = self.y(wrap) + PITCH / 2.0;
            self.put(&line(LEFT, y, RIGHT, y, "#7b8794", "stroke-dasharray='7 4'"));
            self.put(&text(RIGHT - 4.0, y + 14.0, 11.0, SOFT, "end", "here TSNs wrap: 4294967295, then 0"));
        }
        self.put(&line(LEFT, TOP, LEFT, floor, INK, ""));
        self.put(&line(LEFT, bottom, RIGHT, bottom, RULE, ""));
        self.axis(TOP - 16.0, -1.0);
        self.axis(floor, 1.0);
    }

    /// The TSNs of each message: they stand together, since a message that has begun goes on to its end.
    fn runs(&self) -> Vec<(&'a Message, u32, u32)> {
        let host = &self.session.host;
        let mut from = 0;
        let mut runs = Vec::new();
        let mut sent: Vec<&Message> = host.messages.values().filter(|message| message.first.is_some()).collect();
        sent.sort_by_key(|message| message.first);
        for message in sent {
            assert_eq!(message.first, Some(from), "what was sent of a message stands together");
            let count = message.sent as u32 + u32::from(matches!(message.end, End::Cut(_)));
            runs.push((message, from, from + count - 1));
            from += count;
        }
        assert_eq!(from, self.tsns, "each TSN is of a message");
        runs
    }

    fn deadlines(&mut self) {
        for (message, first, last) in self.runs() {
            let Some(deadline) = message.deadline else { continue };
            let x = self.x(deadline);
            let bar = line(x, self.y(first) + 4.0, x, self.y(last) - 4.0, INK, "stroke-width='1.2' stroke-opacity='0.6'");
            self.put(&bar);
        }
    }

    fn lives(&mut self) {
        let session = self.session;
        // A thread from the first sending of a TSN to its end; then the marks.
        for (message, first, last) in self.runs() {
            let look = look(message.stream);
            let mut threads = format!("<g stroke='{}' stroke-width='1.1' stroke-opacity='0.55' stroke-dasharray='{}'>\n", look.colour, look.dashes);
            for at in first..=last {
                let (from, to) = self.spans[at as usize];
                let y = self.y(at);
                let _ = writeln!(threads, "<path d='M{:.1} {y:.1}H{:.1}'/>", self.x(from), self.x(to));
            }
            threads.push_str("</g>\n");
            self.put(&threads);
        }
        for drawn in SIGNS {
            for event in session.host.events.iter().filter(|event| sign(session, event) == drawn) {
                let tsn = FIRST_TSN.wrapping_add(event.at);
                let mark = shape(drawn, self.x(event.time), self.y(event.at), look(event.stream).colour);
                self.put(&format!("<g><title>TSN {tsn}: {}, {} ms</title>{mark}</g>\n", name(drawn), event.time));
            }
        }
    }

    /// The name of each message, left of its TSNs: nothing stands left of a TSN or of a later one.
    fn names(&mut self) {
        let mut above = f64::INFINITY;
        for (message, first, last) in self.runs() {
            let y = ((self.y(first) + self.y(last)) / 2.0).min(above - 9.5);
            above = y;
            // the lowest TSN beside the name
            let beside = ((self.bottom - 10.0 - y - 6.0) / PITCH).ceil().max(0.0) as u32;
            let x = self.x(self.spans[beside.min(first) as usize].0) - 6.0;
            let look = look(message.stream);
            let label = format!("<tspan font-weight='bold'>{}{}</tspan>", look.letter, message.version);
            self.put(&text(x, y + 3.5, 10.0, look.colour, "end", &label));
        }
    }

    /// Every packet that the link lost, each way.
    fn losses(&mut self) {
        let session = self.session;
        let ways = [("lost on the way out", &session.out.losses), ("lost on the way back", &session.back.losses)];
        for (row, (words, times)) in ways.into_iter().enumerate() {
            let y = self.bottom + 8.0 + STRIP * row as f64;
            self.put(&text(LEFT - 9.0, y + 9.0, 10.5, SOFT, "end", words));
            for time in times {
                let x = self.x(*time);
                self.put(&line(x, y, x, y + 10.0, LOST, "stroke-width='1.6'"));
            }
        }
    }

    /// A message lies in the first row that is free when it is written, with room for its name before it.
    fn laid_out(&self) -> Vec<Lane<'a>> {
        let lane = |channel: &'static Channel| {
            let mut free: Vec<f64> = Vec::new();
            let mut messages = Vec::new();
            for message in self.session.host.messages.values().filter(|message| message.stream == channel.stream) {
                let handed = self.session.handed(message).map_or(0, |handed| handed.at);
                let end = message.ended.max(handed).max(message.deadline.unwrap_or(0));
                let from = self.x(message.written) - 22.0;
                let row = free.iter().position(|until| *until < from).unwrap_or(free.len());
                free.resize(free.len().max(row + 1), 0.0);
                free[row] = self.x(end) + 5.0;
                messages.push((message, row));
            }
            Lane { channel, messages, rows: free.len() }
        };
        CHANNELS.iter().map(lane).collect()
    }

    fn bar(&self, message: &Message, y: f64) -> String {
        let handed = self.session.handed(message).map(|handed| handed.at);
        let look = look(message.stream);
        let sent = format!("{} of {} sent", message.sent, message.fragments());
        let (end, fill, dashes, sign, inside) = match (message.end, handed) {
            (End::Cut(_), _) => (message.ended, "url(#cut)", "none", Sign::Terminator, sent.as_str()),
            (End::Dropped, _) => (message.ended, "#fff", "3 2", Sign::GivenUp, "unsent"),
            (End::GivenUp, Some(at)) => (at, look.tint, "none", Sign::Unheard, "unheard"),
            (_, Some(at)) => (at, look.tint, "none", Sign::Acknowledged, ""),
            _ => (message.ended, "#fff", "none", Sign::GivenUp, "not all arrived"),
        };
        let (from, to) = (self.x(message.written), self.x(end));
        let middle = y + 5.5;
        let mut bar = String::from("<g>");
        if let Some(deadline) = message.deadline {
            let x = self.x(deadline);
            bar.push_str(line(to.min(x), middle, x, middle, look.colour, "stroke-width='0.8'").trim_end());
            bar.push_str(line(x, y - 1.0, x, y + 12.0, INK, "stroke-width='1.2' stroke-opacity='0.6'").trim_end());
        }
        let _ = write!(
            bar,
            "<rect x='{from:.1}' y='{y:.1}' width='{:.1}' height='11' rx='2' fill='{fill}' stroke='{}' stroke-dasharray='{dashes}'/>",
            to - from,
            look.colour
        );
        let of = format!("<tspan font-weight='bold'>{}{}</tspan>", look.letter, message.version);
        bar.push_str(text(from - 3.0, y + 9.0, 10.0, look.colour, "end", &of).trim_end());
        // what would not fit is left out: the sign at the end says it too
        if to - from > 8.0 + 5.2 * inside.len() as f64 {
            bar.push_str(text(from + 4.0, y + 8.8, 9.5, INK, "start", inside).trim_end());
        }
        let at = if sign == Sign::Acknowledged { end } else { message.ended };
        bar.push_str(&shape(sign, self.x(at), middle, look.colour));
        bar.push_str("</g>\n");
        bar
    }

    fn draw_lanes(&mut self) {
        let lanes = std::mem::take(&mut self.lanes);
        let mut top = self.lanes_top;
        self.put(&text(LEFT + 4.0, top - 6.0, 11.0, SOFT, "start", "Each message, from its write to its end; | is its deadline"));
        for lane in &lanes {
            let look = look(lane.channel.stream);
            self.put(&line(16.0, top, RIGHT, top, RULE, ""));
            let title = format!("<tspan font-weight='bold'>{} {}</tspan>", look.letter, lane.channel.name);
            self.put(&text(LEFT - 9.0, top + 17.0, 12.5, look.colour, "end", &title));
            self.put(&text(LEFT - 9.0, top + 31.0, 10.5, SOFT, "end", order(lane.channel)));
            self.put(&text(LEFT - 9.0, top + 44.0, 10.5, SOFT, "end", &life(lane.channel)));
            for (message, row) in &lane.messages {
                let bar = self.bar(message, top + 6.0 + ROW * *row as f64);
                self.put(&bar);
            }
            top += lane.height();
        }
    }

    /// The title and what the marks mean; under the drawing, what the bars mean. Answers the height of the whole.
    fn legends(&mut self) -> f64 {
        let host = &self.session.host;
        let cut = host.messages.values().filter(|message| matches!(message.end, End::Cut(_))).count();
        self.put(&text(16.0, 30.0, 19.0, INK, "start", "Analyses with lifetimes, over a link that loses packets"));
        let words = format!(
            "{} edits, three messages for each, {} TSNs. {cut} trees expired half sent: for the rest of each stands one terminator, and the channel goes on.",
            self.session.edits.len(),
            self.tsns
        );
        self.put(&text(16.0, 52.0, 12.5, SOFT, "start", &words));
        // the channels
        for (channel, x) in CHANNELS.iter().zip([16.0, 290.0, 580.0]) {
            let look = look(channel.stream);
            let more = format!("stroke-width='2' stroke-dasharray='{}'", look.dashes);
            self.put(&line(x, 77.0, x + 26.0, 77.0, look.colour, &more));
            let words = format!("<tspan font-weight='bold'>{} {}</tspan>: {}, {}", look.letter, channel.name, order(channel), life(channel));
            self.put(&text(x + 32.0, 81.0, 12.0, look.colour, "start", &words));
        }
        // the marks, in two rows
        let places = [
            (Sign::Sent, 16.0, 103.0),
            (Sign::Lost, 84.0, 103.0),
            (Sign::SentAgain, 242.0, 103.0),
            (Sign::LostAgain, 346.0, 103.0),
            (Sign::Acknowledged, 486.0, 103.0),
            (Sign::GivenUp, 16.0, 127.0),
            (Sign::Unheard, 104.0, 127.0),
            (Sign::Terminator, 316.0, 127.0),
        ];
        for (sign, x, y) in places {
            self.put(&format!("<g transform='translate({:.1} {y:.1}) scale(1.5)'>{}</g>\n", x + 6.0, shape(sign, 0.0, 0.0, SOFT)));
            self.put(&text(x + 18.0, y + 4.0, 12.0, INK, "start", name(sign)));
        }
        self.put(&line(602.0, 96.0, 602.0, 110.0, INK, "stroke-width='1.6'"));
        self.put(&text(612.0, 107.0, 12.0, INK, "start", "deadline"));
        self.put("<rect x='560' y='120' width='24' height='14' fill='#eef4fa' stroke='#c3ced9'/>\n");
        self.put(&text(591.0, 131.0, 12.0, INK, "start", "v1, v2, ..: an edit, and the time to the next"));
        // the bars
        let y = self.floor + 36.0;
        let bars = [
            ("#e4e7eb", "none", Sign::Acknowledged, "arrived, acknowledged", 16.0),
            ("#e4e7eb", "none", Sign::Unheard, "arrived, given up unheard", 190.0),
            ("url(#cut)", "none", Sign::Terminator, "cut half sent", 386.0),
            ("#fff", "none", Sign::GivenUp, "all sent, given up", 514.0),
            ("#fff", "3 2", Sign::GivenUp, "expired unsent: took no TSN", 666.0),
        ];
        for (fill, dashes, sign, words, x) in bars {
            let bar = format!("<rect x='{x}' y='{y:.1}' width='26' height='11' rx='2' fill='{fill}' stroke='{SOFT}' stroke-dasharray='{dashes}'/>");
            self.put(&bar);
            self.put(&shape(sign, x + 26.0, y + 5.5, SOFT));
            self.put(&text(x + 37.0, y + 10.0, 12.0, INK, "start", words));
        }
        y + 26.0
    }
}

pub fn draw(session: &Session) -> String {
    Chart::new(session).draw()
}
