//! Cases of tables: build, enter, matched lists; winners and changes.
//!
//! The form is in the README, under "Walks" and "Cascades". A call reads the
//! words of the sheet and of the table (image.rs) as plain lists, answers on
//! those (table.rs, winners.rs) and writes words. Of a table made by build and
//! accepted calls the published code (published.rs) gives the numbers of
//! states, the matched lists and, under ranking 0, winners and changes; it has
//! to agree with the plain lists at every call. Change lists without a sheet
//! are in changes.rs.

pub mod changes;
pub mod image;
pub mod published;
pub mod table;
pub mod winners;

use crate::builds::image::read as read_sheet;
use crate::builds::model::{Model, Refusal};
use crate::builds::{Item, MOST_ROOM, Payload, numbered, read_item};
use changes::{channel_lines, list_lines};
use image::{CURSORS, HEAD, Lent, MATCHED, Pieces, SIZES, STAMP, STATE_ROW, STATE_ROWS};
use published::{Cascade, Walked, test_ascending};
use table::{Row, Subject, Table, root};
use winners::{Holder, View, Won};

pub const SHEET: u32 = 1;
pub const ROOMS: u32 = 2;
pub const BUILD: u32 = 3;
pub const ENTER: u32 = 4;
pub const PART: u32 = 5;
pub const WRITE: u32 = 6;
pub const TELL: u32 = 7;
pub const ROOT: u32 = 8;
pub const WINNER: u32 = 9;
pub const CHANGED: u32 = 10;
pub const CHANNELS: u32 = 11;
pub const RESOURCES: u32 = 12;
pub const SET: u32 = 13;
pub const UNION: u32 = 14;
pub const AFFECTED: u32 = 15;
pub const HAS: u32 = 16;
pub const COMPARE: u32 = 17;

/// One case: items one after another. What an earlier case of the same stream
/// has left in the memory may show.
#[derive(Clone, Debug, Default, PartialEq, Eq)]
pub struct WalkCase {
    pub items: Vec<Item>,
}

impl WalkCase {
    pub fn words(&self) -> Vec<u32> {
        self.items.iter().flat_map(Item::words).collect()
    }

    /// How many words of memory the case tells.
    pub fn words_told(&self) -> usize {
        let told = self.items.iter().filter(|item| item.op == TELL);
        let counts = told.flat_map(|item| item.payload.iter().zip(SIZES));
        counts.map(|(&count, size)| size.min(count as usize)).sum()
    }
}

/// The sheet, the table, and what they are taken for.
pub struct Machine {
    sheet: Vec<u32>,
    sheet_room: usize,
    pieces: Pieces,
    /// How much of each piece is lent. The head is lent whole.
    rooms: [usize; 5],
    /// What the sheet says, once it has been looked at: nothing if its words
    /// break the shape.
    model: Option<Option<Model>>,
    /// Nothing if a stored word has changed since the last build.
    walked: Option<Walked>,
}

impl Default for Machine {
    fn default() -> Self {
        Self {
            sheet: vec![0; MOST_ROOM],
            sheet_room: 0,
            pieces: SIZES.map(|size| vec![0; size]),
            rooms: [SIZES[HEAD], 0, 0, 0, 0],
            model: None,
            walked: None,
        }
    }
}

/// Stores words from an address on, as far as the memory goes; whether that
/// changed one.
fn store(memory: &mut [u32], address: u32, words: &[u32]) -> bool {
    let Some(memory) = memory.get_mut(address as usize..) else {
        return false;
    };
    let mut changed = false;
    for (place, &word) in memory.iter_mut().zip(words) {
        changed |= *place != word;
        *place = word;
    }
    changed
}

impl Machine {
    /// All words of a piece, lent or not.
    pub fn piece(&self, piece: usize) -> &[u32] {
        &self.pieces[piece]
    }

    /// Whether the published code answers too.
    pub fn in_play(&self) -> bool {
        self.walked.is_some()
    }

    /// Whether the published cascade answers too.
    pub fn cascade_in_play(&self) -> bool {
        self.cascade(self.pieces[HEAD][image::RANKING]).is_some()
    }

    pub fn lent(&self) -> Lent<'_> {
        [0, 1, 2, 3, 4].map(|piece| &self.pieces[piece][..self.rooms[piece]])
    }

    /// The sheet, or 11.
    pub fn look(&mut self) -> Result<&Model, Refusal> {
        let lent = &self.sheet[..self.sheet_room];
        let model = self.model.get_or_insert_with(|| read_sheet(lent));
        model.as_ref().ok_or(11)
    }

    /// The table, or 11 for the sheet or the table.
    pub fn table(&mut self) -> Result<Table, Refusal> {
        self.look()?;
        image::read(&self.model().rules, self.lent()).ok_or(11)
    }

    fn lend(&mut self, [sheet, states, cursors, matched, transitions]: [u32; 5]) {
        let sheet = (sheet as usize).min(MOST_ROOM);
        if self.sheet_room != sheet {
            self.sheet_room = sheet;
            self.model = None;
        }
        let rooms = [u32::MAX, states, cursors, matched, transitions];
        for (piece, room) in rooms.into_iter().enumerate() {
            self.rooms[piece] = (room as usize).min(SIZES[piece]);
        }
    }

    /// 11 (sheet), 6, 5.
    fn build(&mut self, stamp: u32, ranking: u32) -> Result<(), Refusal> {
        let rooms = self.rooms;
        let model = self.look()?;
        if ranking > 1 {
            return Err(6);
        }
        let root = root(&model.rules);
        if rooms[STATE_ROWS] < STATE_ROW || rooms[CURSORS] < root.cursors.len() {
            return Err(5);
        }
        self.walked = Some(Walked::new(model));
        image::write_root(&mut self.pieces, stamp, ranking, &root);
        Ok(())
    }

    /// 11, 4, 2, 1, 5.
    fn enter(&mut self, number: u32, stamp: u32, row: &Row) -> Result<usize, Refusal> {
        let mut table = self.table()?;
        let parent = table.state(number, stamp)?;
        let subject = Subject::given(row);
        if subject != Err(2) {
            assert_eq!(subject.is_err(), test_ascending(row).is_err(), "refusal 1");
        }
        let subject = subject?;
        let left = image::left(self.lent());
        let entered = table.enter(&self.look()?.rules, parent, &subject, &left)?;

        let mut child = entered.child;
        if let Some(walked) = &mut self.walked {
            child = walked.enter(parent, &subject);
            assert_eq!(child, entered.child, "the published state");
        }
        image::write_entered(&mut self.pieces, parent, row, &entered);
        table.add(parent, subject, &entered);
        if let Some(walked) = &self.walked {
            assert_eq!(walked.states(), table.states.len(), "the published states");
            let matched = &table.states[child].lists.matched;
            assert_eq!(walked.matched(child), *matched, "the published list");
        }
        assert_eq!(
            self.table().as_ref(),
            Ok(&table),
            "the words of an entering"
        );
        Ok(child)
    }

    /// Where a state's matched list stands, and the list: 11, 4.
    fn part(&mut self, number: u32, stamp: u32) -> Result<([usize; 2], Vec<u32>), Refusal> {
        let table = self.table()?;
        let state = table.state(number, stamp)?;
        let length = |at: usize| table.states[at].lists.matched.len();
        let from: usize = (0..state).map(length).sum();
        let mut list = table.states[state].lists.matched.clone();
        if let Some(walked) = &self.walked {
            let published = walked.matched(state);
            assert_eq!(published, list, "the published list");
            list = published;
        }
        let to = from + list.len();
        assert_eq!(self.pieces[MATCHED][from..to], list);
        Ok(([from, to], list))
    }

    /// The sheet, which has been looked at and found in shape.
    fn model(&self) -> &Model {
        let model = self.model.as_ref().and_then(Option::as_ref);
        model.expect("a sheet in shape")
    }

    /// The published cascade, if build and calls made the table, pushes the
    /// sheet, and the ranking is the published one.
    fn cascade(&self, ranking: u32) -> Option<Cascade<'_>> {
        let walked = self.walked.as_ref()?;
        walked.cascade().filter(|_| ranking == 0)
    }

    fn view<'a>(&'a self, table: &'a Table, state: usize) -> View<'a> {
        View {
            model: self.model(),
            ranking: table.ranking,
            matched: &table.states[state].lists.matched,
        }
    }

    /// Who wins a property: 11, 4.
    fn won(&mut self, number: u32, stamp: u32, property: u16) -> Result<Option<Won>, Refusal> {
        let table = self.table()?;
        let state = table.state(number, stamp)?;
        let won = self.view(&table, state).won(property);
        let Some(cascade) = self.cascade(table.ranking) else {
            return Ok(won);
        };
        let published = cascade.won(self.model(), state, property);
        assert_eq!(published, won, "the published winner");
        Ok(published)
    }

    /// The changed properties, and their channels: 11, 4 (old), 4 (new).
    fn changed(
        &mut self,
        [old, old_stamp, new, new_stamp]: [u32; 4],
        masks: &[u32],
    ) -> Result<(Vec<u16>, u32), Refusal> {
        let table = self.table()?;
        let old = table.state(old, old_stamp)?;
        let new = table.state(new, new_stamp)?;
        let changed = self.view(&table, old).changed(&self.view(&table, new));
        let channels = winners::channels(&changed, masks);
        let Some(cascade) = self.cascade(table.ranking) else {
            return Ok((changed, channels));
        };
        let published = (cascade.changed(old, new), cascade.channels(old, new, masks));
        assert_eq!(published, (changed, channels), "the published changes");
        Ok(published)
    }

    /// Resource-dependent properties: 11 (sheet).
    fn resources(&mut self) -> Result<Vec<u16>, Refusal> {
        let model = self.look()?;
        let published = published::resource_dependent(model);
        let plain = winners::resource_dependent(model);
        assert_eq!(published, plain, "the published resources");
        Ok(published)
    }

    /// The lines of one item.
    pub fn item(&mut self, op: u32, payload: &[u32]) -> String {
        let mut payload = Payload(payload);
        match op {
            SHEET => {
                let address = payload.word();
                if store(&mut self.sheet, address, payload.0) {
                    self.model = None;
                    self.walked = None;
                }
                String::new()
            }
            ROOMS => {
                self.lend(payload.words());
                String::new()
            }
            BUILD => {
                let [stamp, ranking] = payload.words();
                let done = self.build(stamp, ranking);
                format!("build {}\n", done.err().unwrap_or(0))
            }
            ENTER => {
                let [number, stamp] = payload.words();
                match self.enter(number, stamp, &payload.words()) {
                    Ok(child) => format!("enter 0 {child} {}\n", self.pieces[HEAD][STAMP]),
                    Err(refusal) => format!("enter {refusal}\n"),
                }
            }
            PART => {
                let [number, stamp] = payload.words();
                match self.part(number, stamp) {
                    Ok((part, list)) => {
                        let lines = [numbered("part 0", part), numbered("list", &list)];
                        lines.concat() + &numbered("rules", &list)
                    }
                    Err(refusal) => format!("part {refusal}\nlist\nrules\n"),
                }
            }
            WRITE => {
                let [piece, address] = payload.words();
                let piece = (piece % 5) as usize;
                if store(&mut self.pieces[piece], address, payload.0) {
                    self.walked = None;
                }
                String::new()
            }
            TELL => {
                let counts: [u32; 5] = payload.words();
                let tags = ["h", "s", "c", "m", "t"].into_iter().zip(counts);
                let line = |(piece, (tag, count)): (&Vec<u32>, (&str, u32))| {
                    numbered(tag, &piece[..piece.len().min(count as usize)])
                };
                self.pieces.iter().zip(tags).map(line).collect()
            }
            ROOT => format!("root 0 {}\n", payload.word()),
            WINNER => {
                let [number, stamp, property] = payload.words();
                winner_lines(self.won(number, stamp, property as u16))
            }
            CHANGED => {
                let changed = self.changed(payload.words(), &[]);
                let changed = changed.map(|(changed, _)| changed);
                list_lines("changed", changed, payload.word())
            }
            CHANNELS => {
                let states = payload.words();
                match self.changed(states, payload.0) {
                    Ok((_, channels)) => channel_lines("channels 0", channels),
                    Err(refusal) => format!("channels {refusal}\n"),
                }
            }
            RESOURCES => list_lines("resources", self.resources(), payload.word()),
            SET => changes::set_lines(payload),
            UNION => changes::union_lines(payload),
            AFFECTED => changes::affected_lines(payload),
            HAS => changes::has_line(payload),
            COMPARE => changes::compare_lines(payload),
            _ => format!("op {op}\n"),
        }
    }

    /// The lines of a stream, and of where it ends if not between two items.
    pub fn stream(&mut self, stream: &[u8]) -> String {
        let mut lines = String::new();
        let mut rest = stream;
        while !rest.is_empty() {
            match read_item(rest) {
                Ok((item, after)) => {
                    lines += &self.item(item.op, &item.payload);
                    rest = after;
                }
                Err(end) => {
                    lines += end;
                    break;
                }
            }
        }
        lines
    }
}

fn winner_lines(won: Result<Option<Won>, Refusal>) -> String {
    let won = match won {
        Ok(won) => won,
        Err(refusal) => {
            let line = |tag| format!("{tag} {refusal}\n");
            return ["winner", "kind", "plain", "resource"].map(line).concat();
        }
    };
    let Some(won) = won else {
        return "winner 0 0\nkind 0\nplain 0\nresource 0\n".to_string();
    };
    let (code, number) = match won.holder {
        Holder::Direct(number) => (1, number),
        Holder::Rule(number) => (2, number),
    };
    [
        numbered("winner 0", [code, number as u32, won.source]),
        numbered("kind 0", won.kind),
        numbered("plain 0", won.plain.into_iter().flatten()),
        numbered("resource 0", won.resource),
    ]
    .concat()
}

/// What is to be printed for a stream.
pub fn answer_stream(stream: &[u8]) -> String {
    Machine::default().stream(stream)
}
