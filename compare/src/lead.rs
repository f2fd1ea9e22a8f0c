//! A job over the serial lead (request 2026-01): its bytes taken one at a time, chunk by chunk, and its end announced.

use crate::early::{end, ENTRY, HEAD};
use crate::fault::Fault;
use crate::ladder::need;
use crate::model::Model;
use crate::shape::{Answer, Lead, Outcome, State, AREA, PAST, ROWS};

impl Model {
    /// Takes a chunk: answers the first word of its bytes, and gives what it leaves of note and area.
    pub fn taken(&self, lead: &Lead, chunk: &[u8]) -> Result<(Answer, Lead), u32> {
        need(lead.area.len() >= self.room(), 12)?;
        let mut left = lead.clone();
        self.forget(&mut left, chunk);
        left.note.counted = left.note.counted.min(self.most_counted());
        let words = chunk.iter().map(|byte| self.byte(&mut left, *byte));
        let words: Vec<u32> = words.filter(|word| *word != 0).collect();
        self.slip(lead, &mut left, chunk);
        let word = self.first_word(&left, chunk, &words);
        let answer = match self.has(Fault::WordRefuses) {
            true => Answer::refused(word),
            false => Answer::value(word),
        };
        Ok((answer, left))
    }

    /// One byte: kept where the area has a place for it below 3,079, counted up to 3,080, and looked at.
    fn byte(&self, left: &mut Lead, byte: u8) -> u32 {
        let place = left.note.counted;
        let places = match self.has(Fault::Byte3080) {
            true => left.area.len(),
            false => AREA.min(left.area.len()),
        };
        if (place as usize) < places && place < PAST {
            left.area[place as usize] = byte;
        }
        left.note.counted = (place + 1).min(self.most_counted());
        self.word(left, place, byte)
    }

    fn most_counted(&self) -> u32 {
        PAST - u32::from(self.has(Fault::Count3079))
    }

    /// How long an area must be.
    fn room(&self) -> usize {
        match self.fault {
            Some(Fault::Room3078) => AREA - 1,
            Some(Fault::Room3080) => AREA + 1,
            _ => AREA,
        }
    }

    /// The word of a chunk is the first of its bytes' words. Nothing sticks: where they have none it has none.
    fn first_word(&self, left: &Lead, chunk: &[u8], words: &[u32]) -> u32 {
        let past = left.note.counted > end(&left.area);
        match self.fault {
            Some(Fault::LastWord) => words.last().copied().unwrap_or(0),
            Some(Fault::TenBeforeEleven) if words.contains(&10) => 10,
            Some(Fault::WordSticks) if chunk.is_empty() && past => 10,
            Some(Fault::HeadAgain) if !chunk.is_empty() && self.head_is_wrong(left) => 10,
            _ => words.first().copied().unwrap_or(0),
        }
    }

    /// For faults: what a chunk forgets of the note before its first byte.
    fn forget(&self, left: &mut Lead, chunk: &[u8]) {
        let Lead { note, area } = left;
        match self.fault {
            Some(Fault::PartForgotten) if !chunk.is_empty() => note.part = [0; 8],
            Some(Fault::PartEmptied) if chunk.is_empty() => note.part = [0; 8],
            Some(Fault::LeastForgotten) if !chunk.is_empty() => note.least = 0,
            Some(Fault::PartInArea) if !chunk.is_empty() && (HEAD..PAST).contains(&note.counted) => {
                let begun = ((note.counted - HEAD) % ENTRY) as usize;
                let first = note.counted as usize - begun;
                note.part[..begun].copy_from_slice(&area[first..][..begun]);
            }
            _ => {}
        }
    }

    /// For faults: what a chunk does to note and area after its last byte.
    fn slip(&self, before: &Lead, left: &mut Lead, chunk: &[u8]) {
        let Lead { note, area } = left;
        match self.fault {
            Some(Fault::CountAsItCame) => note.counted = note.counted.max(before.note.counted),
            Some(Fault::AreaCleared) if !chunk.is_empty() => {
                area.iter_mut().skip(note.counted as usize).for_each(clear)
            }
            _ => {}
        }
    }

    /// What a refused chunk leaves of note and area: all of both.
    pub fn kept_lead(&self, lead: &Lead, chunk: &[u8]) -> Lead {
        let mut kept = lead.clone();
        if self.has(Fault::RefusedMoves) {
            kept.note.counted = kept.note.counted.saturating_add(chunk.len() as u32);
        }
        if self.has(Fault::RefusedStores) {
            let places = kept.area.iter_mut().skip(lead.note.counted as usize);
            places.zip(chunk).for_each(|(place, byte)| *place = *byte);
        }
        kept
    }

    /// Announces the end: 1, 12, 10 for the count, and then the job of as many area bytes as the note counts.
    pub fn ended(&self, rows: &mut [u32], state: &State, lead: &Lead) -> Result<Outcome, u32> {
        let Lead { note, area } = lead;
        let counted = note.counted as usize;
        let room = match self.has(Fault::EndRoomOfCount) {
            true => area.len() >= counted.min(AREA),
            false => area.len() >= AREA,
        };
        let all = counted <= AREA || self.has(Fault::End3079);
        need(room || !self.has(Fault::End12First), 12)?;
        need(rows.len() == ROWS, 1)?;
        need(all || !self.has(Fault::End10First), 10)?;
        need(room, 12)?;
        need(all, 10)?;
        need(note.part == [0; 8] || !self.has(Fault::EndByPart), 10)?;
        let counted = match self.has(Fault::EndWholeArea) {
            true => AREA,
            false => counted.min(AREA),
        };
        self.job(rows, state, &area[..counted], None)
    }
}

fn clear(byte: &mut u8) {
    *byte = 0;
}
