//! Reading domain files. They are taken to be right; one that is cut is refused.

use crate::domain::{Action, Card, FieldMap, Move};

pub enum File {
    Card(Card),
    Map(FieldMap),
}

struct Reader<'a> {
    bytes: &'a [u8],
}

impl Reader<'_> {
    /// A number of that many bytes, the lowest first.
    fn number(&mut self, size: usize) -> Result<u64, String> {
        let (head, rest) = self.bytes.split_at_checked(size).ok_or("the file is cut")?;
        self.bytes = rest;
        Ok(head
            .iter()
            .rev()
            .fold(0, |value, byte| value << 8 | u64::from(*byte)))
    }

    fn byte(&mut self) -> Result<u8, String> {
        Ok(self.number(1)? as u8)
    }

    /// A field of a record, which is there if its bit is set.
    fn field(&mut self, map: u8, bit: u32, size: usize, absent: u64) -> Result<u64, String> {
        if map >> bit & 1 == 1 {
            self.number(size)
        } else {
            Ok(absent)
        }
    }

    fn action(&mut self) -> Result<Action, String> {
        let map = self.byte()?;
        Ok(Action {
            needs: self.field(map, 0, 7, 0)?,
            adds: self.field(map, 1, 7, 0)?,
            deletes: self.field(map, 2, 7, 0)?,
            cost: self.field(map, 3, 2, 1)? as u16,
            marked: map >> 4 & 1 == 1,
        })
    }

    fn movement(&mut self) -> Result<Move, String> {
        let map = self.byte()?;
        Ok(Move {
            from: self.field(map, 0, 1, 0)? as u8,
            to: self.field(map, 1, 1, 0)? as u8,
            cost: self.field(map, 2, 2, 1)? as u16,
            marked: map >> 3 & 1 == 1,
        })
    }

    fn goal(&mut self, size: usize) -> Result<u64, String> {
        let map = self.byte()?;
        self.field(map, 0, size, 0)
    }
}

pub fn read(bytes: &[u8]) -> Result<File, String> {
    let mut reader = Reader { bytes };
    let letter = reader.byte()?;
    let size = reader.byte()?;
    let actions = reader.byte()?;
    let goals = reader.byte()?;
    match letter {
        b'S' => Ok(File::Card(Card {
            fluents: size,
            start: reader.number(7)?,
            actions: (0..actions)
                .map(|_| reader.action())
                .collect::<Result<_, _>>()?,
            goals: (0..goals)
                .map(|_| reader.goal(7))
                .collect::<Result<_, _>>()?,
        })),
        b'M' => Ok(File::Map(FieldMap {
            start: reader.byte()?,
            moves: (0..actions)
                .map(|_| reader.movement())
                .collect::<Result<_, _>>()?,
            goals: (0..goals)
                .map(|_| Ok(reader.goal(1)? as u8))
                .collect::<Result<_, String>>()?,
        })),
        _ => Err("the file is neither a card nor a map".to_string()),
    }
}
