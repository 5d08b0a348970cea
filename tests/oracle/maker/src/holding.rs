//! What is held of messages in fragments, in the order of their firsts, as long as nothing is given up: by it T and M are
//! chosen so that they are just met, or just passed.

/// Of a fragment that is held, or joined to what is held.
#[derive(Debug, Clone, Copy, PartialEq, Eq)]
pub struct Need {
    /// What T must be for it.
    pub total: usize,
    /// What M must be for it; 0 for a first, of which M is not asked.
    pub most: usize,
    /// Its message's index among those that are held, and how many they are.
    pub index: usize,
    pub count: usize,
}

/// The needs of signalling payloads, each with its identifier. One that neither is held nor joined needs nothing, and is
/// left out.
pub fn needs<'a>(payloads: impl IntoIterator<Item = (u16, &'a [u8])>) -> Vec<Need> {
    let mut held: Vec<(u16, usize)> = Vec::new();
    let mut needs = Vec::new();
    for (identifier, payload) in payloads {
        let Some(flags) = payload.first() else {
            continue;
        };
        let place = flags >> 6;
        if place < 2 {
            held.retain(|(other, _)| *other != identifier);
        }
        if place == 1 {
            held.push((identifier, 0));
        }
        let Some(index) = held.iter().position(|(other, _)| *other == identifier) else {
            continue;
        };
        held[index].1 += payload.len().saturating_sub(2);
        needs.push(Need {
            total: held.iter().map(|(_, length)| length).sum(),
            most: if place == 1 { 0 } else { held[index].1 },
            index,
            count: held.len(),
        });
        if place == 3 {
            held.remove(index);
        }
    }
    needs
}
