//! The stepped walk, over any memory. A state is the root, the next edge, the mark.

use super::{Answer, Header, ROOM, answer, found, framed, named};

#[derive(Clone, Copy)]
enum Edge {
    Start(u32),
    End(u32),
}

use Edge::{End, Start};

impl Edge {
    fn id(self) -> u32 {
        match self {
            Start(id) | End(id) => id,
        }
    }

    fn word(self) -> u32 {
        match self {
            Start(id) => id,
            End(id) => id + 32_768,
        }
    }

    fn of_word(word: u32) -> Self {
        if word % 65_536 < 32_768 { Start(word) } else { End(word - 32_768) }
    }
}

/// Where a walk stands.
#[derive(Clone, Copy)]
enum Stand {
    Next(Edge),
    Over,
    Broken,
}

/// `next_traverse`, except that nothing follows End of the root.
fn after(words: &[u32], root: u32, edge: Edge) -> Option<Edge> {
    let link = |id: u32, k: usize| words[((id / 65_536) as usize - 1) * 7 + k];
    let some = |id: u32| (id != 0).then_some(id);
    match edge {
        Start(id) => Some(some(link(id, 5)).map_or(End(id), Start)),
        End(id) if id == root => None,
        End(id) => some(link(id, 4)).map(Start).or_else(|| some(link(id, 2)).map(End)),
    }
}

pub fn walk_start(words: &[u32], header: &Header, root: u32, state: &mut [u32; 3]) -> u32 {
    match framed(words, header).and_then(|()| named(words, header, root)) {
        Ok(_) => {
            *state = [root, root, 0];
            0
        }
        Err(number) => number,
    }
}

pub fn walk(words: &[u32], header: &Header, state: &mut [u32; 3], budget: u32, list: &mut [u32]) -> Answer {
    answer(framed(words, header).and_then(|()| {
        if list.len() < budget as usize {
            return Err(ROOM);
        }
        let root = state[0];
        let mut stand = match state[2] {
            0 => Stand::Next(Edge::of_word(state[1])),
            1 => Stand::Over,
            _ => Stand::Broken,
        };
        let mut count = 0;
        while count < budget {
            let Stand::Next(edge) = stand else { break };
            if !found(words, header, edge.id()) {
                stand = Stand::Broken;
                break;
            }
            list[count as usize] = edge.word();
            count += 1;
            stand = after(words, root, edge).map_or(Stand::Over, Stand::Next);
        }
        *state = match stand {
            Stand::Next(edge) => [root, if found(words, header, edge.id()) { edge.word() } else { 0 }, 0],
            Stand::Over => [root, 0, 1],
            Stand::Broken => [root, 0, 2],
        };
        Ok(count)
    }))
}
