//! The least that a call on the proved store does: the test "whole", the digest of the data, one move of what stands
//! after its place, and one copy of the data.

use crate::contestant::{Contestant, Proved};
use crate::sqlite::md5;
use crate::{data, name, place, Samples, State, ARENA, SIZE};
use std::hint::black_box;

pub struct Floor {
    store: Proved,
    arena: Vec<u8>,
}

impl Floor {
    pub fn of(state: &State) -> Floor {
        let mut store = Proved::fresh(ARENA);
        for i in 0..state.objects {
            store.put(1, &name(2 * i), &data(state.size, i));
        }
        Floor { store, arena: vec![0; ARENA] }
    }

    pub fn round(&mut self, state: &State, i: usize, samples: &mut Samples) {
        let Floor { store, arena } = self;
        let (at, held) = (state.size * place(state, i), state.size * state.objects);
        let (content, mut answer) = (data(SIZE, i), [0; SIZE]);
        samples.time("PUT, new", 1, || {
            store.whole();
            black_box(md5(&content));
            arena.copy_within(at..held, at + SIZE);
            arena[at..at + SIZE].copy_from_slice(&content);
        });
        for call in ["PUT, again", "PART"] {
            samples.time(call, 1, || {
                store.whole();
                black_box(md5(&content));
                arena[at..at + SIZE].copy_from_slice(&content);
            });
        }
        samples.time("HEAD", 8, || store.whole());
        samples.time("GET", 8, || {
            store.whole();
            answer.copy_from_slice(&arena[at..at + SIZE]);
        });
        black_box(answer);
        samples.time("DELETE", 1, || {
            store.whole();
            arena.copy_within(at + SIZE..held + SIZE, at);
        });
        let copied = data(state.size, i);
        samples.time("COPY, new", 1, || {
            store.whole();
            black_box(md5(&copied));
            arena.copy_within(at..held, at + state.size);
            arena[at..at + state.size].copy_from_slice(&copied);
        });
        samples.time("COPY, again", 1, || {
            store.whole();
            black_box(md5(&copied));
            arena[at..at + state.size].copy_from_slice(&copied);
        });
    }
}
