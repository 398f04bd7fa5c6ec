//! What a reader of the list of voices relies on.

use oracle::effects::sampler::VoicePhase;
use oracle::pieces::{edge_scenes, Piece, Scene};
use std::process::Command;

fn list(seed: &str, count: &str) -> Vec<u8> {
    let voices = env!("CARGO_BIN_EXE_voices");
    Command::new(voices).args([seed, count]).output().expect("voices runs").stdout
}

fn some_edge(good: impl Fn(&Scene, &Piece) -> bool) -> bool {
    edge_scenes().iter().any(|scene| scene.pieces.iter().any(|piece| good(scene, piece)))
}

#[test]
fn every_row_is_78_bytes() {
    let list = list("1", "1000");
    let rows: Vec<&[u8]> = list.chunks(78).collect();
    assert!(rows.iter().all(|row| row.iter().position(|byte| *byte == b'\n') == Some(77)));

    let pieces = rows.iter().filter(|row| row.starts_with(b"43")).count();
    let edges: usize = edge_scenes().iter().map(|scene| scene.pieces.len()).sum();
    assert_eq!(pieces, edges + 1_000);
}

#[test]
fn a_seed_makes_one_list() {
    assert_eq!(list("1", "100"), list("1", "100"));
    assert_ne!(list("1", "100")[78..], list("2", "100")[78..]);
}

#[test]
fn edges_cover_every_fade_at_every_end() {
    for length in [0, 1, 5] {
        for place in [0, length.max(1) - 1, length] {
            for phase in [VoicePhase::FadingIn(place), VoicePhase::FadingOut(place)] {
                for (recorded, mixed) in [(1, 1), (1, 2), (2, 1), (2, 2)] {
                    // before the recording's end, at it and past it
                    for short in [1, 0, -2] {
                        assert!(
                            some_edge(|scene, piece| {
                                (scene.fade.len(), piece.phase) == (length, phase)
                                    && (scene.recording.channels, piece.output.channels) == (recorded, mixed)
                                    && piece.position as i64 + short == scene.recording.frames as i64
                            }),
                            "{length} {phase:?} {recorded} {mixed} {short}"
                        );
                    }
                }
            }
        }
    }
}

#[test]
fn edges_cross_both_ends_in_either_order() {
    for before in [true, false] {
        for fading_in in [true, false] {
            assert!(some_edge(|scene, piece| {
                let (place, rises) = match piece.phase {
                    VoicePhase::FadingIn(place) => (place, true),
                    VoicePhase::FadingOut(place) => (place, false),
                    _ => return false,
                };
                let fade_left = scene.fade.len() - place;
                let recording_left = scene.recording.frames.saturating_sub(piece.position);
                let both = 0 < fade_left.min(recording_left) && fade_left.max(recording_left) < piece.frames;
                rises == fading_in && both && fade_left != recording_left && (fade_left < recording_left) == before
            }));
        }
    }
}
