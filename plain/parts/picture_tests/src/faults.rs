//! Boards that fail.

use crate::chips::{board, each_sign, picture, small};
use rattle_host::prelude::*;
use spiffs::image_picture::{Style, draw};
use spiffs::nor_memory::CallKind;

#[test]
fn a_fault_leaves_a_front_of_the_picture() {
    let (g, image) = (small(), each_sign());
    for style in [Style::Text, Style::Svg] {
        let whole = picture(style, &g, &image);
        for kind in [CallKind::Read, CallKind::Say] {
            let mut said = 0;
            for nth in 1.. {
                let mut board = board(&g, &image);
                board.fail_nth(kind, nth);
                let result = draw(&mut board, style, &g, &mut [0; 4096]);
                assert_eq!(board.image(), image);
                assert!(whole.as_bytes().starts_with(board.said()));
                if result.is_ok() {
                    assert!(nth > 12);
                    assert_eq!(board.said(), whole.as_bytes());
                    break;
                }
                assert!(said <= board.said().len() && board.said().len() < whole.len());
                said = board.said().len();
            }
        }
    }
}
