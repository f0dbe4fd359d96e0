//! Pictures as SVG.

use crate::chips::{MAGIC, each_sign, picture, put_entry, put_header, put_word, small};
use spiffs::image_picture::Style;
use std::string::String;

const HEAD: &str = "<svg xmlns='http://www.w3.org/2000/svg' viewBox='0 0 448 110' font-family='monospace' font-size='10' xml:space='preserve'>
<style>.lookup{fill:#777}.free{fill:#fff;stroke:#ccc}.deleted{fill:#ccc}.neither{fill:#000}.header{stroke:#000;stroke-width:2}.index{stroke:#000}</style>
<text y='9'>block erase   pages</text>
";

const LEGEND: &str = "<text y='66'>grey: lookup, pale: deleted, white: free, black: neither, ! no magic</text>
<text y='80'>a colour: a file; thick border: header, thin: further index</text>
</svg>
";

// The rectangle of a page of the small volume.
fn rect(page: usize, word: &str, fill: &str, whose: &str) -> String {
    let (x, y) = (90 + page % 4 * 12, 14 + page / 4 * 12);
    format!("<rect x='{x}' y='{y}' width='9' height='9' class='{word}'{fill}><title>page {page} {word}{whose}</title></rect>\n")
}

#[test]
fn each_page_is_a_rectangle_in_the_colour_of_its_file() {
    let fill = " fill='hsl(137,65%,60%)'";
    let wanted = [
        HEAD,
        "<text y='23'>    0     7  </text>\n",
        &rect(0, "lookup", "", ""),
        &rect(1, "header", fill, " id 1 span 0"),
        &rect(2, "data", fill, " id 1 span 0"),
        &rect(3, "index", fill, " id 1 span 1"),
        "<text y='35'>    1     - !</text>\n",
        &rect(4, "lookup", "", ""),
        &rect(5, "neither", "", ""),
        &rect(6, "free", "", ""),
        &rect(7, "deleted", "", ""),
        "<text y='47'>    2 32767  </text>\n",
        &rect(8, "lookup", "", ""),
        &rect(9, "neither", "", ""),
        &rect(10, "neither", "", ""),
        &rect(11, "neither", "", ""),
        LEGEND,
    ];
    assert_eq!(picture(Style::Svg, &small(), &each_sign()), wanted.concat());
}

#[test]
fn colours_are_a_function_of_ids() {
    for (id, hue) in [(1, 137), (2, 274), (3, 51), (359, 223), (360, 0), (361, 137), (0x7FFE, 102)] {
        let mut image = vec![0xFF; 3072];
        for (page, id, flags) in [(9, 0x8000 | id, 0xF8), (10, id, 0xFC)] {
            put_entry(&mut image, page, id);
            put_header(&mut image, page, id, 0, flags);
        }
        put_word(&mut image, 2048 + 252, MAGIC);
        let drawn = picture(Style::Svg, &small(), &image);
        let fill = format!(" fill='hsl({hue},65%,60%)'");
        for word in ["header", "data"] {
            let page = if word == "header" { 9 } else { 10 };
            assert!(drawn.contains(&rect(page, word, &fill, &format!(" id {id} span 0"))), "{id}");
        }
        assert_eq!(drawn.matches("hsl(").count(), 2);
    }
}
