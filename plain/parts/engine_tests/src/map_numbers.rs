//! The numbers of a map, beside the data pages that a look at the whole chip finds.
use liverymenhir::geometry::Geometry;
use liverymenhir::volume::Volume;
use spiffs::plain_image::{holds_volume, index_page, own, size_of};
use spiffs::nor_memory::MemBoard;

// The number of two bytes, the lower one first.
fn word(bytes: &[u8], at: usize) -> u32 {
    match bytes.get(at..at.saturating_add(2)) {
        Some(two) => u32::from(two[0]) + 256 * u32::from(two[1]),
        None => 0xFFFF,
    }
}

// How many spans the map of a volume tells numbers of, of so many.
fn count_told(volume: &Volume<'_, MemBoard>, spans: u32) -> u32 {
    let mut told = 0u32;
    for i in 0..spans {
        if volume.map_page(i) != Some(0xFFFF) {
            told = told.saturating_add(1);
        }
    }
    told
}

// How many data pages of a file the map tells by their numbers; none where it tells another one.
fn count_pages(volume: &Volume<'_, MemBoard>, g: &Geometry, spans: u32) -> Option<u32> {
    let image = volume.nor().image();
    if !holds_volume(g, image) {
        return None;
    }
    let mut found = 0u32;
    for p in 0..g.pages() {
        let Some(page) = own(g, image, volume.map.id, p) else {
            continue;
        };
        let span = word(page, 2).wrapping_sub(u32::from(volume.map.first));
        if word(page, 0) < 0x8000 && span < spans {
            if volume.map_page(span).map(u32::from) != Some(p) {
                return None;
            }
            found = found.saturating_add(1);
        }
    }
    Some(found)
}

// The size of the file of an id on the chip, in bytes.
fn size_on(image: &[u8], g: &Geometry, id: u16) -> Option<u32> {
    if !holds_volume(g, image) {
        return None;
    }
    let header = index_page(g, image, id, 0)?;
    Some(size_of(own(g, image, id, header)?))
}

/// Whether the map of a volume tells the size of its file, and of so many spans the numbers of all data pages that are on the chip, and
/// no others.
pub(crate) fn is_right(volume: &Volume<'_, MemBoard>, g: &Geometry, spans: u32) -> bool {
    volume.map.used
        && size_on(volume.nor().image(), g, volume.map.id) == Some(volume.map.size)
        && count_pages(volume, g, spans) == Some(count_told(volume, spans))
        && volume.map_page(spans).is_none()
}

/// Whether no file of an id is on the chip of a volume.
pub(crate) fn is_gone(volume: &Volume<'_, MemBoard>, g: &Geometry, id: u16) -> bool {
    size_on(volume.nor().image(), g, id).is_none()
}
