//! Document 01, "The image": which images are accepted (17 to 19), and the questions asked of an open one (20).
//!
//! What is accepted is what the page lists and no more: marks of equal heads may differ, places may be out of reach
//! of place 0, levels go to 65,535 (open points A14, A15).

use crate::book::MOST_STATES;
use crate::bytes::{number16, trailer, TRAILER};
use crate::compile::{image_length, EDGE_RECORD, MOST_EDGES, MOST_PLACES, PLACE_RECORD};
use crate::refusal::{refused, refused_at, Refusal};

/// A place record of an accepted image, with its edges beside it. Where its edges begin has been checked and is not
/// kept: nothing asks for it.
#[derive(Clone, PartialEq, Eq, Debug)]
pub struct Place {
    pub fallback: usize,
    pub level: usize,
    pub head: usize,
    pub mark: u8,
    pub edges: Vec<(u8, usize)>,
}

/// An open image. It is had only by `open`.
#[derive(Clone, PartialEq, Eq, Debug)]
pub struct Image {
    places: Vec<Place>,
}

struct PlaceRecord {
    first_edge: usize,
    edge_count: usize,
    fallback: usize,
    level: usize,
    head: usize,
    link: usize,
    mark: u8,
    zero: u8,
}

struct EdgeRecord {
    event: u8,
    zero: u8,
    target: usize,
}

pub fn open(file: &[u8]) -> Result<Image, Refusal> {
    let (places, edges) = records(file).ok_or(refused(17))?;
    place_records(&places, edges.len())?;
    edge_records(&places, &edges)?;
    Ok(opened(&places, &edges))
}

/// Refusal 17: none where the trailer or the length is wrong.
fn records(file: &[u8]) -> Option<(Vec<PlaceRecord>, Vec<EdgeRecord>)> {
    if file.len() < TRAILER {
        return None;
    }
    let trailer = trailer(file);
    let (place_count, edge_count) = (trailer.first_count, trailer.edge_count);
    if trailer.letters != *b"SM" || trailer.form != 1 {
        return None;
    }
    if place_count < 1 || place_count > MOST_PLACES || edge_count > MOST_EDGES {
        return None;
    }
    let length = image_length(place_count, edge_count);
    // An image has no note: its length is the distance.
    if trailer.distance != length as u64 || file.len() != length {
        return None;
    }
    let (place_table, rest) = file.split_at(PLACE_RECORD * place_count);
    let places = place_table
        .chunks(PLACE_RECORD)
        .map(|record| PlaceRecord {
            first_edge: number16(record, 0),
            edge_count: number16(record, 2),
            fallback: number16(record, 4),
            level: number16(record, 6),
            head: number16(record, 8),
            link: number16(record, 10),
            mark: record[12],
            zero: record[13],
        })
        .collect();
    let edges = rest[..EDGE_RECORD * edge_count]
        .chunks(EDGE_RECORD)
        .map(|record| EdgeRecord { event: record[0], zero: record[1], target: number16(record, 2) })
        .collect();
    Some((places, edges))
}

/// Refusal 18, record by record; after all of them the sum of the counts, with the offset just past them.
fn place_records(places: &[PlaceRecord], edge_count: usize) -> Result<(), Refusal> {
    let mut counts_before = 0;
    for (number, place) in places.iter().enumerate() {
        // The fallback is lower, so its own record has been found right before this one is judged by it.
        let own_fields_right = if number == 0 {
            place.head == 0 && place.fallback == 0 && place.level == 0 && place.link == 0 && place.mark == 0
        } else {
            place.head >= 1
                && place.head < MOST_STATES
                && place.fallback < number
                && place.level > places[place.fallback].level
                && place.link == if place.mark != 0 { number } else { places[place.fallback].link }
        };
        if !own_fields_right || place.first_edge != counts_before || place.zero != 0 {
            return Err(refused_at(18, PLACE_RECORD * number));
        }
        counts_before += place.edge_count;
    }
    if counts_before != edge_count {
        return Err(refused_at(18, PLACE_RECORD * places.len()));
    }
    Ok(())
}

/// Refusal 19. The counts are right by now: each edge belongs to one place.
fn edge_records(places: &[PlaceRecord], edges: &[EdgeRecord]) -> Result<(), Refusal> {
    for source in places {
        let mut event_before: Option<u8> = None;
        for number in source.first_edge..source.first_edge + source.edge_count {
            let edge = &edges[number];
            let right = edge.zero == 0
                && event_before.map_or(true, |before| edge.event > before)
                && edge.target >= 1
                && edge.target < places.len()
                && places[edge.target].level <= source.level + 1;
            if !right {
                return Err(refused_at(19, PLACE_RECORD * places.len() + EDGE_RECORD * number));
            }
            event_before = Some(edge.event);
        }
    }
    Ok(())
}

fn opened(places: &[PlaceRecord], edges: &[EdgeRecord]) -> Image {
    let places = places
        .iter()
        .map(|place| Place {
            fallback: place.fallback,
            level: place.level,
            head: place.head,
            mark: place.mark,
            edges: edges[place.first_edge..place.first_edge + place.edge_count]
                .iter()
                .map(|edge| (edge.event, edge.target))
                .collect(),
        })
        .collect();
    Image { places }
}

impl Image {
    pub fn place_count(&self) -> usize {
        self.places.len()
    }

    pub fn edge_count(&self) -> usize {
        self.places.iter().map(|place| place.edges.len()).sum()
    }

    /// A place of this image by its number, or refusal 20.
    pub fn place(&self, number: u64) -> Result<&Place, Refusal> {
        usize::try_from(number).ok().and_then(|number| self.places.get(number)).ok_or(refused(20))
    }

    /// The target of a place's edge on an event, if there is one.
    pub fn target(&self, place: usize, event: u8) -> Option<usize> {
        self.places[place].edges.iter().find(|edge| edge.0 == event).map(|edge| edge.1)
    }

    pub fn fallback(&self, place: usize) -> usize {
        self.places[place].fallback
    }

    pub fn level(&self, place: usize) -> usize {
        self.places[place].level
    }

    pub fn head(&self, place: usize) -> usize {
        self.places[place].head
    }

    pub fn mark(&self, place: usize) -> u8 {
        self.places[place].mark
    }

    /// The place and its fallbacks, place 0 left out: the places on its chain, in chain order.
    pub fn chain(&self, place: usize) -> Vec<usize> {
        let mut chain = Vec::new();
        let mut place = place;
        while place != 0 {
            chain.push(place);
            place = self.places[place].fallback;
        }
        chain
    }
}
