//! A Rust program over the library for C: a parcel without its pond.
//!
//! Build and run it where the library is installed below FOLDER:
//!
//!     rustc -L native=FOLDER/lib -l static=polygon_c first.rs && ./first

/// A point. Coordinates are from -524288 to 524287.
#[repr(C)]
#[derive(Clone, Copy, Debug, Default, PartialEq, Eq)]
pub struct Point {
    pub x: i32,
    pub y: i32,
}

/// What is asked, by words of 32 bits: those of polygon_c_query in polygon_c.h. What is 0 or left out is as the engine has it by default.
pub fn difference() -> [u32; 4] {
    const DIFFERENCE: u32 = 4;
    const NONZERO: u32 = 1;
    // (the first two are the least area of a contour)
    [0, 0, DIFFERENCE, NONZERO]
}

const ROOM: u32 = 10;

#[repr(C)]
#[derive(Clone, Copy, Default)]
struct Sizes {
    points: usize,
    contours: usize,
    shapes: usize,
}

extern "C" {
    fn polygon_c_overlay(
        subject: *const Point,
        subject_points: usize,
        subject_lengths: *const usize,
        subject_contours: usize,
        clip: *const Point,
        clip_points: usize,
        clip_lengths: *const usize,
        clip_contours: usize,
        query: *const u32,
        query_words: usize,
        points: *mut Point,
        points_room: usize,
        contours: *mut usize,
        contours_room: usize,
        shapes: *mut usize,
        shapes_room: usize,
        sizes: *mut Sizes,
    ) -> u32;
}

type Contour = Vec<Point>;

/// Contours in one array, and how many points each has. (No pointer of a slice or a vector is NULL, as the library wants it.)
fn flat(contours: &[Contour]) -> (Vec<Point>, Vec<usize>) {
    (contours.concat(), contours.iter().map(Vec::len).collect())
}

/// A list cut into lists of these lengths.
fn cut<T: Clone>(list: &[T], lengths: &[usize]) -> Vec<Vec<T>> {
    let mut rest = list;
    let mut take = |length: &usize| {
        let (first, after) = rest.split_at(*length);
        rest = after;
        first.to_vec()
    };
    lengths.iter().map(&mut take).collect()
}

/// The shapes of an overlay, the outline of each before its holes; or the status that says why there are none.
pub fn overlay(subject: &[Contour], clip: &[Contour], query: &[u32]) -> Result<Vec<Vec<Contour>>, u32> {
    let ((subject, subject_lengths), (clip, clip_lengths)) = (flat(subject), flat(clip));
    let mut sizes = Sizes { points: subject.len() + clip.len(), contours: 4, shapes: 4 };
    loop {
        let mut points = vec![Point::default(); sizes.points];
        let (mut contours, mut shapes) = (vec![0; sizes.contours], vec![0; sizes.shapes]);
        // SAFETY: each pointer leads to as many elements as the number behind it says, and no two that are written overlap.
        let status = unsafe {
            polygon_c_overlay(
                subject.as_ptr(),
                subject.len(),
                subject_lengths.as_ptr(),
                subject_lengths.len(),
                clip.as_ptr(),
                clip.len(),
                clip_lengths.as_ptr(),
                clip_lengths.len(),
                query.as_ptr(),
                query.len(),
                points.as_mut_ptr(),
                points.len(),
                contours.as_mut_ptr(),
                contours.len(),
                shapes.as_mut_ptr(),
                shapes.len(),
                &mut sizes,
            )
        };
        match status {
            0 => {
                let contours = cut(&points[..sizes.points], &contours[..sizes.contours]);
                return Ok(cut(&contours, &shapes[..sizes.shapes]));
            }
            // (the sizes say now what is needed)
            ROOM => continue,
            _ => return Err(status),
        }
    }
}

fn box_of(left: i32, bottom: i32, right: i32, top: i32) -> Contour {
    [(left, bottom), (right, bottom), (right, top), (left, top)].map(|(x, y)| Point { x, y }).to_vec()
}

fn main() {
    let query = difference();
    for shape in overlay(&[box_of(0, 0, 10, 10)], &[box_of(3, 3, 7, 7)], &query).expect("the status of an overlay") {
        println!("a shape of {} contours", shape.len());
        for contour in shape {
            let points: Vec<String> = contour.iter().map(|it| format!(" ({}, {})", it.x, it.y)).collect();
            println!("{}", points.concat());
        }
    }
    let far = vec![Point { x: 1 << 19, y: 0 }; 3];
    println!("a point out of range: status {}", overlay(&[far], &[], &query).unwrap_err());
}
