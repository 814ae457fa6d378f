//! The independent implementation of the four operations and of the part, from the
//! words of documents 01 and 02: what the plan's points give directly, without its stages.

use super::grounds::holding;
use super::plane::Plane;
use super::{Case, Op};
use crate::reference::points::{of_plan, Point};

/// What a case comes to: the number of stages run and the cells of the part, or the
/// first ground that holds.
pub fn run(case: &Case) -> Result<(usize, Vec<u8>), usize> {
    if let Some(&ground) = holding(case).first() {
        return Err(ground);
    }
    let (size, a) = ((case.w, case.h), of_plan(&case.plan));
    let cells = directly(case.op, size, &case.frame, &a);
    Ok((case.op.stages_run(case.stages()), cells))
}

/// The cells of the result: what the operation makes of the frame and A, cut to the frame.
/// Cells outside it are occupied for erosion alone, and free for the others and within them.
pub fn directly(op: Op, size: (usize, usize), frame: &[u8], a: &[Point]) -> Vec<u8> {
    let x = Plane::of_frame(size, frame, op.around().cell());
    on_the_plane(op, &x, a).cells(size)
}

/// The plane that the operation makes of the cells and A, whatever those outside are.
pub fn on_the_plane(op: Op, x: &Plane, a: &[Point]) -> Plane {
    match op {
        Op::Dilate => x.dilated(a),
        Op::Erode => x.eroded(a),
        Op::Open => x.eroded(a).dilated(a),
        Op::Close => x.dilated(a).eroded(a),
    }
}

/// The image of which the part is the start: the second if the number of stages is even,
/// and none, 0, for a refusal.
pub fn image_of(stages: i64) -> u8 {
    match stages {
        ..=-1 => 0,
        _ if stages % 2 == 0 => 2,
        _ => 1,
    }
}

/// The part's length and the number of its image, for what an operation answered and
/// images of these lengths.
pub fn part(stages: i64, (w, h): (usize, usize), images: (usize, usize)) -> (i64, u8) {
    let image = image_of(stages);
    let length = [0, images.0, images.1][usize::from(image)];
    let sides = 1..=240;
    if !sides.contains(&w) || !sides.contains(&h) || length < w * h {
        return (0, image);
    }
    ((w * h) as i64, image)
}
