//! (f) Shapes that are hard for a plain search, with answers from another planner
//! (data/hard-shapes.txt, one row a shape). The library is asked for every row; how long it
//! takes is measured in bench/, and nothing here fails where the machine is slower.

use musqerpi_tests::cases::Case;
use musqerpi_tests::check::assert_plan_of;
use musqerpi_tests::expect::{library_gives, library_refuses};
use musqerpi_tests::hard::rows;
use musqerpi_tests::reference::grounds::{first, SHAPE};
use musqerpi_tests::reference::plans::to_plan_list;
use musqerpi_tests::reference::points::of_shape;

#[test]
fn the_file_holds_shapes_and_plans_of_them() {
    let rows = rows();
    assert_eq!(rows.len(), 75);
    for row in &rows {
        assert_eq!(first(&SHAPE, &[&row.shape]), None, "row {}", row.number);
        if let Some(masks) = &row.masks {
            let points = of_shape(&row.shape);
            assert_plan_of(&points, &to_plan_list(&points, masks));
        }
    }
}

#[test]
fn every_row() {
    for row in &rows() {
        println!("row {}", row.number);
        let case = Case::of_planning(&row.shape, 32);
        match &row.masks {
            None => library_refuses(&case, 10),
            Some(masks) => library_gives(&case, &to_plan_list(&of_shape(&row.shape), masks)),
        }
    }
}
