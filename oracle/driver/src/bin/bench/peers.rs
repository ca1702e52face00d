//! The C++ beside ours (oracle/peers), where a compiler was found.

pub use linked::{import_path, placements, Operand};

#[cfg(peers)]
mod linked {
    use driver::lent::Handed;
    use driver::path::{HandedFrame, ToldCorners};
    use judge::path::Item;
    use judge::table::Table;
    use judge::Point;
    use std::ffi::c_void;

    extern "C" {
        fn peers_operand(starts: *const u32, parts: usize, corners: *const i32) -> *mut c_void;
        fn peers_free(operand: *mut c_void);
        fn peers_t1_all(left: *const c_void, right: *const c_void, out: *mut i32) -> usize;
    }

    type Placed = unsafe extern "C" fn(*const u32, usize, *const i32, i32, i32) -> u32;

    extern "C" {
        fn peers_placement_whole(s: *const u32, parts: usize, c: *const i32, x: i32, y: i32)
            -> u32;
        fn peers_placement_leaving(
            s: *const u32,
            parts: usize,
            c: *const i32,
            x: i32,
            y: i32,
        ) -> u32;
        fn peers_placement_checked(
            starts: *const u32,
            starts_length: usize,
            corners: *const i32,
            corners_length: usize,
            x: i32,
            y: i32,
        ) -> u32;
    }

    extern "C" {
        fn peers_import_path(
            path: *const Item,
            items: usize,
            frame: HandedFrame,
            corners: *mut i32,
            corners_room: usize,
        ) -> ToldCorners;
    }

    /// A path by a plain loop that judges it and one that writes its corners.
    pub fn import_path(
        path: Handed<Item>,
        frame: HandedFrame,
        corners: Handed<i32>,
    ) -> Option<ToldCorners> {
        // Safe: the C++ reads the items and writes within the lent numbers.
        let told =
            unsafe { peers_import_path(path.at, path.length, frame, corners.at, corners.length) };
        Some(told)
    }

    /// A place by contours: every edge asked, each contour left at the first edge that
    /// the place is right of, and that after the refusals.
    pub fn placements() -> Option<[fn(&Table, Point) -> u32; 3]> {
        // Safe: the C++ reads the lists within the starts.
        fn placed(f: Placed, table: &Table, (x, y): Point) -> u32 {
            let (starts, corners) = (table.starts.as_ptr(), table.corners.as_ptr());
            unsafe { f(starts, table.parts(), corners, x, y) }
        }
        fn checked(Table { starts, corners }: &Table, (x, y): Point) -> u32 {
            let (s, c) = (starts.as_ptr(), corners.as_ptr());
            unsafe { peers_placement_checked(s, starts.len(), c, corners.len(), x, y) }
        }
        Some([
            |table, place| placed(peers_placement_whole, table, place),
            |table, place| placed(peers_placement_leaving, table, place),
            checked,
        ])
    }

    /// An operand as the C++ takes it, and as CGAL does where it is installed.
    pub struct Operand {
        made: *mut c_void,
        #[cfg(cgal)]
        exact: *mut c_void,
    }

    impl Operand {
        // Safe: the C++ reads the lists within the starts and keeps a copy.
        pub fn new(table: &Table) -> Option<Self> {
            let (starts, corners) = (&table.starts, &table.corners);
            let parts = table.parts();
            let made = unsafe { peers_operand(starts.as_ptr(), parts, corners.as_ptr()) };
            Some(Self {
                made,
                #[cfg(cgal)]
                exact: unsafe { cgal_operand(made) },
            })
        }

        /// All pairs by the textbook merge, into a list that has room for them.
        pub fn textbook(&self, other: &Self, out: &mut [i32]) -> usize {
            unsafe { peers_t1_all(self.made, other.made, out.as_mut_ptr()) }
        }
    }

    impl Drop for Operand {
        fn drop(&mut self) {
            unsafe { peers_free(self.made) };
            #[cfg(cgal)]
            unsafe {
                cgal_free(self.exact)
            };
        }
    }

    #[cfg(cgal)]
    extern "C" {
        fn cgal_operand(operand: *const c_void) -> *mut c_void;
        fn cgal_free(operand: *mut c_void);
        fn cgal_all(left: *const c_void, right: *const c_void) -> usize;
    }

    impl Operand {
        /// All pairs by CGAL; none where it is not installed.
        #[cfg(cgal)]
        pub fn cgal(&self, other: &Self) -> Option<usize> {
            Some(unsafe { cgal_all(self.exact, other.exact) })
        }

        #[cfg(not(cgal))]
        pub fn cgal(&self, _other: &Self) -> Option<usize> {
            None
        }
    }
}

#[cfg(not(peers))]
mod linked {
    use driver::lent::Handed;
    use driver::path::{HandedFrame, ToldCorners};
    use judge::path::Item;
    use judge::table::Table;
    use judge::Point;

    pub fn import_path(
        _path: Handed<Item>,
        _frame: HandedFrame,
        _corners: Handed<i32>,
    ) -> Option<ToldCorners> {
        None
    }

    pub fn placements() -> Option<[fn(&Table, Point) -> u32; 3]> {
        None
    }

    /// There was no C++ compiler, so there is none of these.
    pub enum Operand {}

    impl Operand {
        pub fn new(_table: &Table) -> Option<Self> {
            None
        }

        pub fn textbook(&self, _other: &Self, _out: &mut [i32]) -> usize {
            match *self {}
        }

        pub fn cgal(&self, _other: &Self) -> Option<usize> {
            match *self {}
        }
    }
}
