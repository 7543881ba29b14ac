//! The original text, as extract.py wrote it. `plain` has only the listed
//! changes, `hooked` also calls of `hook`. Both share the value types.

#![allow(unused_imports, unused_unsafe, unused_variables, dead_code, unused_parens)]

pub mod structs {
    use crate::shims::*;
    use std::fmt::{Debug, Display};
    use std::num::{NonZeroU16, NonZeroUsize};
    use std::ops::{Deref, DerefMut};
    use uc::TIME_NAN;

    include!(concat!(env!("ORACLE_TEXT"), "/link_idx.rs"));
    include!(concat!(env!("ORACLE_TEXT"), "/traits.rs"));
    include!(concat!(env!("ORACLE_TEXT"), "/disp_structs.rs"));
    include!(concat!(env!("ORACLE_TEXT"), "/est_times.rs"));
    include!(concat!(env!("ORACLE_TEXT"), "/combo_error.rs"));
    include!(concat!(env!("ORACLE_TEXT"), "/validate.rs"));
    include!(concat!(env!("ORACLE_TEXT"), "/network.rs"));
    include!(concat!(env!("ORACLE_TEXT"), "/advance_rewind.rs"));
}

macro_rules! edition {
    ($name:ident, $folder:literal) => {
        pub mod $name {
            pub mod train_disp {
                use crate::shims::*;
                use crate::text::structs::*;
                include!(concat!(env!("ORACLE_TEXT"), $folder, "train_disp.rs"));
            }
            pub mod free_path {
                use super::train_disp::TrainDisp;
                use crate::shims::*;
                use crate::text::structs::*;
                include!(concat!(env!("ORACLE_TEXT"), $folder, "free_path.rs"));
            }
            pub mod dispatch {
                use super::free_path::FreePathStatus;
                use super::train_disp::TrainDisp;
                use crate::shims::*;
                use crate::text::structs::*;
                include!(concat!(env!("ORACLE_TEXT"), $folder, "dispatch.rs"));
            }
        }
    };
}

edition!(plain, "/plain/");
edition!(hooked, "/hooked/");

include!(concat!(env!("ORACLE_TEXT"), "/branches.rs"));
