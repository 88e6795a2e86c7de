//! What a load is given beside the image, and the calls that take it.

use calugnid::State;
use model::{Controller, KeyTable, Settings};

#[derive(Clone, Copy, Debug)]
pub struct Given<'a> {
    pub version: u8,
    /// None is for the calls that take no table.
    pub table: Option<&'a [u8]>,
}

impl<'a> Given<'a> {
    /// A version byte alone.
    pub const fn version(version: u8) -> Given<'static> {
        Given {
            version,
            table: None,
        }
    }

    pub const fn with_table(version: u8, table: &'a [u8]) -> Given<'a> {
        Given {
            version,
            table: Some(table),
        }
    }

    /// What a controller has, given again. The built-in table is left to the
    /// calls that take none.
    pub fn again(settings: &'a Settings) -> Given<'a> {
        if settings.table == KeyTable::BUILT_IN {
            Given::version(settings.version)
        } else {
            Given::with_table(settings.version, &settings.table.0)
        }
    }

    pub fn load_by_model(self, image: &[u8]) -> Result<Controller, u8> {
        match self.table {
            Some(table) => model::load_with_table(self.version, table, image),
            None => model::load(self.version, image),
        }
    }

    pub fn load_by_library(self, state: &mut State, image: &[u8]) -> u8 {
        match self.table {
            Some(table) => state.load_with_table(self.version, table, image),
            None => state.load(self.version, image),
        }
    }

    pub fn run_by_model(
        self,
        image: &[u8],
        list: &[u8],
        answers: &mut [u8],
        saved: &mut [u8],
    ) -> u8 {
        let version = self.version;
        match self.table {
            Some(table) => model::run_image_with_table(version, table, image, list, answers, saved),
            None => model::run_image(version, image, list, answers, saved),
        }
    }

    pub fn run_by_library(
        self,
        image: &[u8],
        list: &[u8],
        answers: &mut [u8],
        saved: &mut [u8],
    ) -> u8 {
        let version = self.version;
        match self.table {
            Some(table) => {
                calugnid::run_image_with_table(version, table, image, list, answers, saved)
            }
            None => calugnid::run_image(version, image, list, answers, saved),
        }
    }
}
