//! The same update over 16 rows in SQLite: in memory, a prepared statement.

/// Nanoseconds of one update, the best of a number of rounds; none where SQLite was not linked.
pub fn update_time() -> Option<f64> {
    #[cfg(sqlite)]
    return linked::update_time();
    #[cfg(not(sqlite))]
    None
}

pub fn section(update: Option<f64>) -> String {
    match update {
        Some(time) => format!("SQLite, the same update in memory, prepared: {time:.0} ns."),
        None => "SQLite is not installed here, so it is not measured.".into(),
    }
}

#[cfg(sqlite)]
mod linked {
    use crate::work::{best, Work};
    use std::ffi::{c_char, c_int, c_void, CStr};
    use std::ptr::{null, null_mut};

    const UPDATES: u64 = 10_000;
    const ROUNDS: usize = 10;
    const DONE: c_int = 101;

    extern "C" {
        fn sqlite3_open(name: *const c_char, database: *mut *mut c_void) -> c_int;
        fn sqlite3_exec(
            database: *mut c_void,
            text: *const c_char,
            callback: *const c_void,
            context: *const c_void,
            error: *const c_void,
        ) -> c_int;
        fn sqlite3_prepare_v2(
            database: *mut c_void,
            text: *const c_char,
            length: c_int,
            statement: *mut *mut c_void,
            rest: *const c_void,
        ) -> c_int;
        fn sqlite3_step(statement: *mut c_void) -> c_int;
        fn sqlite3_reset(statement: *mut c_void) -> c_int;
        fn sqlite3_changes(database: *mut c_void) -> c_int;
        fn sqlite3_finalize(statement: *mut c_void) -> c_int;
        fn sqlite3_close(database: *mut c_void) -> c_int;
    }

    const TABLE: &CStr = c"CREATE TABLE card (a INTEGER, b TEXT, c INTEGER, d INTEGER);
        WITH RECURSIVE rows(n) AS (SELECT 0 UNION ALL SELECT n + 1 FROM rows WHERE n < 15)
        INSERT INTO card SELECT n, 'RIG' || char(97 + n), 2 * n, n % 8 FROM rows;
        BEGIN";
    const UPDATE: &CStr = c"UPDATE card SET a = a + 1 WHERE a < 1000000";

    /// All updates in one transaction, which is what suits SQLite best.
    pub fn update_time() -> Option<f64> {
        // SAFETY: the database and the statement are made here and used as SQLite asks; every text ends in a zero byte.
        unsafe {
            let (mut database, mut statement) = (null_mut(), null_mut());
            assert_eq!(sqlite3_open(c":memory:".as_ptr(), &mut database), 0);
            assert_eq!(sqlite3_exec(database, TABLE.as_ptr(), null(), null(), null()), 0);
            let prepared =
                sqlite3_prepare_v2(database, UPDATE.as_ptr(), -1, &mut statement, null());
            assert_eq!(prepared, 0);
            let round = || (0..UPDATES).map(|_| update(database, statement)).sum();
            let work = Work::new("SQLite", UPDATES, 16 * UPDATES, round);
            let [time] = best(ROUNDS, [Some(work)]);
            sqlite3_finalize(statement);
            sqlite3_close(database);
            time
        }
    }

    /// How many rows it changed.
    unsafe fn update(database: *mut c_void, statement: *mut c_void) -> u64 {
        assert_eq!(sqlite3_step(statement), DONE);
        let changed = sqlite3_changes(database);
        sqlite3_reset(statement);
        changed as u64
    }
}
