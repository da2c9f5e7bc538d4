//! SQLite in memory through its C interface, with the statement prepared once.

use bench::engines::{rows_of, ROWS};
use bench::workloads::Workload;
use capeshard::COLUMNS;
use std::ffi::{c_char, c_int, c_void, CStr, CString};
use std::ptr::{null, null_mut};

#[link(name = "libsqlite3.so.0", kind = "dylib", modifiers = "+verbatim")]
extern "C" {
    fn sqlite3_libversion() -> *const c_char;
    fn sqlite3_open_v2(file: *const c_char, database: *mut *mut c_void, flags: c_int, vfs: *const c_char) -> c_int;
    fn sqlite3_close(database: *mut c_void) -> c_int;
    fn sqlite3_errmsg(database: *mut c_void) -> *const c_char;
    fn sqlite3_prepare_v2(
        database: *mut c_void,
        sql: *const c_char,
        length: c_int,
        statement: *mut *mut c_void,
        tail: *mut *const c_char,
    ) -> c_int;
    fn sqlite3_bind_int64(statement: *mut c_void, parameter: c_int, value: i64) -> c_int;
    fn sqlite3_step(statement: *mut c_void) -> c_int;
    fn sqlite3_column_int64(statement: *mut c_void, column: c_int) -> i64;
    fn sqlite3_reset(statement: *mut c_void) -> c_int;
    fn sqlite3_finalize(statement: *mut c_void) -> c_int;
}

const OK: c_int = 0;
const ROW: c_int = 100;
const DONE: c_int = 101;
/// Read, write, create, and no locks, since one thread uses it.
const FLAGS: c_int = 0x2 | 0x4 | 0x8000;

pub fn version() -> String {
    // SAFETY: the library's version is a text that lasts.
    unsafe { CStr::from_ptr(sqlite3_libversion()) }.to_string_lossy().into_owned()
}

/// The tables in memory, plain or with indexes, and the statement. The answer slice is kept.
pub struct Sqlite {
    database: *mut c_void,
    statement: *mut c_void,
    columns: Vec<usize>,
    answer: Vec<u32>,
    rows: usize,
}

impl Sqlite {
    pub fn new(workload: &Workload, columns: &[usize], indexed: bool) -> Sqlite {
        let mut database = null_mut();
        // SAFETY: the name ends with 0; the pointer is this function's own.
        assert_eq!(unsafe { sqlite3_open_v2(c":memory:".as_ptr(), &mut database, FLAGS, null()) }, OK);
        let answer = vec![0; COLUMNS * ROWS as usize];
        let mut sqlite = Sqlite { database, statement: null_mut(), columns: columns.to_vec(), answer, rows: 0 };
        sqlite.execute("PRAGMA temp_store = MEMORY");
        for (number, (columns, rows)) in workload.tables.iter().enumerate() {
            let declared: Vec<String> = columns.iter().map(|c| format!("c{c} INTEGER NOT NULL")).collect();
            sqlite.execute(&format!("CREATE TABLE t{number} ({})", declared.join(", ")));
            let marks = vec!["?"; columns.len()].join(", ");
            let insert = sqlite.prepare(&format!("INSERT INTO t{number} VALUES ({marks})"));
            sqlite.execute("BEGIN");
            for row in rows {
                // SAFETY: the statement is prepared and not yet finalized.
                unsafe {
                    for (parameter, value) in (1..).zip(row.values()) {
                        assert_eq!(sqlite3_bind_int64(insert, parameter, i64::from(*value)), OK);
                    }
                    assert_eq!(sqlite3_step(insert), DONE);
                    sqlite3_reset(insert);
                }
            }
            // SAFETY: as above, and it is not used again.
            unsafe { sqlite3_finalize(insert) };
            sqlite.execute("COMMIT");
        }
        if indexed {
            for (number, index) in workload.indexes.iter().enumerate() {
                sqlite.execute(&format!("CREATE INDEX i{number} ON {index}"));
            }
            sqlite.execute("ANALYZE");
        }
        sqlite.statement = sqlite.prepare(&workload.sql);
        sqlite
    }

    fn prepare(&self, sql: &str) -> *mut c_void {
        let text = CString::new(sql).expect("no zero byte");
        let mut statement = null_mut();
        // SAFETY: the database is open and the text ends with 0.
        unsafe {
            let status = sqlite3_prepare_v2(self.database, text.as_ptr(), -1, &mut statement, null_mut());
            assert_eq!(status, OK, "{sql}: {}", CStr::from_ptr(sqlite3_errmsg(self.database)).to_string_lossy());
        }
        statement
    }

    fn execute(&self, sql: &str) {
        let statement = self.prepare(sql);
        // SAFETY: the statement is prepared here and used nowhere else.
        unsafe {
            while sqlite3_step(statement) == ROW {}
            assert_eq!(sqlite3_finalize(statement), OK, "{sql}");
        }
    }

    /// One run: every row of the prepared statement, its values put in the answer's slots, and a reset.
    pub fn run(&mut self) {
        self.rows = 0;
        // SAFETY: the statement is prepared and not yet finalized.
        unsafe {
            loop {
                let status = sqlite3_step(self.statement);
                if status != ROW {
                    assert_eq!(status, DONE);
                    break;
                }
                let slots = &mut self.answer[COLUMNS * self.rows..][..COLUMNS];
                for (index, column) in (0..).zip(&self.columns) {
                    slots[*column] = sqlite3_column_int64(self.statement, index) as u32;
                }
                self.rows += 1;
            }
            assert_eq!(sqlite3_reset(self.statement), OK);
        }
    }

    /// Its rows, put in ascending order, which the statement does not ask for.
    pub fn rows(&self) -> Vec<[u32; COLUMNS]> {
        let mut rows = rows_of(&self.answer[..COLUMNS * self.rows]);
        rows.sort();
        rows
    }
}

impl Drop for Sqlite {
    fn drop(&mut self) {
        // SAFETY: nothing uses them afterwards.
        unsafe {
            sqlite3_finalize(self.statement);
            sqlite3_close(self.database);
        }
    }
}
