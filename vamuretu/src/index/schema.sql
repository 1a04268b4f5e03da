-- The index of a watcher and of an archive, as docs/ARCHIVE.md tells it. Nodes have their numbers in the system where `nodes` has
-- them, and otherwise those of generals in the run. Lists are JSON. Times are milliseconds since 1970. Digests are SHA-256 in
-- hexadecimal digits. A path is a text, or else bytes: of a watcher's file it counts from the watcher's folder.
-- The system, and how many nodes it has. An archive that names none has an empty id.
CREATE TABLE system (id TEXT NOT NULL, nodes INTEGER NOT NULL);
-- Runs that were judged: those of a watcher by their numbers, and those of an archive by their files and places there. A run of a
-- watcher is a gap if no log came; it has no file. `nodes` has the node that each general is, if an admission shows it. There are
-- n `generals`, of whom m `traitors` were planned for. `decided` is the order of `agreed`. `others` are lists as short as
-- `assumed_faulty` with a yes too, and `missing` are nodes without a log. A finding names those that are `suspected`, and that are
-- neither assumed faulty nor convicted. `findings` are the lines of the verdict, which name generals.
CREATE TABLE runs (
    id INTEGER PRIMARY KEY,
    source TEXT NOT NULL CHECK (source IN ('watcher', 'archive')),
    number INTEGER,
    run_id TEXT NOT NULL,
    nodes TEXT,
    generals INTEGER NOT NULL,
    traitors INTEGER NOT NULL,
    verdict TEXT NOT NULL CHECK (verdict IN ('agreed', 'explained', 'no', 'gap')),
    decided INTEGER,
    assumed_faulty TEXT NOT NULL,
    others TEXT NOT NULL,
    missing TEXT NOT NULL,
    suspected TEXT NOT NULL,
    findings TEXT NOT NULL,
    equal_roots TEXT NOT NULL,
    path BLOB,
    place INTEGER NOT NULL,
    library TEXT NOT NULL,
    judged INTEGER NOT NULL
);
CREATE UNIQUE INDEX runs_of_watcher ON runs (number) WHERE source = 'watcher';
CREATE UNIQUE INDEX runs_of_archive ON runs (path, place) WHERE source = 'archive';
CREATE INDEX runs_by_number ON runs (number, path, place);
CREATE INDEX runs_by_verdict ON runs (verdict, number);
CREATE INDEX runs_by_id ON runs (run_id);
-- Nodes that a run convicts, with the root of their keys there. A watcher has each kind that any judging of the run has found, with
-- the file of the evidence. `other` is the place of the second run of a conviction across two runs of a file, or that of the run.
CREATE TABLE convictions (
    run INTEGER NOT NULL,
    node INTEGER NOT NULL,
    kind TEXT NOT NULL,
    other INTEGER NOT NULL,
    root TEXT NOT NULL,
    evidence TEXT,
    PRIMARY KEY (run, node, kind, other)
) WITHOUT ROWID;
CREATE INDEX convictions_by_node ON convictions (node, run);
-- Files: those that an archive was given, and those that a watcher has stored of the run with this number. `sha256` and `bytes` are
-- of the file as it is stored, `input` and `input_bytes` of what was judged. `fault` says why there is no answer. Evidence of a
-- watcher has its node and kind, and stays when its run is judged again. A file is gone if its folder has it no more.
CREATE TABLE files (
    path BLOB PRIMARY KEY,
    source TEXT NOT NULL CHECK (source IN ('watcher', 'archive')),
    holds TEXT NOT NULL CHECK (holds IN ('runs', 'verdict', 'earlier', 'evidence')),
    number INTEGER,
    node INTEGER,
    kind TEXT,
    bytes INTEGER NOT NULL,
    modified INTEGER,
    sha256 TEXT,
    input TEXT,
    input_bytes INTEGER,
    said TEXT,
    fault TEXT,
    answer TEXT,
    library TEXT NOT NULL,
    program TEXT,
    judged INTEGER NOT NULL,
    gone INTEGER NOT NULL DEFAULT 0
) WITHOUT ROWID;
CREATE INDEX files_by_number ON files (number, path) WHERE source = 'watcher';
-- What was judged of a run of a watcher before. `sha256` is that of what was judged.
CREATE TABLE changes (
    place INTEGER PRIMARY KEY,
    number INTEGER NOT NULL,
    verdict TEXT NOT NULL,
    decided INTEGER,
    assumed_faulty TEXT NOT NULL,
    missing TEXT NOT NULL,
    path TEXT,
    sha256 TEXT,
    library TEXT NOT NULL,
    judged INTEGER NOT NULL
);
CREATE INDEX changes_by_number ON changes (number, place);
-- What was said of a file of an archive before, if something else is said now, or by somebody else.
CREATE TABLE earlier (
    path BLOB NOT NULL,
    turn INTEGER NOT NULL,
    bytes INTEGER NOT NULL,
    sha256 TEXT,
    input TEXT,
    said TEXT NOT NULL,
    answer TEXT,
    library TEXT NOT NULL,
    program TEXT NOT NULL,
    judged INTEGER NOT NULL,
    PRIMARY KEY (path, turn)
) WITHOUT ROWID;
-- Admissions, or why they show no runs. `is_named` is 1 if the name has the number of a run.
CREATE TABLE admissions (
    path BLOB PRIMARY KEY,
    sha256 TEXT NOT NULL,
    fault TEXT,
    is_named INTEGER NOT NULL,
    admission BLOB NOT NULL
) WITHOUT ROWID;
-- The runs that admissions show.
CREATE TABLE admitted (
    run_id TEXT PRIMARY KEY,
    number INTEGER NOT NULL,
    path BLOB NOT NULL
) WITHOUT ROWID;
CREATE INDEX admitted_by_number ON admitted (number);
-- The logs that came to a watcher, the order that each decides, and when it came.
CREATE TABLE logs (
    number INTEGER NOT NULL,
    node INTEGER NOT NULL,
    sha256 TEXT NOT NULL,
    bytes INTEGER NOT NULL,
    decided INTEGER,
    came INTEGER NOT NULL,
    PRIMARY KEY (number, node, sha256)
) WITHOUT ROWID;
-- Logs of runs that are not judged yet, as they came: compressed.
CREATE TABLE waiting (
    number INTEGER NOT NULL,
    node INTEGER NOT NULL,
    sha256 TEXT NOT NULL,
    packed BLOB NOT NULL,
    PRIMARY KEY (number, node, sha256)
);
-- Each time that the index lacked runs whose bundles lay in the folder: how many runs and convictions were taken in again, and
-- the first number above all of these runs.
CREATE TABLE rebuilt (
    place INTEGER PRIMARY KEY,
    runs INTEGER NOT NULL,
    convictions INTEGER NOT NULL,
    below INTEGER NOT NULL,
    began INTEGER NOT NULL,
    ended INTEGER
);
-- Alarms with their JSON, when they were raised, and when they were told.
CREATE TABLE alarms (
    place INTEGER PRIMARY KEY,
    kind TEXT NOT NULL,
    number INTEGER,
    node INTEGER,
    alarm TEXT NOT NULL,
    raised INTEGER NOT NULL,
    told INTEGER
);
CREATE INDEX alarms_untold ON alarms (place) WHERE told IS NULL;
CREATE INDEX alarms_by_number ON alarms (number, kind);
