-- Temporary tables are kept in memory, as the database is.
PRAGMA temp_store = MEMORY;

-- The columns of moz_places and moz_historyvisits that a script of visits fills, with their indexes.
CREATE TABLE moz_places (
    id INTEGER PRIMARY KEY,
    url TEXT NOT NULL UNIQUE,
    typed INTEGER NOT NULL DEFAULT 0
);
CREATE TABLE moz_historyvisits (
    id INTEGER PRIMARY KEY,
    place_id INTEGER NOT NULL,
    visit_date INTEGER NOT NULL,
    visit_type INTEGER NOT NULL
);
CREATE INDEX moz_historyvisits_placedateindex ON moz_historyvisits (place_id, visit_date);
CREATE INDEX moz_historyvisits_dateindex ON moz_historyvisits (visit_date);

-- The replies, in order.
CREATE TABLE replies (
    visit INTEGER PRIMARY KEY,
    page INTEGER NOT NULL,
    frecency INTEGER NOT NULL
);
